//! The paper's example by the calls on lent words: 1 is written to location 1 or 0, as variable 8 says; then location
//! 0 is read, and checked against 1.

use mangerday::{Ports, Record, Refused, Written};

/// A condition's text: 0, 1 or (v low high).
fn text(memory: &Record, nodes: &[u32], node: u32) -> Result<String, Refused> {
    let mut bytes = [0; 256];
    let length = memory.text(nodes, node, &mut bytes)?;
    Ok(String::from_utf8_lossy(&bytes[..length]).into_owned())
}

fn main() -> Result<(), Refused> {
    let (mut nodes, mut list, mut ports, mut word) = ([0; 96], [0; 24], Ports::default(), [0; 2]);
    let (one, zero) = ([1, 0], [0, 1]);
    let mut memory = Record::fresh(1, 1, &mut nodes, &mut ports)?;
    let a = memory.variable(&mut nodes, 8)?;
    let not_a = memory.ite(&mut nodes, a, 0, 1)?;

    match memory.write(&mut nodes, &mut list, &one, &[a, not_a], &one)? {
        Written::Entered(place) => println!("write {place}"),
        Written::Idle => println!("write idle"),
    }
    memory.read(&mut nodes, &list, &mut ports, 0, &one, &zero, &mut word)?;
    println!("read {}:{}", text(&memory, &nodes, word[0])?, text(&memory, &nodes, word[1])?);
    memory.check(&mut nodes, &list, 1, &zero, &one)?;
    println!("check {}", text(&memory, &nodes, memory.checked)?);
    println!("end {}", memory.entries);
    Ok(())
}
