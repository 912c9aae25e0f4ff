//! The paper's example by a memory that owns its words: 1 is written to location 1 or 0, as variable 8 says; then
//! location 0 is read, and checked against 1.

use mangerday::{word, Bit, Condition, Memory, Refused, Written};

fn run() -> Result<(), Refused> {
    let mut memory = Memory::new(1, 1)?;
    let a = memory.variable(8)?;

    let address = memory.bit(a)?;
    match memory.write(Bit::ONE, &[address], &[Bit::ONE])? {
        Written::Entered(place) => println!("write {place}"),
        Written::Idle => println!("write idle"),
    }
    let read = memory.read(0, Bit::ONE, &word(0, 1))?;
    println!("read {}", memory.word_text(&read)?);
    memory.check(Condition::ONE, &word(0, 1), &word(1, 1))?;
    println!("check {}", memory.text(memory.checked())?);
    println!("end {}", memory.record().entries);

    // Where the check fails: there variable 8 is 1.
    let fails = memory.not(memory.checked())?;
    assert_eq!(memory.witness(fails), Some(1 << 8));
    Ok(())
}

fn main() {
    if let Err(refused) = run() {
        eprintln!("{refused}");
        std::process::exit(1);
    }
}
