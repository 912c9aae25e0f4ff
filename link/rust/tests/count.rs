//! The entries that a list of accesses makes, counted from the accesses: a list of that many is enough, and
//! one of one less is not. The accesses are the header's example.

use mangerday::{Asserted, Ports, Record, Refused, Written};

const ONE: [u32; 2] = [1, 0];
const ZERO: [u32; 2] = [0, 1];
const ENTRY: usize = 6;

/// The accesses in a list of so many entries: the last one's answer, and the last record.
fn run(entries: usize) -> Result<(Result<Asserted, Refused>, Record), Refused> {
    let (mut nodes, mut list, mut ports) = ([0; 96], vec![0; entries * ENTRY], Ports::default());
    let mut memory = Record::fresh(1, 1, &mut nodes, &mut ports)?;
    let a = memory.variable(&mut nodes, 8)?;
    let not_a = memory.ite(&mut nodes, a, 0, 1)?;

    // Two of the writes count: their enables may be 1.
    for (enable, address, data, written) in [
        (ONE, ZERO, ONE, Written::Entered(0)),
        ([a, not_a], ONE, ZERO, Written::Entered(1)),
        (ZERO, ONE, ONE, Written::Idle),
    ] {
        assert_eq!(memory.write(&mut nodes, &mut list, &enable, &address, &data)?, written);
    }
    // Where their conditions hold, the words of these asserts are there.
    for (b, address, data) in [(1, ZERO, ONE), (a, ONE, ZERO)] {
        assert_eq!(memory.assert(&mut nodes, &mut list, b, &address, &data)?, Asserted::Kept);
    }
    // Where a does not hold, X is there.
    let last = memory.assert(&mut nodes, &mut list, 1, &ONE, &ZERO);
    Ok((last, memory))
}

#[test]
fn just_enough() {
    let (last, memory) = run(3).expect("accepted");
    assert_eq!((last, memory.entries), (Ok(Asserted::Entered), 3));
}

#[test]
fn one_entry_less() {
    let (last, memory) = run(2).expect("accepted");
    assert_eq!((last, memory.entries), (Err(Refused(8)), 2));
}
