//! A memory that owns its words: conditions against all assignments of a few variables, refusals by their rows and
//! sentences with nothing changed, and conditions of another memory.

use mangerday::{reason, row, run_case, word};
use mangerday::{Asserted, Bit, Condition, FormulaRefused, Listed, Memory, Predicate, Record, Refused, Written};
use std::panic::{catch_unwind, AssertUnwindSafe};

/// What can be seen of a memory: its record, and what its ports hold, by reads that are not enabled.
fn seen(memory: &mut Memory) -> (Record, Vec<Vec<Bit>>) {
    let address = word(0, memory.record().n as usize);
    let held = (0..4).map(|port| memory.read(port, Bit::ZERO, &address).expect("accepted")).collect();
    (memory.record(), held)
}

/// A call that a row refuses, and that changes nothing. The reads are made once before, so that the nodes which they
/// need are there.
fn refused<T: std::fmt::Debug>(memory: &mut Memory, row: u32, call: impl Fn(&mut Memory) -> Result<T, Refused>) {
    seen(memory);
    let before = seen(memory);
    let refused = call(memory).expect_err("refused");
    assert_eq!((refused, refused.to_string()), (Refused(row), format!("refused {row}: {}", reason(row))));
    assert_eq!(seen(memory), before);
}

#[test]
fn conditions() -> Result<(), Refused> {
    let mut memory = Memory::new(1, 1)?;
    let [a, b, c] = [memory.variable(8)?, memory.variable(9)?, memory.variable(63)?];
    let [low, high] = [memory.xor(b, c)?, memory.and(b, c)?];
    let (mixed, either) = (memory.ite(a, low, high)?, memory.or(a, b)?);
    for i in 0..8 {
        let [x, y, z] = [i & 1 == 1, i & 2 == 2, i & 4 == 4];
        let assignment = u64::from(x) << 8 | u64::from(y) << 9 | u64::from(z) << 63 | (i % 3) << 20;
        assert_eq!(memory.evaluate(mixed, assignment), if x { y != z } else { y && z });
        assert_eq!(memory.evaluate(either, assignment), x || y);
        assert_eq!([Condition::ZERO, Condition::ONE].map(|f| memory.evaluate(f, assignment)), [false, true]);
    }
    let (not_high, none) = (memory.not(high)?, memory.xor(mixed, mixed)?);
    assert_eq!(memory.and(high, not_high)?, Condition::ZERO);
    assert_eq!((none, memory.witness(none), memory.witness(Condition::ONE)), (Condition::ZERO, None, Some(0)));
    assert_eq!(memory.witness(high), Some(1 << 9 | 1 << 63));
    assert!(memory.evaluate(mixed, memory.witness(mixed).expect("it holds somewhere")));
    assert_eq!(memory.text(high)?, "(9 0 (63 0 1))");
    let bit = memory.bit(a)?;
    assert_eq!(memory.word_text(&[bit, Bit::X, Bit::ZERO])?, "0:1 1:1 (8 0 1):(8 1 0)");
    Ok(())
}

/// The parity of many variables has two nodes for each, and a text twice as long with each.
#[test]
fn long_texts() -> Result<(), Refused> {
    let mut memory = Memory::new(1, 1)?;
    let a = memory.variable(8)?;
    let mut odd = Condition::ZERO;
    for variable in 8..64 {
        let x = memory.variable(variable)?;
        odd = memory.xor(odd, x)?;
        if variable == 16 {
            let text = memory.text(odd)?;
            assert!(text.len() > 2048);
            assert_eq!(memory.text_within(odd, text.len())?, text);
            assert_eq!(memory.text_within(odd, text.len() - 1), Err(Refused(row::TEXT_FULL)));
        }
    }
    refused(&mut memory, row::TEXT_FULL, |memory| memory.text(odd));
    refused(&mut memory, row::TEXT_FULL, |memory| memory.text_within(a, 6));
    refused(&mut memory, row::TEXT_FULL, |memory| memory.text_within(Condition::ONE, 0));
    assert_eq!((memory.text_within(a, 7)?.as_str(), memory.witness(odd)), ("(8 0 1)", Some(1 << 63)));
    Ok(())
}

#[test]
fn rows() -> Result<(), Refused> {
    assert_eq!(Memory::new(0, 1).unwrap_err(), Refused(row::SIZES));
    assert_eq!(Memory::new(u32::MAX, u32::MAX).unwrap_err(), Refused(row::SIZES));
    assert_eq!(Memory::with_room(1, 1, 1, 1).unwrap_err(), Refused(row::STORE));

    const NODES: usize = 24;
    let mut memory = Memory::with_room(2, 1, NODES, 1)?;
    let (a, zero) = (memory.variable(8)?, word(0, 2));
    let (one, data) = (Bit::ONE, [memory.bit(a)?]);
    refused(&mut memory, row::LENGTHS, |memory| memory.write(one, &[one], &data));
    refused(&mut memory, row::LENGTHS, |memory| memory.read(0, one, &[]));
    refused(&mut memory, row::LENGTHS, |memory| memory.check(a, &zero, &[]));
    refused(&mut memory, row::NODE, |memory| memory.variable(7));
    refused(&mut memory, row::NODE, |memory| memory.variable(64));
    refused(&mut memory, row::PAIR, |memory| memory.write(Bit { h: a, l: Condition::ZERO }, &zero, &data));
    refused(&mut memory, row::ADDRESS, |memory| memory.assert(a, &[Bit::X, one], &data));
    refused(&mut memory, row::PORT, |memory| memory.read(4, one, &zero));
    assert_eq!(memory.write(one, &zero, &data)?, Written::Entered(0));
    refused(&mut memory, row::LIST_FULL, |memory| memory.write(one, &zero, &data));
    assert_eq!(memory.write(Bit::ZERO, &zero, &data)?, Written::Idle);
    for variable in 9.. {
        if memory.record().nodes as usize == NODES {
            refused(&mut memory, row::STORE_FULL, |memory| memory.variable(variable));
            break;
        }
        memory.variable(variable)?;
    }
    Ok(())
}

#[test]
fn accesses() -> Result<(), Refused> {
    let mut memory = Memory::new(1, 2)?;
    let a = memory.variable(8)?;
    assert_eq!(memory.assert(a, &word(0, 1), &word(2, 2))?, Asserted::Entered);
    assert_eq!(memory.assert(a, &word(0, 1), &word(2, 2))?, Asserted::Kept);
    let read = memory.read(3, Bit::ONE, &word(0, 1))?;
    assert_eq!(memory.word_text(&read)?, "1:(8 1 0) (8 1 0):1");
    assert_eq!(memory.read(3, Bit::ZERO, &word(1, 1))?, read);
    memory.check(Condition::ONE, &word(0, 1), &word(2, 2))?;
    assert_eq!((memory.checked(), memory.asserted()), (a, Condition::ONE));
    let fails = memory.not(a)?;
    assert_eq!(memory.witness(fails), Some(0));
    Ok(())
}

#[test]
fn formulas() -> Result<(), FormulaRefused> {
    let begin = |entries| Memory::with_room(1, 1, 64, entries).expect("accepted");
    let mut memory = begin(2);
    let a = memory.variable(8).expect("accepted");
    let at = |address, data| Predicate { address: word(address, 1), data: word(data, 1) };
    let table = [at(0, 1), at(1, 0)];
    let listed = memory.assert_formula(&format!("N m1 & (b{} -> m0)", a.node()), &table)?;
    let first = Listed { step: 0, condition: a, predicate: 0 };
    assert_eq!(listed, [first, Listed { step: 1, condition: Condition::ONE, predicate: 1 }]);
    assert_eq!(memory.check_formula("m0&m0&m0&m0", &table)?.len(), 4);
    for (text, row, place) in [("m0 & b2 -> m1", row::FORMULA, 5), ("", row::FORMULA, 0), ("m2", row::FORMULA, 0)] {
        let refused = memory.check_formula(text, &table);
        assert_eq!(refused, Err(FormulaRefused::Text { row, place }), "{text}");
    }
    let short = [Predicate { address: word(0, 1), data: vec![] }];
    assert_eq!(memory.check_formula("m0", &short), Err(FormulaRefused::Whole(Refused(row::LENGTHS))));
    assert_eq!(memory.check_formula("m0", &[]), Err(FormulaRefused::Text { row: row::FORMULA, place: 0 }));

    let mut small = begin(1);
    let stopped = FormulaRefused::Stopped { row: row::LIST_FULL, listed: 2, made: 1 };
    assert_eq!((small.assert_formula("N m1 & m0", &table), small.record().entries), (Err(stopped), 1));
    assert_eq!((stopped.row(), stopped.reason()), (8, reason(8)));
    Ok(())
}

#[test]
fn other_memory() -> Result<(), Refused> {
    let (mut memory, mut other) = (Memory::new(1, 1)?, Memory::new(1, 1)?);
    let (a, theirs) = (memory.variable(8)?, other.variable(8)?);
    let (foreign, one) = (other.bit(theirs)?, [Bit::ONE]);
    assert_ne!(a, theirs);
    assert_eq!(memory.text(a)?, other.text(theirs)?);
    seen(&mut memory);
    let before = seen(&mut memory);
    let table = [Predicate { address: word(0, 1), data: vec![foreign] }];
    let calls: [&dyn Fn(&mut Memory) -> bool; 9] = [
        &|memory| memory.and(a, theirs).is_ok(),
        &|memory| memory.evaluate(theirs, 0),
        &|memory| memory.witness(theirs).is_some(),
        &|memory| memory.text(theirs).is_ok(),
        &|memory| memory.write(foreign, &one, &one).is_ok(),
        &|memory| memory.read(0, Bit::ONE, &[foreign]).is_ok(),
        &|memory| memory.assert(theirs, &one, &one).is_ok(),
        &|memory| memory.check(a, &one, &[foreign]).is_ok(),
        &|memory| memory.check_formula("m0", &table).is_ok(),
    ];
    for (i, call) in calls.iter().enumerate() {
        assert!(catch_unwind(AssertUnwindSafe(|| call(&mut memory))).is_err(), "call {i} was accepted");
    }
    assert_eq!(seen(&mut memory), before);
    assert_eq!(memory.write(Bit::X, &[Bit::X], &one)?, Written::Entered(0));
    Ok(())
}

/// Numbers, sentences and words.
#[test]
fn told() {
    assert_eq!((reason(0), reason(17), reason(u32::MAX)), ("accepted", "no row of the table", "no row of the table"));
    assert_eq!((row::SIZES, row::LIST_FULL, row::NESTING), (1, 8, 16));
    assert_eq!(Refused(9).to_string(), "refused 9: no space for a node");
    assert_eq!((word(5, 3), word(1, 70).len()), (vec![Bit::ONE, Bit::ZERO, Bit::ONE], 70));
    assert!(catch_unwind(|| word(8, 3)).is_err());

    let refused = run_case(&[1, 1, 0, 0, 1, 0]).unwrap_err();
    assert_eq!((refused.row, refused.after, refused.reason()), (row::FILE_SHORT, 0, "the file ends early"));
    assert_eq!(refused.to_string(), "refused 10 after 0: the file ends early");
    assert_eq!(run_case(&[1, 1, 0, 0, 0, 0]).as_deref(), Ok("end 0\n"));
}
