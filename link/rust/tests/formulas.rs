//! Written formulas: one that is accepted, one that is outside the language, and one that is stopped.

use mangerday::{FormulaRefused, Ports, Record, Refused};

const ENTRY: usize = 6;

/// Predicate 0 is 1 at 0, predicate 1 is 0 at 1; then a part of another.
const TABLE: [u32; 10] = [0, 1, 1, 0, 1, 0, 0, 1, 1, 1];

/// A memory with variable 8 as node 2.
fn begin(nodes: &mut [u32]) -> Result<Record, Refused> {
    let mut memory = Record::fresh(1, 1, nodes, &mut Ports::default())?;
    memory.variable(nodes, 8)?;
    Ok(memory)
}

#[test]
fn accepted() {
    let (mut nodes, mut list, mut answer) = ([0; 96], [0; 2 * ENTRY], [7; 7]);
    let mut memory = begin(&mut nodes).expect("accepted");
    let listed = memory.assert_formula(&mut nodes, &mut list, b"N m1 & (b2 -> m0)", &TABLE, &mut answer);
    assert_eq!((listed, answer, memory.entries), (Ok(2), [0, 2, 0, 1, 1, 1, 7], 2));
    let listed = memory.check_formula(&mut nodes, &list, b"b2 -> m0 & m1", &TABLE, &mut answer);
    assert_eq!((listed, answer, memory.checked), (Ok(2), [0, 2, 0, 0, 2, 1, 7], 1));
}

#[test]
fn faults() {
    let (mut nodes, mut list, mut answer) = ([0; 96], [0; 2 * ENTRY], [7; 6]);
    let mut memory = begin(&mut nodes).expect("accepted");
    let before = (memory, nodes);
    for (text, row, place) in [
        (&b"m0 & b2 -> m1"[..], 15, 5),
        (b"m0 &", 15, 4),
        (b"m0 & m2", 15, 5),
        (b"m0 & (b3 -> m1)", 15, 6),
        (b"NNNNNNNNNNNNNNNNNNNNNNNNNNNNNNNNNm0", 16, 32),
    ] {
        let refused = memory.assert_formula(&mut nodes, &mut list, text, &TABLE, &mut answer);
        assert_eq!(refused, Err(FormulaRefused::Text { row, place }));
        let said = format!("refused {row} at {place}: {}", mangerday::reason(row));
        assert_eq!(refused.unwrap_err().to_string(), said);
    }
    let refused = memory.check_formula(&mut nodes, &list, b"m0 & m1 & m0", &TABLE, &mut answer);
    assert_eq!(refused, Err(FormulaRefused::Whole(Refused(13))));
    assert_eq!(((memory, nodes), list, answer), (before, [0; 2 * ENTRY], [7; 6]));
}

#[test]
fn stopped() {
    let (mut nodes, mut list, mut answer) = ([0; 96], [0; ENTRY], [7; 6]);
    let mut memory = begin(&mut nodes).expect("accepted");
    let refused = memory.assert_formula(&mut nodes, &mut list, b"m0 & N m1", &TABLE, &mut answer);
    assert_eq!(refused, Err(FormulaRefused::Stopped { row: 8, listed: 2, made: 1 }));
    assert_eq!((answer, memory.entries, list), ([0, 1, 0, 1, 1, 1], 1, [1, 0, 0, 1, 1, 0]));
}
