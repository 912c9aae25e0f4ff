//! The symbolic memory model for simulators in Rust: safe calls over the archive of the proved functions.
//!
//! A [`Memory`] owns all the words of a memory, and is what a simulator needs. What follows are the same calls on words
//! that the caller lends, as in C: for memories in buffers of the caller's own.
//!
//! A condition is a node, a number; the nodes are three words each in a lent slice: variable, low
//! child, high child. Node 0 is false, node 1 true. A pair of nodes `h, l` stands for a bit that may
//! be 1 where `h` holds and 0 where `l` holds: `1, 0` is 1, `0, 1` is 0, `1, 1` is X. An address is n
//! pairs, a data word w pairs, lowest bit first and `h` before `l`; an enable is one pair. The memory
//! is a [`Record`], node words and list words together; they go from call to call as the last call
//! left them, and so do the read [`Ports`], which `fresh` begins and `read` alone sees.
//!
//! Any words may be lent. A call tests its rows of the panel's table in the order listed for it. One that
//! is turned down answers [`Refused`] with the row's number, which [`mod@row`] names, and leaves record, nodes
//! below the count, list, ports and answer words as they were; a formula that is stopped at one of its
//! accesses leaves those that were made before it. A refusal is shown with its row's sentence.
//!
//! ```
//! use mangerday::{Ports, Record, Written};
//!
//! let (mut nodes, mut list, mut ports) = ([0; 96], [0; 24], Ports::default());
//! let mut memory = Record::fresh(1, 1, &mut nodes, &mut ports)?;
//! let a = memory.variable(&mut nodes, 8)?;
//! let not_a = memory.ite(&mut nodes, a, 0, 1)?;
//! // 1 is stored at location 1 where variable 8 is 1, and at location 0 where it is 0.
//! let written = memory.write(&mut nodes, &mut list, &[1, 0], &[a, not_a], &[1, 0])?;
//! assert_eq!(written, Written::Entered(0));
//! // An enable of 0 leaves everything as it was.
//! let written = memory.write(&mut nodes, &mut list, &[0, 1], &[a, not_a], &[0, 1])?;
//! assert_eq!(written, Written::Idle);
//! // Location 0 may hold 1 in any case, and 0 where variable 8 is 1.
//! let mut word = [0; 2];
//! memory.read(&mut nodes, &list, &mut ports, 0, &[1, 0], &[0, 1], &mut word)?;
//! assert_eq!(word, [1, a]);
//! // Port 0 now holds that word, and gives it again where it is not enabled.
//! memory.read(&mut nodes, &list, &mut ports, 0, &[0, 1], &[1, 0], &mut word)?;
//! assert_eq!(word, [1, a]);
//! // A condition's text, and an assignment under which it holds.
//! let mut text = [0; 7];
//! assert_eq!(memory.text(&nodes, a, &mut text)?, 7);
//! assert_eq!((&text, memory.witness(&nodes, a)?), (b"(8 0 1)", Some(1 << 8)));
//! # Ok::<(), mangerday::Refused>(())
//! ```
//!
//! A formula is written as a text over a table of predicates, each an address and a data word: here `m0`
//! is 1 at location 0 and `m1` 0 at location 1, and `b2` is the node of variable 8. The answer lists its
//! predicates, three words each: step, condition, predicate.
//!
//! ```
//! use mangerday::{FormulaRefused, Ports, Record};
//!
//! let (mut nodes, mut list, mut ports) = ([0; 96], [0; 24], Ports::default());
//! let mut memory = Record::fresh(1, 1, &mut nodes, &mut ports)?;
//! assert_eq!(memory.variable(&mut nodes, 8)?, 2);
//! let (table, mut answer) = ([0, 1, 1, 0, 1, 0, 0, 1], [0; 6]);
//! let listed = memory.assert_formula(&mut nodes, &mut list, b"b2 -> m0 & N m1", &table, &mut answer)?;
//! assert_eq!((listed, answer), (2, [0, 2, 0, 1, 2, 1]));
//! memory.check_formula(&mut nodes, &list, b"b2 -> m0 & m1", &table, &mut answer)?;
//! assert_eq!(memory.checked, 1);
//! // An arrow does not stand inside a conjunction: the fault is at the `b`.
//! let refused = memory.check_formula(&mut nodes, &list, b"m0 & b2 -> m1", &table, &mut answer);
//! assert_eq!(refused, Err(FormulaRefused::Text { row: 15, place: 5 }));
//! # Ok::<(), Box<dyn std::error::Error>>(())
//! ```
//!
//! What is lent to a call cannot overlap, since Rust refuses it:
//!
//! ```compile_fail,E0499
//! # let mut memory = mangerday::Record::default();
//! # let mut words = [0; 96];
//! memory.write(&mut words[..], &mut words[..], &[1, 0], &[1, 0], &[1, 0]);
//! ```
//!
//! The entry count is exact, and a list can be planned from the accesses: after calls from `fresh` on, the
//! entries are as many as the accepted writes whose enable may be 1 under some assignment, plus the
//! accepted asserts, those that formulas made among them, whose data differs from the look under some
//! assignment with `b`. A list of that many entries, each 2 + 2n + 2w words, is enough for these accesses, and
//! with one entry less the last that adds one meets 8.
//!
//! A call needs up to [`STACK`] bytes of stack and no heap; nothing is kept between calls.

mod memory;
pub mod raw;

/// The rows of the panel's table by their names, each with its sentence, as in `include/mangerday.h`.
pub mod row {
    include!(concat!(env!("OUT_DIR"), "/row.rs"));
}

pub use memory::{run_case, word, Bit, Condition, Listed, Memory, Predicate, TEXT_LIMIT};

use std::fmt;

/// The stack that a call needs at most, in bytes, with some to spare.
pub const STACK: usize = 1 << 20;

/// The nodes that a memory may have at most, 0 and 1 among them.
pub const NODE_LIMIT: usize = 16_384;

/// The entries that a memory may have at most.
pub const ENTRY_LIMIT: usize = 4_096;

/// The sentence of a row, `accepted` for 0, and `no row of the table` for a number that no call returns.
pub fn reason(row: u32) -> &'static str {
    match row {
        0 => "accepted",
        _ => row::SENTENCES.get(row as usize - 1).copied().unwrap_or("no row of the table"),
    }
}

/// A memory of `n` address bits and `w` data bits: its counts of nodes and entries, and its two conditions.
///
/// The fields are plain words, and a call refuses those that no memory has.
#[repr(C)]
#[derive(Clone, Copy, Debug, Default, PartialEq, Eq, Hash)]
pub struct Record {
    pub n: u32,
    pub w: u32,
    pub nodes: u32,
    pub entries: u32,
    pub asserted: u32,
    pub checked: u32,
}

/// The four read ports, each of 32 words: the word that was read by it last is in the first 2w of them.
///
/// They are plain words, and a read refuses held words that are no conditions.
#[repr(transparent)]
#[derive(Clone, Copy, Debug, PartialEq, Eq, Hash)]
pub struct Ports(pub [u32; 128]);

impl Default for Ports {
    /// Every port holds X, as [`Record::fresh`] leaves them.
    fn default() -> Ports {
        Ports([1; 128])
    }
}

/// A refusal: the number of its row in the panel's table, 1 to 16.
#[derive(Clone, Copy, Debug, PartialEq, Eq, Hash)]
pub struct Refused(pub u32);

/// A refused formula.
#[derive(Clone, Copy, Debug, PartialEq, Eq, Hash)]
pub enum FormulaRefused {
    /// Rows 1, 2, 3, 13 and 9, before any access: record, list and answer words are as they were.
    Whole(Refused),
    /// Rows 15 and 16, and where in the text the fault stands, counted from 0: record, nodes, list and answer
    /// words are as they were.
    Text { row: u32, place: usize },
    /// The row of the first access that was refused; `listed` predicates were listed in the answer, and the
    /// accesses of the first `made` of them stand.
    Stopped { row: u32, listed: usize, made: usize },
}

/// A refused case: the row's number, and how many accesses were printed before.
#[derive(Clone, Copy, Debug, PartialEq, Eq, Hash)]
pub struct CaseRefused {
    pub row: u32,
    pub after: u64,
}

/// What became of an accepted write.
#[derive(Clone, Copy, Debug, PartialEq, Eq, Hash)]
pub enum Written {
    /// Its entry has this place, counted from 0.
    Entered(u32),
    /// Its enable is 0 under every assignment: nothing was changed.
    Idle,
}

/// What became of an accepted assert.
#[derive(Clone, Copy, Debug, PartialEq, Eq, Hash)]
pub enum Asserted {
    Entered,
    Kept,
}

/// An accepted case: the length of its text, and the last record.
#[derive(Clone, Copy, Debug, PartialEq, Eq, Hash)]
pub struct Case {
    pub length: usize,
    pub record: Record,
}

impl Refused {
    /// The row's sentence.
    pub fn reason(&self) -> &'static str {
        reason(self.0)
    }
}

impl CaseRefused {
    /// The row's sentence.
    pub fn reason(&self) -> &'static str {
        reason(self.row)
    }
}

impl FormulaRefused {
    /// The row's number.
    pub fn row(&self) -> u32 {
        match self {
            FormulaRefused::Whole(Refused(row)) => *row,
            FormulaRefused::Text { row, .. } | FormulaRefused::Stopped { row, .. } => *row,
        }
    }

    /// The row's sentence.
    pub fn reason(&self) -> &'static str {
        reason(self.row())
    }
}

impl fmt::Display for Refused {
    fn fmt(&self, f: &mut fmt::Formatter<'_>) -> fmt::Result {
        write!(f, "refused {}: {}", self.0, self.reason())
    }
}

/// As `memcase` prints it, and the sentence behind.
impl fmt::Display for CaseRefused {
    fn fmt(&self, f: &mut fmt::Formatter<'_>) -> fmt::Result {
        write!(f, "refused {} after {}: {}", self.row, self.after, self.reason())
    }
}

impl fmt::Display for FormulaRefused {
    fn fmt(&self, f: &mut fmt::Formatter<'_>) -> fmt::Result {
        match self {
            FormulaRefused::Whole(refused) => refused.fmt(f),
            FormulaRefused::Text { row, place } => write!(f, "refused {row} at {place}: {}", reason(*row)),
            FormulaRefused::Stopped { row, made, .. } => write!(f, "refused {row} after {made}: {}", reason(*row)),
        }
    }
}

impl std::error::Error for Refused {}
impl std::error::Error for FormulaRefused {}
impl std::error::Error for CaseRefused {}

/// The answer of a call that returned this number.
fn answer<T>(row: u32, accepted: T) -> Result<T, Refused> {
    if row == 0 {
        Ok(accepted)
    } else {
        Err(Refused(row))
    }
}

/// What a formula answers: its row, and the out-words, which are 0 before it. A text that is read lists a
/// predicate or more.
fn formula_answer(row: u32, listed: u64, made: u64, place: u64) -> Result<usize, FormulaRefused> {
    match row {
        0 => Ok(listed as usize),
        15 | 16 => Err(FormulaRefused::Text { row, place: place as usize }),
        _ if listed == 0 => Err(FormulaRefused::Whole(Refused(row))),
        _ => Err(FormulaRefused::Stopped { row, listed: listed as usize, made: made as usize }),
    }
}

/// What a formula answers by this function: the one for asserts is lent the list to write, the one for checks to read.
macro_rules! formula {
    ($function:ident, $record:ident, $nodes:ident, $list:expr, $text:ident, $table:ident, $answer:ident) => {{
        let (list, list_length) = $list;
        let (mut listed, mut made, mut place) = (0, 0, 0);
        let row = unsafe {
            raw::$function(
                $record,
                $nodes.as_mut_ptr(),
                $nodes.len(),
                list,
                list_length,
                $text.as_ptr(),
                $text.len(),
                $table.as_ptr(),
                $table.len(),
                $answer.as_mut_ptr(),
                $answer.len(),
                &mut listed,
                &mut made,
                &mut place,
            )
        };
        formula_answer(row, listed, made, place)
    }};
}

// A Rust slice, also an empty one, has a pointer that is aligned and not null, and what is borrowed
// by `&mut` overlaps nothing else that is lent: so each call below meets what the functions ask.
impl Record {
    /// A memory of `n` address bits, 1 to 8, and `w` data bits, 1 to 16: no entries, both conditions 1,
    /// nodes 0 and 1 written into the node words, which are at least 6, and every port X. Meets 1, 2.
    pub fn fresh(n: u32, w: u32, nodes: &mut [u32], ports: &mut Ports) -> Result<Record, Refused> {
        let mut record = Record::default();
        let row = unsafe { raw::md_fresh(&mut record, n, w, nodes.as_mut_ptr(), nodes.len(), ports) };
        answer(row, record)
    }

    /// The value of a node under an assignment, in which bit v is variable v. Meets 1, 2, 5.
    pub fn evaluate(&self, nodes: &[u32], node: u32, assignment: u64) -> Result<bool, Refused> {
        let mut value = 0;
        let row = unsafe { raw::md_evaluate(self, nodes.as_ptr(), nodes.len(), node, assignment, &mut value) };
        answer(row, value == 1)
    }

    /// A condition's text, `0`, `1` or `(v low high)`, from the first byte of `text` on: how many bytes it is. Later
    /// bytes stay as they are. A text that does not fit meets 13, and leaves every byte 0. Meets 1, 2, 5, 13.
    pub fn text(&self, nodes: &[u32], node: u32, text: &mut [u8]) -> Result<usize, Refused> {
        let (bytes, lent, mut length) = (text.as_mut_ptr(), text.len(), 0);
        let row = unsafe { raw::md_text(self, nodes.as_ptr(), nodes.len(), node, bytes, lent, &mut length) };
        answer(row, length as usize)
    }

    /// An assignment under which a node holds, in which bit v is variable v; none of node 0, which holds nowhere.
    /// Meets 1, 2, 5.
    pub fn witness(&self, nodes: &[u32], node: u32) -> Result<Option<u64>, Refused> {
        let mut assignment = 0;
        let row = unsafe { raw::md_witness(self, nodes.as_ptr(), nodes.len(), node, &mut assignment) };
        answer(row, if node == 0 { None } else { Some(assignment) })
    }

    /// The node of a user variable, 8 to 63. Meets 1, 2, 5, 9.
    pub fn variable(&mut self, nodes: &mut [u32], variable: u32) -> Result<u32, Refused> {
        let mut node = 0;
        let row = unsafe { raw::md_variable(self, nodes.as_mut_ptr(), nodes.len(), variable, &mut node) };
        answer(row, node)
    }

    /// The node that is `g` where `f` holds and `h` elsewhere. Meets 1, 2, 5, 9.
    pub fn ite(&mut self, nodes: &mut [u32], f: u32, g: u32, h: u32) -> Result<u32, Refused> {
        let mut node = 0;
        let row = unsafe { raw::md_ite(self, nodes.as_mut_ptr(), nodes.len(), f, g, h, &mut node) };
        answer(row, node)
    }

    /// Write: appends an entry, unless its enable is 0 under every assignment. Meets 1, 2, 3, 4, 5, 6, then,
    /// if it is not idle, 9, 8.
    pub fn write(
        &mut self,
        nodes: &mut [u32],
        list: &mut [u32],
        enable: &[u32],
        address: &[u32],
        data: &[u32],
    ) -> Result<Written, Refused> {
        let mut place = 0;
        let row = unsafe {
            raw::md_write(
                self,
                nodes.as_mut_ptr(),
                nodes.len(),
                list.as_mut_ptr(),
                list.len(),
                enable.as_ptr(),
                enable.len(),
                address.as_ptr(),
                address.len(),
                data.as_ptr(),
                data.len(),
                &mut place,
            )
        };
        answer(row, if place == raw::MD_IDLE { Written::Idle } else { Written::Entered(place) })
    }

    /// Read by a port: fills the 2w words of `word`, each bit's h before its l, with the word at the
    /// address where the enable is 1, the word that the port holds where it is 0, and what either may be
    /// where it is X. Then the port holds them. Meets 1, 2, 3, 4, 14, 5, 6, 9.
    #[allow(clippy::too_many_arguments)]
    pub fn read(
        &mut self,
        nodes: &mut [u32],
        list: &[u32],
        ports: &mut Ports,
        port: u32,
        enable: &[u32],
        address: &[u32],
        word: &mut [u32],
    ) -> Result<(), Refused> {
        let row = unsafe {
            raw::md_read(
                self,
                nodes.as_mut_ptr(),
                nodes.len(),
                list.as_ptr(),
                list.len(),
                ports,
                port,
                enable.as_ptr(),
                enable.len(),
                address.as_ptr(),
                address.len(),
                word.as_mut_ptr(),
                word.len(),
            )
        };
        answer(row, ())
    }

    /// Assert: narrows the assert condition, and enters the data or keeps what is there. Meets 1, 2, 3, 4, 5, 6, 7, 8, 9.
    pub fn assert(
        &mut self,
        nodes: &mut [u32],
        list: &mut [u32],
        b: u32,
        address: &[u32],
        data: &[u32],
    ) -> Result<Asserted, Refused> {
        let mut entered = 0;
        let row = unsafe {
            raw::md_assert(
                self,
                nodes.as_mut_ptr(),
                nodes.len(),
                list.as_mut_ptr(),
                list.len(),
                b,
                address.as_ptr(),
                address.len(),
                data.as_ptr(),
                data.len(),
                &mut entered,
            )
        };
        answer(row, if entered == 1 { Asserted::Entered } else { Asserted::Kept })
    }

    /// Check: narrows the check condition to where the data admits what the memory may hold. Meets 1, 2,
    /// 3, 4, 5, 6, 9.
    pub fn check(
        &mut self,
        nodes: &mut [u32],
        list: &[u32],
        b: u32,
        address: &[u32],
        data: &[u32],
    ) -> Result<(), Refused> {
        let row = unsafe {
            raw::md_check(
                self,
                nodes.as_mut_ptr(),
                nodes.len(),
                list.as_ptr(),
                list.len(),
                b,
                address.as_ptr(),
                address.len(),
                data.as_ptr(),
                data.len(),
            )
        };
        answer(row, ())
    }

    /// A written formula as asserts, in the order of their steps and then of the text. `table` has predicates of
    /// address and data words; `answer` gets three words for each predicate in the text, and it is answered how
    /// many these are. Meets 1, 2, 3, then 15 or 16, 13, 9 of the conditions, and then what its accesses meet:
    /// 5, 6, 7, 8, 9.
    pub fn assert_formula(
        &mut self,
        nodes: &mut [u32],
        list: &mut [u32],
        text: &[u8],
        table: &[u32],
        answer: &mut [u32],
    ) -> Result<usize, FormulaRefused> {
        formula!(md_assert_formula, self, nodes, (list.as_mut_ptr(), list.len()), text, table, answer)
    }

    /// The same as checks; what its accesses meet is 5, 6, 9.
    pub fn check_formula(
        &mut self,
        nodes: &mut [u32],
        list: &[u32],
        text: &[u8],
        table: &[u32],
        answer: &mut [u32],
    ) -> Result<usize, FormulaRefused> {
        formula!(md_check_formula, self, nodes, (list.as_ptr(), list.len()), text, table, answer)
    }
}

/// A case file, run from its first byte to its last, with ports of its own: its text is written into
/// `text`. A refused case leaves node words, list words and text bytes all 0, and meets any row but 3, 4, 15, 16.
pub fn case(bytes: &[u8], nodes: &mut [u32], list: &mut [u32], text: &mut [u8]) -> Result<Case, CaseRefused> {
    let mut record = Record::default();
    let mut count = 0;
    let row = unsafe {
        raw::md_case(
            bytes.as_ptr(),
            bytes.len(),
            nodes.as_mut_ptr(),
            nodes.len(),
            list.as_mut_ptr(),
            list.len(),
            text.as_mut_ptr(),
            text.len(),
            &mut record,
            &mut count,
        )
    };
    if row == 0 {
        Ok(Case { length: count as usize, record })
    } else {
        Err(CaseRefused { row, after: count })
    }
}
