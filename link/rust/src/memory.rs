//! A memory that owns its record, node words, list words and ports together, so that no call is lent the words of two.

use crate::{case, reason, row, Asserted, CaseRefused, FormulaRefused, Ports, Record, Refused, Written};
use crate::{ENTRY_LIMIT, NODE_LIMIT};
use std::sync::atomic::{AtomicU64, Ordering};

/// The bytes that a condition's text may have at most, where no other number is told.
pub const TEXT_LIMIT: usize = 65_536;

/// The number of the next memory; 0 is that of none.
static NEXT: AtomicU64 = AtomicU64::new(1);

/// A condition of one [`Memory`], or one of the two that every memory has.
///
/// Two conditions of one memory are equal exactly where they agree under every assignment. Those of two memories are
/// not equal, and no memory takes one of another.
#[derive(Clone, Copy, Debug, PartialEq, Eq, Hash)]
pub struct Condition {
    memory: u64,
    node: u32,
}

impl Condition {
    /// The condition that holds nowhere.
    pub const ZERO: Condition = Condition { memory: 0, node: 0 };
    /// The condition that holds everywhere.
    pub const ONE: Condition = Condition { memory: 0, node: 1 };

    /// Its node, by which a formula names it: `b2` is node 2.
    pub fn node(self) -> u32 {
        self.node
    }
}

/// A bit that may be 1 where `h` holds, and 0 where `l` holds.
#[derive(Clone, Copy, Debug, PartialEq, Eq, Hash)]
pub struct Bit {
    pub h: Condition,
    pub l: Condition,
}

impl Bit {
    pub const ZERO: Bit = Bit { h: Condition::ZERO, l: Condition::ONE };
    pub const ONE: Bit = Bit { h: Condition::ONE, l: Condition::ZERO };
    /// Unknown.
    pub const X: Bit = Bit { h: Condition::ONE, l: Condition::ONE };
}

/// A number as so many bits, the lowest first.
///
/// # Panics
///
/// Where the number does not fit.
pub fn word(number: u64, bits: usize) -> Vec<Bit> {
    assert!(bits >= 64 || number >> bits == 0, "a number that does not fit its word");
    (0..bits).map(|i| if i < 64 && number >> i & 1 == 1 { Bit::ONE } else { Bit::ZERO }).collect()
}

/// What `m0`, `m1` and on name in a formula: data at an address.
#[derive(Clone, Debug, PartialEq, Eq, Hash)]
pub struct Predicate {
    pub address: Vec<Bit>,
    pub data: Vec<Bit>,
}

/// A predicate as a formula lists it: how many steps on, under which condition, and its number.
#[derive(Clone, Copy, Debug, PartialEq, Eq, Hash)]
pub struct Listed {
    pub step: u32,
    pub condition: Condition,
    pub predicate: u32,
}

/// A memory with its node words, its update list and its read ports.
///
/// ```
/// use mangerday::{word, Bit, Condition, Memory};
///
/// let mut memory = Memory::new(1, 1)?;
/// let a = memory.variable(8)?;
/// // 1 is stored at location 1 where variable 8 is 1, and at location 0 where it is 0.
/// let address = memory.bit(a)?;
/// memory.write(Bit::ONE, &[address], &[Bit::ONE])?;
/// let read = memory.read(0, Bit::ONE, &word(0, 1))?;
/// assert_eq!(memory.word_text(&read)?, "1:(8 0 1)");
/// // Location 0 must hold 1: that fails where variable 8 is 1.
/// memory.check(Condition::ONE, &word(0, 1), &word(1, 1))?;
/// let fails = memory.not(memory.checked())?;
/// assert_eq!(memory.witness(fails), Some(1 << 8));
/// // A refusal says why.
/// let refused = memory.variable(7).unwrap_err();
/// assert_eq!(refused.0, mangerday::row::NODE);
/// println!("{refused}");
/// # Ok::<(), mangerday::Refused>(())
/// ```
///
/// A refused call leaves the memory as it was; only a formula may be stopped after some of its accesses.
///
/// # Panics
///
/// Every method that is given a condition panics where it is one of another memory:
///
/// ```should_panic
/// # use mangerday::Memory;
/// # let (mut memory, mut other) = (Memory::new(1, 1).unwrap(), Memory::new(1, 1).unwrap());
/// let theirs = other.variable(8).unwrap();
/// memory.not(theirs);
/// ```
#[derive(Debug)]
pub struct Memory {
    id: u64,
    record: Record,
    nodes: Vec<u32>,
    list: Vec<u32>,
    ports: Ports,
}

/// The answer of a call that no memory refuses of its own conditions.
fn own<T>(answer: Result<T, Refused>) -> T {
    answer.unwrap_or_else(|Refused(row)| unreachable!("row {row} of a node of its own memory: {}", reason(row)))
}

impl Memory {
    /// A memory of `n` address bits, 1 to 8, and `w` data bits, 1 to 16, with all the room that there may be. Meets 1.
    pub fn new(n: u32, w: u32) -> Result<Memory, Refused> {
        Memory::with_room(n, w, NODE_LIMIT, ENTRY_LIMIT)
    }

    /// The same with room for so many nodes, at least 2, and entries; no more than [`NODE_LIMIT`] and [`ENTRY_LIMIT`]
    /// are used. Meets 1, 2.
    pub fn with_room(n: u32, w: u32, nodes: usize, entries: usize) -> Result<Memory, Refused> {
        let (mut nodes, mut ports) = (vec![0; 3 * nodes.min(NODE_LIMIT)], Ports::default());
        let record = Record::fresh(n, w, &mut nodes, &mut ports)?;
        let list = vec![0; entries.min(ENTRY_LIMIT) * (2 + 2 * n as usize + 2 * w as usize)];
        Ok(Memory { id: NEXT.fetch_add(1, Ordering::Relaxed), record, nodes, list, ports })
    }

    /// Counts and sizes as they are: `n`, `w`, nodes and entries so far, and the nodes of the two conditions.
    pub fn record(&self) -> Record {
        self.record
    }

    /// The assert condition so far.
    pub fn asserted(&self) -> Condition {
        self.condition(self.record.asserted)
    }

    /// The check condition so far.
    pub fn checked(&self) -> Condition {
        self.condition(self.record.checked)
    }

    /// The condition that holds where a variable, 8 to 63, is 1. Meets 5, 9.
    pub fn variable(&mut self, variable: u32) -> Result<Condition, Refused> {
        let node = self.record.variable(&mut self.nodes, variable)?;
        Ok(self.condition(node))
    }

    /// The condition that is `g` where `f` holds and `h` elsewhere. Meets 9.
    #[track_caller]
    pub fn ite(&mut self, f: Condition, g: Condition, h: Condition) -> Result<Condition, Refused> {
        let (f, g, h) = (self.node(f), self.node(g), self.node(h));
        let node = self.record.ite(&mut self.nodes, f, g, h)?;
        Ok(self.condition(node))
    }

    /// Meets 9.
    #[track_caller]
    pub fn not(&mut self, f: Condition) -> Result<Condition, Refused> {
        self.ite(f, Condition::ZERO, Condition::ONE)
    }

    /// Meets 9.
    #[track_caller]
    pub fn and(&mut self, f: Condition, g: Condition) -> Result<Condition, Refused> {
        self.ite(f, g, Condition::ZERO)
    }

    /// Meets 9.
    #[track_caller]
    pub fn or(&mut self, f: Condition, g: Condition) -> Result<Condition, Refused> {
        self.ite(f, Condition::ONE, g)
    }

    /// Meets 9.
    #[track_caller]
    pub fn xor(&mut self, f: Condition, g: Condition) -> Result<Condition, Refused> {
        let not_g = self.not(g)?;
        self.ite(f, not_g, g)
    }

    /// The bit that is 1 where a condition holds, and 0 elsewhere. Meets 9.
    #[track_caller]
    pub fn bit(&mut self, condition: Condition) -> Result<Bit, Refused> {
        Ok(Bit { h: condition, l: self.not(condition)? })
    }

    /// A condition's value under an assignment, in which bit v is variable v.
    #[track_caller]
    pub fn evaluate(&self, condition: Condition, assignment: u64) -> bool {
        own(self.record.evaluate(&self.nodes, self.node(condition), assignment))
    }

    /// An assignment under which a condition holds; none where it holds nowhere.
    #[track_caller]
    pub fn witness(&self, condition: Condition) -> Option<u64> {
        own(self.record.witness(&self.nodes, self.node(condition)))
    }

    /// A condition's text, `0`, `1` or `(v low high)`, of up to [`TEXT_LIMIT`] bytes. Meets 13: a text may be
    /// exponentially longer than its diagram.
    #[track_caller]
    pub fn text(&self, condition: Condition) -> Result<String, Refused> {
        self.text_within(condition, TEXT_LIMIT)
    }

    /// The same, of up to so many bytes. Meets 13.
    #[track_caller]
    pub fn text_within(&self, condition: Condition, most: usize) -> Result<String, Refused> {
        let node = self.node(condition);
        let mut room = 64;
        loop {
            let mut bytes = vec![0; most.min(room)];
            match self.record.text(&self.nodes, node, &mut bytes) {
                Ok(length) => return Ok(bytes[..length].iter().map(|byte| char::from(*byte)).collect()),
                Err(Refused(row::TEXT_FULL)) if room < most => room *= 2,
                Err(refused) => return Err(refused),
            }
        }
    }

    /// A word's text as `memcase` prints it, the highest bit first: `h:l h:l`. Meets 13 as [`Memory::text`] does.
    #[track_caller]
    pub fn word_text(&self, word: &[Bit]) -> Result<String, Refused> {
        let mut found = Vec::new();
        for bit in word.iter().rev() {
            found.push(format!("{}:{}", self.text(bit.h)?, self.text(bit.l)?));
        }
        Ok(found.join(" "))
    }

    /// Write: appends an entry, unless its enable is 0 under every assignment. Meets 4, 6, then, if it is not idle, 9,
    /// 8.
    #[track_caller]
    pub fn write(&mut self, enable: Bit, address: &[Bit], data: &[Bit]) -> Result<Written, Refused> {
        let (enable, address, data) = (self.words(&[enable]), self.words(address), self.words(data));
        self.record.write(&mut self.nodes, &mut self.list, &enable, &address, &data)
    }

    /// The word that a read by a port, 0 to 3, gives; the port then holds it. Meets 4, 14, 6, 9.
    #[track_caller]
    pub fn read(&mut self, port: u32, enable: Bit, address: &[Bit]) -> Result<Vec<Bit>, Refused> {
        let (enable, address) = (self.words(&[enable]), self.words(address));
        let mut word = vec![0; 2 * self.record.w as usize];
        let ports = &mut self.ports;
        self.record.read(&mut self.nodes, &self.list, ports, port, &enable, &address, &mut word)?;
        let pairs = word.chunks_exact(2);
        Ok(pairs.map(|pair| Bit { h: self.condition(pair[0]), l: self.condition(pair[1]) }).collect())
    }

    /// Assert: narrows the assert condition, and enters the data or keeps what is there. Meets 4, 6, 7, 8, 9.
    #[track_caller]
    pub fn assert(&mut self, b: Condition, address: &[Bit], data: &[Bit]) -> Result<Asserted, Refused> {
        let (b, address, data) = (self.node(b), self.words(address), self.words(data));
        self.record.assert(&mut self.nodes, &mut self.list, b, &address, &data)
    }

    /// Check: narrows the check condition to where the data admits what the memory may hold. Meets 4, 6, 9.
    #[track_caller]
    pub fn check(&mut self, b: Condition, address: &[Bit], data: &[Bit]) -> Result<(), Refused> {
        let (b, address, data) = (self.node(b), self.words(address), self.words(data));
        self.record.check(&mut self.nodes, &self.list, b, &address, &data)
    }

    /// A written formula as asserts over predicates `m0` and on: what it lists, in the order in which the accesses were
    /// made. Meets 4 where a predicate is not as long as n and w say, then 15 or 16, 9 of the conditions, and then what
    /// its accesses meet: 6, 7, 8, 9.
    #[track_caller]
    pub fn assert_formula(&mut self, text: &str, predicates: &[Predicate]) -> Result<Vec<Listed>, FormulaRefused> {
        self.formula(text, predicates, |memory, text, table, answer| {
            memory.record.assert_formula(&mut memory.nodes, &mut memory.list, text, table, answer)
        })
    }

    /// The same as checks. Meets 4, then 15 or 16, 9 of the conditions, and then what its accesses meet: 6, 9.
    #[track_caller]
    pub fn check_formula(&mut self, text: &str, predicates: &[Predicate]) -> Result<Vec<Listed>, FormulaRefused> {
        self.formula(text, predicates, |memory, text, table, answer| {
            memory.record.check_formula(&mut memory.nodes, &memory.list, text, table, answer)
        })
    }

    /// A written formula by this call, which is lent its text, the words of its predicates and room for what it lists.
    #[track_caller]
    fn formula<F>(&mut self, text: &str, predicates: &[Predicate], call: F) -> Result<Vec<Listed>, FormulaRefused>
    where
        F: FnOnce(&mut Memory, &[u8], &[u32], &mut [u32]) -> Result<usize, FormulaRefused>,
    {
        let (table, mut answer) = (self.table(predicates).map_err(FormulaRefused::Whole)?, room_for(text));
        let listed = call(self, text.as_bytes(), &table, &mut answer)?;
        Ok(self.listed(&answer[..3 * listed]))
    }

    /// Nodes 0 and 1 are those of every memory.
    fn condition(&self, node: u32) -> Condition {
        Condition { memory: if node > 1 { self.id } else { 0 }, node }
    }

    /// The node of a condition of this memory.
    #[track_caller]
    fn node(&self, condition: Condition) -> u32 {
        assert!(condition.memory == 0 || condition.memory == self.id, "a condition of another memory");
        condition.node
    }

    /// The words of bits, as a call is lent them.
    #[track_caller]
    fn words(&self, bits: &[Bit]) -> Vec<u32> {
        let mut words = Vec::with_capacity(2 * bits.len());
        for bit in bits {
            words.extend([self.node(bit.h), self.node(bit.l)]);
        }
        words
    }

    /// The words of predicates one after the other, each as long as n and w say.
    #[track_caller]
    fn table(&self, predicates: &[Predicate]) -> Result<Vec<u32>, Refused> {
        let mut words = Vec::new();
        for Predicate { address, data } in predicates {
            if address.len() != self.record.n as usize || data.len() != self.record.w as usize {
                return Err(Refused(row::LENGTHS));
            }
            words.extend(self.words(address));
            words.extend(self.words(data));
        }
        Ok(words)
    }

    fn listed(&self, answer: &[u32]) -> Vec<Listed> {
        let triples = answer.chunks_exact(3);
        triples.map(|x| Listed { step: x[0], condition: self.condition(x[1]), predicate: x[2] }).collect()
    }
}

/// An answer that is long enough for what a text lists: a predicate and the `&` before the next are three bytes or
/// more, and three words are listed of it.
fn room_for(text: &str) -> Vec<u32> {
    vec![0; text.len() + 3]
}

/// The text of a case file, run with ports of its own, in buffers that are as long as those of `memcase`.
pub fn run_case(bytes: &[u8]) -> Result<String, CaseRefused> {
    let (mut nodes, mut list, mut text) = (vec![0; 16_384], vec![0; 16_384], vec![0; 65_536]);
    let done = case(bytes, &mut nodes, &mut list, &mut text)?;
    Ok(text[..done.length].iter().map(|byte| char::from(*byte)).collect())
}
