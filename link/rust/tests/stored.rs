//! The safe functions over the stored calls and the stored cases of the repository: what each answers,
//! and every word of every buffer, as the second program found them. `tests/README.md` and
//! `tools/storedcases.py` say how the inputs are laid out.

use mangerday::{case, raw, row, Asserted, FormulaRefused, Ports, Record, Refused, Written};
use std::fmt::Write;
use std::{fs, thread};

/// A file of one of the repository's crates.
fn read(name: &str) -> Vec<u8> {
    let path = format!("{}/../../crates/{name}", env!("CARGO_MANIFEST_DIR"));
    fs::read(&path).unwrap_or_else(|error| panic!("{path}: {error}"))
}

/// The next eight numbers of an input, if it goes on.
fn item(input: &mut &[u8]) -> Option<[u32; 8]> {
    let (bytes, rest) = input.split_at_checked(32)?;
    *input = rest;
    let mut numbers = [0; 8];
    for (number, bytes) in numbers.iter_mut().zip(bytes.chunks_exact(4)) {
        *number = u32::from_le_bytes(bytes.try_into().expect("four bytes"));
    }
    Some(numbers)
}

const OUT: u32 = 7;

const READ: u32 = 2;

/// The buffers of the stored calls: nodes, list, control, address and data, then ports; and the record.
#[derive(Clone)]
struct Buffers {
    record: Record,
    words: [Vec<u32>; 5],
    ports: Ports,
}

/// The number that a call returns in C, and its out-word.
fn number(answer: Result<u32, Refused>) -> (u32, u32) {
    match answer {
        Ok(out) => (0, out),
        Err(Refused(row)) => (row, OUT),
    }
}

/// The out-word of a write in C.
fn place(done: Written) -> u32 {
    match done {
        Written::Entered(place) => place,
        Written::Idle => raw::MD_IDLE,
    }
}

impl Buffers {
    fn put(&mut self, [buffer, place, many, stride, value, step]: [u32; 6]) {
        let words = self.words.get_mut(buffer as usize).map_or(&mut self.ports.0[..], |words| &mut words[..]);
        for i in 0..many {
            words[(place + i * stride) as usize] = value.wrapping_add(i.wrapping_mul(step));
        }
    }

    /// A call once.
    fn call(&mut self, [kind, lent, a, b, c, d, port, _]: [u32; 8]) -> (u32, u32) {
        let (record, ports) = (&mut self.record, &mut self.ports);
        let [nodes, list, control, address, data] = &mut self.words;
        let nodes = &mut nodes[..lent as usize];
        if kind > 4 {
            return number(match kind {
                5 => Record::fresh(a, b, nodes, ports).map(|fresh| {
                    *record = fresh;
                    OUT
                }),
                6 => record.evaluate(nodes, a, u64::from(b) | u64::from(c) << 32).map(u32::from),
                7 => record.variable(nodes, a),
                _ => record.ite(nodes, a, b, c),
            });
        }
        let (list, address, data) = (&mut list[..a as usize], &address[..c as usize], &mut data[..d as usize]);
        number(match kind {
            1 => record.write(nodes, list, &control[..b as usize], address, data).map(place),
            READ => record.read(nodes, list, ports, port, &control[..b as usize], address, data).map(|()| OUT),
            3 => record.assert(nodes, list, b, address, data).map(|done| u32::from(done == Asserted::Entered)),
            _ => record.check(nodes, list, b, address, data).map(|()| OUT),
        })
    }

    /// A call as often as its item says, a read once, and its line.
    fn line(&mut self, numbers: [u32; 8]) -> String {
        let before = self.clone();
        let times = if numbers[0] == READ { 1 } else { numbers[6] };
        let (row, out) = (0..times).fold((0, OUT), |_, _| self.call(numbers));
        let Record { n, w, nodes, entries, asserted, checked } = self.record;
        let mut line = format!("call {} {row} {out} {n} {w} {nodes} {entries} {asserted} {checked}", numbers[7]);
        for (name, buffer) in [("nodes", 0), ("list", 1), ("data", 4)] {
            put_changes(&mut line, name, &before.words[buffer], &self.words[buffer]);
        }
        put_changes(&mut line, "ports", &before.ports.0, &self.ports.0);
        line
    }
}

/// Each run of words that were changed, after its place.
fn put_changes(line: &mut String, name: &str, old: &[u32], new: &[u32]) {
    let mut before = false;
    for (place, (old, new)) in old.iter().zip(new).enumerate() {
        if old != new && !before {
            write!(line, "; {name} {place}:").expect("a string takes it");
        }
        if old != new {
            write!(line, " {new}").expect("a string takes it");
        }
        before = old != new;
    }
}

#[test]
fn stored_calls() {
    let (input, output) = (read("memory_test/stdin"), read("memory_test/stdout"));
    let (mut input, output) = (&input[..], String::from_utf8(output).expect("a text"));
    let mut expected = output.lines();
    let words = std::array::from_fn(|_| vec![0; 49_160]);
    let mut buffers = Buffers { record: Record::default(), words, ports: Ports([0; 128]) };
    while let Some(numbers) = item(&mut input) {
        let [kind, a, b, c, d, e, f, _] = numbers;
        match kind {
            9 => buffers.put([a, b, c, d, e, f]),
            10 => buffers.record = Record { n: a, w: b, nodes: c, entries: d, asserted: e, checked: f },
            _ => assert_eq!(Some(buffers.line(numbers).as_str()), expected.next()),
        }
    }
    assert_eq!(expected.next(), None, "every line was reached");
}

/// The buffers of the stored formulas: nodes, list, table and answer, and the text; and the record.
#[derive(Clone)]
struct Lent {
    record: Record,
    words: [Vec<u32>; 4],
    text: Vec<u8>,
}

impl Lent {
    fn put(&mut self, [buffer, place, many, stride, value, step]: [u32; 6]) {
        for i in 0..many {
            let (at, word) = ((place + i * stride) as usize, value.wrapping_add(i.wrapping_mul(step)));
            match buffer {
                0 | 1 => self.words[buffer as usize][at] = word,
                2 => self.text[at] = word as u8,
                _ => self.words[buffer as usize - 1][at] = word,
            }
        }
    }

    /// A formula, and the numbers that it leaves in C: the row, and the three out-words.
    fn call(&mut self, [kind, a, b, c, d, e, _, _]: [u32; 8]) -> [u64; 4] {
        let [nodes, list, table, answer] = &mut self.words;
        let (nodes, list) = (&mut nodes[..a as usize], &mut list[..b as usize]);
        let (text, table, answer) = (&self.text[..c as usize], &table[..d as usize], &mut answer[..e as usize]);
        let untold = u64::from(OUT);
        let done = match kind {
            1 => self.record.assert_formula(nodes, list, text, table, answer),
            _ => self.record.check_formula(nodes, list, text, table, answer),
        };
        match done {
            Ok(listed) => [0, listed as u64, listed as u64, untold],
            Err(FormulaRefused::Whole(Refused(row))) => [row.into(), untold, untold, untold],
            Err(FormulaRefused::Text { row, place }) => [row.into(), untold, untold, place as u64],
            Err(FormulaRefused::Stopped { row, listed, made }) => [row.into(), listed as u64, made as u64, untold],
        }
    }

    fn line(&mut self, numbers: [u32; 8]) -> String {
        let before = self.clone();
        let [row, listed, made, place] = self.call(numbers);
        let Record { n, w, nodes, entries, asserted, checked } = self.record;
        let mut line = format!("call {} {row} {listed} {made} {place} ", numbers[7]);
        write!(line, "{n} {w} {nodes} {entries} {asserted} {checked}").expect("a string takes it");
        for (name, buffer) in [("nodes", 0), ("list", 1), ("answer", 3)] {
            put_changes(&mut line, name, &before.words[buffer], &self.words[buffer]);
        }
        line
    }
}

#[test]
fn stored_formulas() {
    let (input, output) = (read("formulas_test/stdin"), read("formulas_test/stdout"));
    let (mut input, output) = (&input[..], String::from_utf8(output).expect("a text"));
    let mut expected = output.lines();
    let words = std::array::from_fn(|_| vec![0; 49_160]);
    let mut lent = Lent { record: Record::default(), words, text: vec![0; 65_600] };
    while let Some(numbers) = item(&mut input) {
        let [kind, a, b, c, d, e, f, _] = numbers;
        match kind {
            9 => lent.put([a, b, c, d, e, f]),
            10 => lent.record = Record { n: a, w: b, nodes: c, entries: d, asserted: e, checked: f },
            _ => assert_eq!(Some(lent.line(numbers).as_str()), expected.next()),
        }
    }
    assert_eq!(expected.next(), None, "every line was reached");
}

/// The digits of a large number, the first the highest, and of that the remainder.
fn digest(digits: impl Iterator<Item = u64>, base: u64) -> u64 {
    digits.fold(0, |sum, digit| (sum * base + digit) % 2_147_483_629)
}

fn digest_words(words: &[u32], from: u32) -> u64 {
    digest(words.iter().skip(from as usize).map(|word| u64::from(*word)), 1 << 32)
}

/// A stored case, and its line with its text.
fn case_line(number: usize, [_, a, b, c, _, e, f, lent]: [u32; 8], bytes: &[u8]) -> Vec<u8> {
    let (mut nodes, mut list, mut text) = (vec![0x8000_0007; 60_100], vec![0x8000_0007; 30_100], vec![0x87; 65_636]);
    let (a, b, c) = (&mut nodes[..a as usize], &mut list[..b as usize], &mut text[..c as usize]);
    let answer = case(&bytes[..lent as usize], a, b, c);
    let (said, shown) = match answer {
        Ok(done) => {
            let Record { n, w, nodes, entries, asserted, checked } = done.record;
            (format!("0 {} {n} {w} {nodes} {entries} {asserted} {checked}", done.length), done.length)
        }
        Err(refused) => (format!("{} {} 7 7 7 7 7 7", refused.row, refused.after), 0),
    };
    let last = digest(text.iter().map(|byte| u64::from(*byte)), 256);
    let line = format!("case {number}: {said} {} {} {last}\n", digest_words(&nodes, e), digest_words(&list, f));
    [line.as_bytes(), &text[..shown]].concat()
}

#[test]
fn stored_cases() {
    let (input, output) = (read("cases_test/stdin"), read("cases_test/stdout"));
    let (mut input, mut expected) = (&input[..], &output[..]);
    let mut number = 0;
    while let Some(numbers) = item(&mut input) {
        let (bytes, rest) = input.split_at(numbers[4] as usize);
        input = rest;
        let found = case_line(number, numbers, bytes);
        let (wanted, rest) = expected.split_at(found.len().min(expected.len()));
        assert!(found == wanted, "case {number}:\n{}", String::from_utf8_lossy(&found));
        expected = rest;
        number += 1;
    }
    assert!(expected.is_empty(), "every case was reached");
}

/// A call runs on a thread of STACK bytes, however deep its conditions are.
#[test]
fn small_stack() {
    let run = || {
        let (mut nodes, mut list, mut word) = (vec![0; 49_152], vec![0; 4 * 50], [0; 32]);
        let mut ports = Ports::default();
        let mut record = Record::fresh(8, 16, &mut nodes, &mut ports)?;
        let (mut odd, mut even) = (0, 1);
        for variable in (8..64).rev() {
            let x = record.variable(&mut nodes, variable)?;
            (odd, even) = (record.ite(&mut nodes, x, even, odd)?, record.ite(&mut nodes, x, odd, even)?);
        }
        let (address, data) = ([odd, even].repeat(8), [even, odd].repeat(16));
        record.write(&mut nodes, &mut list, &[1, 0], &address, &data)?;
        record.assert(&mut nodes, &mut list, odd, &address, &data)?;
        record.read(&mut nodes, &list, &mut ports, 0, &[odd, even], &[1, 1].repeat(8), &mut word)?;
        record.read(&mut nodes, &list, &mut ports, 0, &[even, 1], &address, &mut word)?;
        record.check(&mut nodes, &list, 1, &address, &data)?;
        let (table, mut answer) = ([&address[..], &data[..]].concat(), [0; 3]);
        let deep = [b"N".repeat(32), b"m0".to_vec()].concat();
        let done = record.assert_formula(&mut nodes, &mut list, &deep, &table, &mut answer);
        assert_eq!(done, Ok(1));
        assert_eq!(record.text(&nodes, odd, &mut [0; 4096]), Err(Refused(row::TEXT_FULL)));
        assert_eq!(record.witness(&nodes, odd)?, Some(1 << 63));
        Ok::<(), Refused>(())
    };
    let thread = thread::Builder::new().stack_size(mangerday::STACK).spawn(run).expect("a thread");
    thread.join().expect("no overflow").expect("accepted");
}
