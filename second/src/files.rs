//! The house files: tables and records read and written, the two product
//! tables, the retest's pick, the judge's answer, and the refusals.

use crate::machine::{Case, Entry, Machine, MOST, STEPS};

/// The most cases that a record may have.
pub const CASES: usize = 64;

/// Why a call is refused; the value is the refusal's number.
#[derive(Clone, Copy, Debug, PartialEq, Eq)]
pub enum Kind {
    Short = 1,
    Version = 2,
    Length = 3,
    Size = 4,
    Cell = 5,
    Step = 6,
    Full = 7,
    Slot = 8,
    Damaged = 9,
    Record = 10,
    Number = 11,
}

/// All kinds with their names, in rising number.
pub const KINDS: [(Kind, &str); 11] = [
    (Kind::Short, "SHORT"),
    (Kind::Version, "VERSION"),
    (Kind::Length, "LENGTH"),
    (Kind::Size, "SIZE"),
    (Kind::Cell, "CELL"),
    (Kind::Step, "STEP"),
    (Kind::Full, "FULL"),
    (Kind::Slot, "SLOT"),
    (Kind::Damaged, "DAMAGED"),
    (Kind::Record, "RECORD"),
    (Kind::Number, "NUMBER"),
];

/// A refusal and what it carries beside its number.
#[derive(Clone, Copy, Debug, PartialEq, Eq)]
pub struct Refusal {
    pub kind: Kind,
    pub carried: usize,
}

impl Refusal {
    pub fn number(self) -> usize {
        self.kind as usize
    }
}

/// A refusal that carries 0.
pub fn refusal(kind: Kind) -> Refusal {
    Refusal { kind, carried: 0 }
}

/// A refusal that carries a number.
pub fn carrying(kind: Kind, carried: usize) -> Refusal {
    Refusal { kind, carried }
}

/// The rest of a file, after its version and length have been checked.
fn rest(file: &[u8]) -> Result<&[u8], Refusal> {
    if file.len() < 3 {
        return Err(refusal(Kind::Length));
    }
    if file[0] != 1 {
        return Err(refusal(Kind::Version));
    }
    let length = usize::from(file[1]) * 256 + usize::from(file[2]);
    if length != file.len() - 3 {
        return Err(refusal(Kind::Length));
    }
    Ok(&file[3..])
}

/// A file around its rest.
pub fn file(rest: &[u8]) -> Vec<u8> {
    let length = u16::try_from(rest.len()).expect("a rest below 65,536 bytes");
    let mut bytes = vec![1];
    bytes.extend(length.to_be_bytes());
    bytes.extend(rest);
    bytes
}

/// Whether n, k or m may have this value.
pub fn in_range(size: u8) -> bool {
    (1..=MOST).contains(&usize::from(size))
}

/// The table whose cells are in the bytes, next state before output.
/// The sizes are in range and the bytes are exactly those of the cells.
pub fn read_cells(n: u8, k: u8, m: u8, bytes: &[u8]) -> Result<Machine, Refusal> {
    let mut cells = Vec::new();
    for (number, pair) in bytes.chunks(2).enumerate() {
        let (next, output) = (pair[0], pair[1]);
        if next == 255 && output == 255 {
            cells.push(None);
        } else if next < n && output < m {
            cells.push(Some(Entry { next, output }));
        } else {
            return Err(carrying(Kind::Cell, number));
        }
    }
    Ok(Machine {
        n: n.into(),
        k: k.into(),
        m: m.into(),
        cells,
    })
}

/// A table file's table, or the refusal.
pub fn read_table(bytes: &[u8]) -> Result<Machine, Refusal> {
    let rest = rest(bytes)?;
    if rest.len() < 3 {
        return Err(refusal(Kind::Size));
    }
    let (n, k, m) = (rest[0], rest[1], rest[2]);
    if !in_range(n) || !in_range(k) || !in_range(m) {
        return Err(refusal(Kind::Size));
    }
    if rest.len() != 3 + 2 * usize::from(n) * usize::from(k) {
        return Err(refusal(Kind::Size));
    }
    read_cells(n, k, m, &rest[3..])
}

/// The bytes of a table's cells, next state before output.
pub fn cell_bytes(machine: &Machine) -> Vec<u8> {
    let mut bytes = Vec::new();
    for cell in &machine.cells {
        match cell {
            Some(entry) => bytes.extend([entry.next, entry.output]),
            None => bytes.extend([255, 255]),
        }
    }
    bytes
}

/// The table file of a table.
pub fn write_table(machine: &Machine) -> Vec<u8> {
    let mut bytes = vec![machine.n as u8, machine.k as u8, machine.m as u8];
    bytes.extend(cell_bytes(machine));
    file(&bytes)
}

/// A record's cases, or the refusal of its form. Whether the cases fit a
/// table is not judged here.
pub fn read_record(bytes: &[u8]) -> Result<Vec<Case>, Refusal> {
    let rest = rest(bytes)?;
    let mut cases = Vec::new();
    let mut at = 0;
    while at < rest.len() {
        let length = usize::from(rest[at]);
        if length == 0 || length > STEPS {
            return Err(refusal(Kind::Record));
        }
        let end = at + 1 + 2 * length;
        if end > rest.len() {
            return Err(refusal(Kind::Record));
        }
        if cases.len() == CASES {
            return Err(refusal(Kind::Record));
        }
        cases.push(Case {
            inputs: rest[at + 1..at + 1 + length].to_vec(),
            outputs: rest[at + 1 + length..end].to_vec(),
        });
        at = end;
    }
    Ok(cases)
}

/// The bytes of one case in a record, with its length byte.
pub fn case_bytes(case: &Case) -> Vec<u8> {
    let mut bytes = vec![case.inputs.len() as u8];
    bytes.extend(&case.inputs);
    bytes.extend(&case.outputs);
    bytes
}

/// The record of some cases.
pub fn write_record<'a>(cases: impl IntoIterator<Item = &'a Case>) -> Vec<u8> {
    let mut bytes = Vec::new();
    for case in cases {
        bytes.extend(case_bytes(case));
    }
    file(&bytes)
}

/// Which record a retest's pick is a part of.
#[derive(Clone, Copy, Debug, PartialEq, Eq)]
pub enum Source {
    Retest,
    First,
}

/// The retest's pick: the first retest case with the inputs of the first
/// record's case at the position, else that case itself; with its length
/// byte.
pub fn retest(first: &[u8], again: &[u8], position: usize) -> Result<(Source, Vec<u8>), Refusal> {
    let first = read_record(first)?;
    let again = read_record(again)?;
    let case = first.get(position).ok_or(refusal(Kind::Slot))?;
    match again.iter().find(|other| other.inputs == case.inputs) {
        Some(other) => Ok((Source::Retest, case_bytes(other))),
        None => Ok((Source::First, case_bytes(case))),
    }
}

/// Whether the changed machine of a number reproduces a record.
fn reproduces(table: &[u8], record: &[u8], number: usize) -> Result<bool, Refusal> {
    let machine = read_table(table)?;
    let cases = read_record(record)?;
    if !cases.iter().all(|case| machine.accepts(case)) {
        return Err(refusal(Kind::Step));
    }
    if number >= machine.numbers() {
        return Err(refusal(Kind::Number));
    }
    let changed = machine.changed(number);
    Ok(cases.iter().all(|case| changed.reproduces(case)))
}

/// The judge's answer: 1, 0, or 16 plus the refusal.
pub fn judge(table: &[u8], record: &[u8], number: usize) -> usize {
    match reproduces(table, record, number) {
        Ok(true) => 1,
        Ok(false) => 0,
        Err(refusal) => 16 + refusal.number(),
    }
}

/// An undefined cell in a product table.
const U: (u8, u8) = (255, 255);

/// The five-litre product's entries, a row for each state.
const FIVE_LITRE: [[(u8, u8); 3]; 4] = [
    [(1, 1), (2, 3), (0, 0)],
    [(0, 2), (2, 3), (1, 0)],
    [(3, 1), (2, 0), (0, 0)],
    [(2, 2), U, (1, 0)],
];

/// The eight-litre product's entries, a row for each state.
const EIGHT_LITRE: [[(u8, u8); 3]; 5] = [
    [(1, 1), (2, 3), (0, 0)],
    [(0, 2), (2, 3), (1, 0)],
    [(3, 1), (4, 4), (0, 0)],
    [(2, 2), (4, 4), (1, 0)],
    [(4, 0), U, (0, 0)],
];

/// A table of entries with the given sizes.
pub fn table(n: usize, k: usize, m: usize, entries: &[(u8, u8)]) -> Machine {
    assert_eq!(entries.len(), n * k);
    let cells = entries
        .iter()
        .map(|&(next, output)| match (next, output) {
            U => None,
            _ => Some(Entry { next, output }),
        })
        .collect();
    Machine { n, k, m, cells }
}

/// The five-litre product's table.
pub fn five_litre() -> Machine {
    table(4, 3, 4, &FIVE_LITRE.concat())
}

/// The eight-litre product's table.
pub fn eight_litre() -> Machine {
    table(5, 3, 5, &EIGHT_LITRE.concat())
}

#[cfg(test)]
mod tests {
    use super::*;

    fn kind<T: std::fmt::Debug>(answer: Result<T, Refusal>) -> usize {
        answer.expect_err("a refusal").number()
    }

    fn case(inputs: &[u8], outputs: &[u8]) -> Case {
        Case {
            inputs: inputs.to_vec(),
            outputs: outputs.to_vec(),
        }
    }

    #[test]
    fn the_five_litre_file_is_the_papers() {
        let paper = [
            0x01, 0x00, 0x1B, 0x04, 0x03, 0x04, 0x01, 0x01, 0x02, 0x03, 0x00, 0x00, 0x00, 0x02,
            0x02, 0x03, 0x01, 0x00, 0x03, 0x01, 0x02, 0x00, 0x00, 0x00, 0x02, 0x02, 0xFF, 0xFF,
            0x01, 0x00,
        ];
        assert_eq!(write_table(&five_litre()), paper);
        assert_eq!(write_table(&eight_litre()).len(), 36);
        assert_eq!(read_table(&paper), Ok(five_litre()));
        let file = write_table(&eight_litre());
        assert_eq!(read_table(&file), Ok(eight_litre()));
    }

    #[test]
    fn heads_are_judged_in_order() {
        assert_eq!(kind(read_table(&[])), 3);
        assert_eq!(kind(read_table(&[2])), 3);
        assert_eq!(kind(read_table(&[2, 0])), 3);
        assert_eq!(kind(read_table(&[2, 9, 9])), 2);
        assert_eq!(kind(read_table(&[0, 0, 0])), 2);
        assert_eq!(kind(read_table(&[1, 0, 1])), 3);
        assert_eq!(kind(read_table(&[1, 0, 0])), 4);
        assert_eq!(kind(read_table(&[1, 0, 2, 1, 1])), 4);
        assert_eq!(kind(read_record(&[2, 0])), 3);
        assert_eq!(kind(read_record(&[2, 0, 0])), 2);
        assert_eq!(kind(read_record(&[1, 0, 1])), 3);
        assert_eq!(read_record(&[1, 0, 0]), Ok(vec![]));
    }

    #[test]
    fn sizes_of_1_to_16_are_taken() {
        let make = |n: u8, k: u8, m: u8| {
            let mut rest = vec![n, k, m];
            rest.resize(3 + 2 * usize::from(n) * usize::from(k), 0);
            file(&rest)
        };
        assert!(read_table(&make(16, 16, 16)).is_ok());
        assert!(read_table(&make(16, 1, 1)).is_ok());
        assert!(read_table(&make(1, 1, 1)).is_ok());
        for (n, k, m) in [
            (0, 1, 1),
            (1, 0, 1),
            (1, 1, 0),
            (17, 1, 1),
            (1, 17, 1),
            (1, 1, 17),
        ] {
            assert_eq!(kind(read_table(&make(n, k, m))), 4);
        }
        assert_eq!(kind(read_table(&file(&[1, 1, 1, 0]))), 4);
        assert_eq!(kind(read_table(&file(&[1, 1, 1, 0, 0, 0]))), 4);
    }

    #[test]
    fn cells_are_judged_and_the_lowest_is_carried() {
        let make = |cells: [u8; 6]| {
            let mut rest = vec![3, 1, 2];
            rest.extend(cells);
            read_table(&file(&rest))
        };
        assert!(make([2, 1, 0, 0, 255, 255]).is_ok());
        assert_eq!(make([0, 0, 3, 0, 0, 9]), Err(carrying(Kind::Cell, 1)));
        assert_eq!(make([0, 0, 0, 0, 0, 2]), Err(carrying(Kind::Cell, 2)));
        assert_eq!(make([255, 0, 3, 0, 0, 9]), Err(carrying(Kind::Cell, 0)));
        assert_eq!(make([0, 0, 0, 255, 0, 0]), Err(carrying(Kind::Cell, 1)));
    }

    #[test]
    fn record_forms() {
        assert_eq!(kind(read_record(&file(&[0]))), 10);
        assert_eq!(kind(read_record(&file(&[1, 0]))), 10);
        assert_eq!(kind(read_record(&file(&[1]))), 10);
        assert_eq!(kind(read_record(&file(&[1, 0, 0, 0]))), 10);
        let longest = case(&[7; 64], &[9; 64]);
        let record = write_record([&longest]);
        assert_eq!(read_record(&record), Ok(vec![longest]));
        let mut rest = vec![65];
        rest.extend([0; 130]);
        assert_eq!(kind(read_record(&file(&rest))), 10);
        let short = case(&[0], &[0]);
        let cases = vec![short; 65];
        assert!(read_record(&write_record(&cases[..64])).is_ok());
        assert_eq!(kind(read_record(&write_record(&cases))), 10);
    }

    #[test]
    fn retest_picks() {
        let a = case(&[1, 2], &[0, 0]);
        let b = case(&[1], &[5]);
        let first = write_record([&a, &b]);
        let c = case(&[1], &[6]);
        let d = case(&[1], &[7]);
        let long = case(&[1, 2, 3], &[0, 0, 0]);
        let again = write_record([&long, &c, &d]);
        let from_retest = Ok((Source::Retest, vec![1, 1, 6]));
        assert_eq!(retest(&first, &again, 1), from_retest);
        let from_first = Ok((Source::First, vec![2, 1, 2, 0, 0]));
        assert_eq!(retest(&first, &again, 0), from_first);
        assert_eq!(kind(retest(&first, &again, 2)), 8);
        assert_eq!(kind(retest(&first, &[2, 0, 0], 2)), 2);
        assert_eq!(kind(retest(&file(&[0]), &[2, 0, 0], 2)), 10);
    }

    #[test]
    fn judge_answers() {
        let table = write_table(&five_litre());
        let record = write_record([&case(&[1, 2, 1], &[3, 0, 0])]);
        assert_eq!(judge(&table, &record, 70), 1);
        assert_eq!(judge(&table, &record, 71), 1);
        assert_eq!(judge(&table, &record, 69), 0);
        assert_eq!(judge(&table, &record, 95), 0);
        assert_eq!(judge(&table, &record, 96), 27);
        let wrong = write_record([&case(&[1, 1], &[3, 4])]);
        assert_eq!(judge(&table, &wrong, 96), 22);
        let eight = write_table(&eight_litre());
        assert_eq!(judge(&eight, &wrong, 10), 0);
        assert_eq!(judge(&eight, &wrong, 13), 1);
        assert_eq!(judge(&eight, &wrong, 3), 1);
        assert_eq!(judge(&eight, &wrong, 149), 1);
        assert_eq!(judge(&eight, &wrong, 150), 27);
        assert_eq!(judge(&table, &file(&[1]), 96), 26);
        assert_eq!(judge(&file(&[1]), &file(&[1]), 96), 20);
        assert_eq!(judge(&[1, 0, 5, 1, 1, 1, 1, 0], &[], 96), 21);
        assert_eq!(judge(&[], &[], 96), 19);
        assert_eq!(judge(&[7, 7, 7], &[], 96), 18);
        assert_eq!(judge(&table, &write_record([]), 0), 1);
        // Cell 10 is undefined; its numbers are judged all the same.
        let reached = write_record([&case(&[1, 0, 1], &[3, 1, 2])]);
        assert_eq!(judge(&table, &reached, 82), 1);
        assert_eq!(judge(&table, &reached, 83), 0);
    }
}
