//! The session: its memory of bytes and tallies, and the calls on it.
//!
//! A call reads the whole memory into a `Form`, works out the answer from
//! that, and only then writes; so a refusal writes nothing.

use crate::files::{
    carrying, cell_bytes, in_range, read_cells, read_record, read_table, refusal, write_record,
    Kind, Refusal,
};
use crate::machine::{Case, Machine, MOST, STEPS};

/// How many places a session has.
pub const PLACES: usize = 64;

/// The bytes of one place: a length, the inputs, the outputs.
pub const PLACE: usize = 1 + 2 * STEPS;

/// The bytes of the most cells.
pub const CELLS: usize = 2 * MOST * MOST;

/// Where the first place begins.
pub const FIRST_PLACE: usize = 3 + CELLS;

/// The bytes of a session.
pub const SESSION: usize = FIRST_PLACE + PLACES * PLACE;

/// The tallies of a session.
pub const TALLIES: usize = MOST * MOST * (MOST + MOST);

/// The bytes of a written set of cells.
pub const SET: usize = MOST * MOST;

/// The verdict on the held cases.
#[derive(Clone, Copy, Debug, PartialEq, Eq)]
pub enum Verdict {
    Clear,
    Found,
    None,
}

/// What a well-formed session holds.
#[derive(Clone, Debug)]
pub struct Form {
    pub machine: Machine,
    pub places: Vec<Option<Case>>,
}

impl Form {
    /// The places that hold a case.
    pub fn held(&self) -> Vec<usize> {
        (0..PLACES)
            .filter(|&place| self.places[place].is_some())
            .collect()
    }

    /// The places that hold none.
    pub fn free(&self) -> Vec<usize> {
        (0..PLACES)
            .filter(|&place| self.places[place].is_none())
            .collect()
    }

    /// The held cases by rising place.
    pub fn cases(&self) -> impl Iterator<Item = &Case> {
        self.places.iter().flatten()
    }

    /// The case at a place, or SLOT.
    fn case(&self, place: usize) -> Result<&Case, Refusal> {
        match self.places.get(place) {
            Some(Some(case)) => Ok(case),
            _ => Err(refusal(Kind::Slot)),
        }
    }

    /// The faults whose tally is 0.
    pub fn listed(&self, tallies: &[u16]) -> Vec<u16> {
        (0..self.machine.numbers())
            .filter(|&number| self.machine.is_fault(number) && tallies[number] == 0)
            .map(|number| number as u16)
            .collect()
    }
}

/// The table part of a session, or DAMAGED.
fn table_part(session: &[u8]) -> Result<Machine, Refusal> {
    let damaged = refusal(Kind::Damaged);
    let (n, k, m) = (session[0], session[1], session[2]);
    if !in_range(n) || !in_range(k) || !in_range(m) {
        return Err(damaged);
    }
    let end = 3 + 2 * usize::from(n) * usize::from(k);
    if session[end..FIRST_PLACE].iter().any(|&byte| byte != 0) {
        return Err(damaged);
    }
    read_cells(n, k, m, &session[3..end]).map_err(|_| damaged)
}

/// What a place's bytes hold, or DAMAGED.
fn place_part(machine: &Machine, bytes: &[u8]) -> Result<Option<Case>, Refusal> {
    let damaged = refusal(Kind::Damaged);
    let length = usize::from(bytes[0]);
    if length > STEPS {
        return Err(damaged);
    }
    let inputs = &bytes[1..1 + STEPS];
    let outputs = &bytes[1 + STEPS..];
    if inputs[length..].iter().any(|&byte| byte != 0) {
        return Err(damaged);
    }
    if outputs[length..].iter().any(|&byte| byte != 0) {
        return Err(damaged);
    }
    if length == 0 {
        return Ok(None);
    }
    let case = Case {
        inputs: inputs[..length].to_vec(),
        outputs: outputs[..length].to_vec(),
    };
    if !machine.accepts(&case) {
        return Err(damaged);
    }
    Ok(Some(case))
}

/// SHORT if the session or the tallies are shorter than needed.
fn long_enough(session: &[u8], tallies: &[u16]) -> Result<(), Refusal> {
    if session.len() < SESSION || tallies.len() < TALLIES {
        return Err(refusal(Kind::Short));
    }
    Ok(())
}

/// What the session holds; SHORT, then DAMAGED if it isn't well-formed.
pub fn form(session: &[u8], tallies: &[u16]) -> Result<Form, Refusal> {
    long_enough(session, tallies)?;
    let machine = table_part(session)?;
    let mut places = Vec::new();
    for place in 0..PLACES {
        let at = FIRST_PLACE + place * PLACE;
        places.push(place_part(&machine, &session[at..at + PLACE])?);
    }
    let held = places.iter().flatten().count();
    let (used, unused) = tallies[..TALLIES].split_at(machine.numbers());
    if used.iter().any(|&tally| usize::from(tally) > held) {
        return Err(refusal(Kind::Damaged));
    }
    if unused.iter().any(|&tally| tally != 0) {
        return Err(refusal(Kind::Damaged));
    }
    Ok(Form { machine, places })
}

/// Writes a case, or none, into a place.
fn write_place(session: &mut [u8], place: usize, case: Option<&Case>) {
    let at = FIRST_PLACE + place * PLACE;
    let bytes = &mut session[at..at + PLACE];
    bytes.fill(0);
    if let Some(case) = case {
        let length = case.inputs.len();
        bytes[0] = length as u8;
        bytes[1..1 + length].copy_from_slice(&case.inputs);
        bytes[1 + STEPS..1 + STEPS + length].copy_from_slice(&case.outputs);
    }
}

/// Copies the table in and clears places and tallies.
pub fn start(session: &mut [u8], tallies: &mut [u16], table: &[u8]) -> Result<usize, Refusal> {
    long_enough(session, tallies)?;
    let machine = read_table(table)?;
    session[..SESSION].fill(0);
    tallies[..TALLIES].fill(0);
    session[0] = machine.n as u8;
    session[1] = machine.k as u8;
    session[2] = machine.m as u8;
    let cells = cell_bytes(&machine);
    session[3..3 + cells.len()].copy_from_slice(&cells);
    Ok(0)
}

/// Puts cases that STEP accepts into the lowest free places and counts
/// their misses; answers the places.
fn put(
    session: &mut [u8],
    tallies: &mut [u16],
    form: &Form,
    cases: &[Case],
) -> Result<Vec<usize>, Refusal> {
    if !cases.iter().all(|case| form.machine.accepts(case)) {
        return Err(refusal(Kind::Step));
    }
    let free = form.free();
    if free.len() < cases.len() {
        return Err(refusal(Kind::Full));
    }
    for (&place, case) in free.iter().zip(cases) {
        write_place(session, place, Some(case));
        for (tally, miss) in tallies.iter_mut().zip(form.machine.misses(case)) {
            *tally += miss;
        }
    }
    Ok(free[..cases.len()].to_vec())
}

/// Adds a case; answers its place.
pub fn add(session: &mut [u8], tallies: &mut [u16], case: &Case) -> Result<usize, Refusal> {
    let form = form(session, tallies)?;
    let places = put(session, tallies, &form, std::slice::from_ref(case))?;
    Ok(places[0])
}

/// The tallies in use after the case at a place has been taken away, or
/// DAMAGED.
fn taken_away(form: &Form, tallies: &[u16], old: &Case) -> Result<Vec<u16>, Refusal> {
    let left = form.cases().count() as u16 - 1;
    let mut rest = Vec::new();
    for (&tally, miss) in tallies.iter().zip(form.machine.misses(old)) {
        match tally.checked_sub(miss) {
            Some(tally) if tally <= left => rest.push(tally),
            _ => return Err(refusal(Kind::Damaged)),
        }
    }
    Ok(rest)
}

/// Puts another case into a held place.
pub fn amend(
    session: &mut [u8],
    tallies: &mut [u16],
    place: usize,
    case: &Case,
) -> Result<usize, Refusal> {
    let form = form(session, tallies)?;
    let old = form.case(place)?;
    if !form.machine.accepts(case) {
        return Err(refusal(Kind::Step));
    }
    let rest = taken_away(&form, tallies, old)?;
    let misses = form.machine.misses(case);
    for (number, (tally, miss)) in rest.into_iter().zip(misses).enumerate() {
        tallies[number] = tally + miss;
    }
    write_place(session, place, Some(case));
    Ok(0)
}

/// Takes a held case away and zeroes its place.
pub fn withdraw(session: &mut [u8], tallies: &mut [u16], place: usize) -> Result<usize, Refusal> {
    let form = form(session, tallies)?;
    let old = form.case(place)?;
    let rest = taken_away(&form, tallies, old)?;
    tallies[..rest.len()].copy_from_slice(&rest);
    write_place(session, place, None);
    Ok(0)
}

/// Adds a record's cases in order, all or none; answers their count.
pub fn load(session: &mut [u8], tallies: &mut [u16], record: &[u8]) -> Result<usize, Refusal> {
    let form = form(session, tallies)?;
    let cases = read_record(record)?;
    let places = put(session, tallies, &form, &cases)?;
    Ok(places.len())
}

/// Writes the held cases as a record; answers the bytes written.
pub fn save(session: &[u8], tallies: &[u16], answer: &mut [u8]) -> Result<usize, Refusal> {
    let form = form(session, tallies)?;
    let record = write_record(form.cases());
    write_bytes(&record, answer)
}

/// Writes a file into an answer buffer, or SHORT with the bytes needed.
pub fn write_bytes(file: &[u8], answer: &mut [u8]) -> Result<usize, Refusal> {
    if answer.len() < file.len() {
        return Err(carrying(Kind::Short, file.len()));
    }
    answer[..file.len()].copy_from_slice(file);
    Ok(file.len())
}

/// Writes the faults whose tally is 0; answers the verdict and their count.
pub fn list(
    session: &[u8],
    tallies: &[u16],
    answer: &mut [u16],
) -> Result<(Verdict, usize), Refusal> {
    let form = form(session, tallies)?;
    let faults = form.listed(tallies);
    if answer.len() < faults.len() {
        return Err(carrying(Kind::Short, faults.len()));
    }
    answer[..faults.len()].copy_from_slice(&faults);
    let fails = form.cases().any(|case| !form.machine.reproduces(case));
    let verdict = match (fails, faults.is_empty()) {
        (false, _) => Verdict::Clear,
        (true, false) => Verdict::Found,
        (true, true) => Verdict::None,
    };
    Ok((verdict, faults.len()))
}

/// The lowest number whose tally is not true, if there is one.
pub fn audit(session: &[u8], tallies: &[u16]) -> Result<Option<usize>, Refusal> {
    let form = form(session, tallies)?;
    let untrue = (0..form.machine.numbers()).find(|&number| {
        let changed = form.machine.changed(number);
        let misses = form.cases().filter(|case| !changed.reproduces(case));
        usize::from(tallies[number]) != misses.count()
    });
    Ok(untrue)
}

/// The count of a case's symptoms and the first of them, 64 if there is none.
pub fn symptoms(session: &[u8], tallies: &[u16], place: usize) -> Result<(usize, usize), Refusal> {
    let form = form(session, tallies)?;
    let case = form.case(place)?;
    let steps = form.machine.symptoms(case);
    Ok((steps.len(), steps.first().copied().unwrap_or(STEPS)))
}

/// Writes a set of cells as 256 bytes of 0 or 1, or SHORT.
fn write_set(cells: &[usize], answer: &mut [u8]) -> Result<usize, Refusal> {
    if answer.len() < SET {
        return Err(refusal(Kind::Short));
    }
    answer[..SET].fill(0);
    for &cell in cells {
        answer[cell] = 1;
    }
    Ok(0)
}

/// Writes the conflict set of a held case.
pub fn conflict(
    session: &[u8],
    tallies: &[u16],
    place: usize,
    answer: &mut [u8],
) -> Result<usize, Refusal> {
    let form = form(session, tallies)?;
    let case = form.case(place)?;
    write_set(&form.machine.conflict(case), answer)
}

/// Writes the cells in the conflict set of every failing case.
pub fn candidates(session: &[u8], tallies: &[u16], answer: &mut [u8]) -> Result<usize, Refusal> {
    let form = form(session, tallies)?;
    let conflicts: Vec<Vec<usize>> = form
        .cases()
        .map(|case| form.machine.conflict(case))
        .filter(|conflict| !conflict.is_empty())
        .collect();
    let cells: Vec<usize> = (0..form.machine.cells.len())
        .filter(|_| !conflicts.is_empty())
        .filter(|cell| conflicts.iter().all(|conflict| conflict.contains(cell)))
        .collect();
    write_set(&cells, answer)
}

#[cfg(test)]
mod tests {
    use super::*;
    use crate::files::{eight_litre, file, five_litre, table, write_table};

    struct Memory {
        session: Vec<u8>,
        tallies: Vec<u16>,
    }

    impl Memory {
        fn with(machine: &Machine) -> Memory {
            let mut memory = Memory {
                session: vec![165; SESSION],
                tallies: vec![42_405; TALLIES],
            };
            assert_eq!(memory.start(&write_table(machine)), Ok(0));
            memory
        }

        fn start(&mut self, table: &[u8]) -> Result<usize, Refusal> {
            start(&mut self.session, &mut self.tallies, table)
        }

        fn add(&mut self, inputs: &[u8], outputs: &[u8]) -> Result<usize, Refusal> {
            add(&mut self.session, &mut self.tallies, &case(inputs, outputs))
        }

        fn amend(&mut self, at: usize, inputs: &[u8], outputs: &[u8]) -> Result<usize, Refusal> {
            let case = case(inputs, outputs);
            amend(&mut self.session, &mut self.tallies, at, &case)
        }

        fn withdraw(&mut self, place: usize) -> Result<usize, Refusal> {
            withdraw(&mut self.session, &mut self.tallies, place)
        }

        fn load(&mut self, record: &[u8]) -> Result<usize, Refusal> {
            load(&mut self.session, &mut self.tallies, record)
        }

        fn list(&self) -> (Verdict, Vec<u16>) {
            let mut answer = vec![0; TALLIES];
            let (verdict, count) = list(&self.session, &self.tallies, &mut answer).unwrap();
            answer.truncate(count);
            (verdict, answer)
        }

        fn conflict(&self, place: usize) -> Vec<usize> {
            let mut answer = [7; 257];
            let said = conflict(&self.session, &self.tallies, place, &mut answer);
            assert_eq!(said, Ok(0));
            assert_eq!(answer[256], 7);
            (0..256).filter(|&cell| answer[cell] == 1).collect()
        }

        fn candidates(&self) -> Vec<usize> {
            let mut answer = [7; 257];
            let said = candidates(&self.session, &self.tallies, &mut answer);
            assert_eq!(said, Ok(0));
            assert_eq!(answer[256], 7);
            (0..256).filter(|&cell| answer[cell] == 1).collect()
        }

        fn audit(&self) -> Result<Option<usize>, Refusal> {
            audit(&self.session, &self.tallies)
        }

        fn form(&self) -> Result<Form, Refusal> {
            form(&self.session, &self.tallies)
        }
    }

    fn case(inputs: &[u8], outputs: &[u8]) -> Case {
        Case {
            inputs: inputs.to_vec(),
            outputs: outputs.to_vec(),
        }
    }

    #[test]
    fn the_memory_has_the_papers_sizes() {
        assert_eq!((SESSION, TALLIES, FIRST_PLACE), (8771, 8192, 515));
    }

    #[test]
    fn p3_and_p4() {
        let mut memory = Memory::with(&five_litre());
        assert_eq!(memory.list().0, Verdict::Clear);
        assert_eq!(memory.list().1.len(), 66);
        memory.add(&[0, 0], &[1, 3]).unwrap();
        assert_eq!(memory.list(), (Verdict::Found, vec![27]));
        let mut memory = Memory::with(&five_litre());
        memory.add(&[0, 0], &[1, 1]).unwrap();
        assert_eq!(memory.list(), (Verdict::Found, vec![4, 6, 25]));
        assert_eq!(memory.audit(), Ok(None));
    }

    #[test]
    fn p5_to_p7() {
        let mut memory = Memory::with(&five_litre());
        assert_eq!(memory.add(&[1, 2, 1], &[3, 0, 0]), Ok(0));
        assert_eq!(memory.conflict(0), [1, 8]);
        assert_eq!(memory.candidates(), [1, 8]);
        assert_eq!(memory.list(), (Verdict::Found, vec![70, 71]));
        let said = symptoms(&memory.session, &memory.tallies, 0);
        assert_eq!(said, Ok((1, 2)));

        assert_eq!(memory.add(&[1, 2, 0], &[3, 0, 1]), Ok(1));
        assert_eq!(memory.list(), (Verdict::Found, vec![70]));
        assert_eq!(memory.tallies[71], 1);
        assert_eq!(memory.conflict(1), []);
        assert_eq!(memory.candidates(), [1, 8]);
        let said = symptoms(&memory.session, &memory.tallies, 1);
        assert_eq!(said, Ok((0, 64)));
        assert_eq!(memory.audit(), Ok(None));

        assert_eq!(memory.withdraw(0), Ok(0));
        let left = vec![
            4, 6, 7, 12, 17, 18, 19, 21, 22, 23, 24, 25, 27, 29, 30, 31, 32, 33, 34, 36, 37, 39,
            41, 42, 43, 44, 46, 47, 48, 50, 51, 52, 53, 54, 57, 58, 59, 60, 61, 63, 70, 72, 73, 75,
            76, 77, 79, 89, 90, 91, 92, 94, 95,
        ];
        assert_eq!(left.len(), 53);
        assert_eq!(memory.list(), (Verdict::Clear, left));
        assert_eq!(memory.audit(), Ok(None));
        assert_eq!(memory.candidates(), []);
    }

    #[test]
    fn p8() {
        let mut memory = Memory::with(&five_litre());
        memory.add(&[1, 2, 1], &[3, 0, 2]).unwrap();
        assert_eq!(memory.list(), (Verdict::None, vec![]));
        assert!(memory.tallies[..96].iter().all(|&tally| tally == 1));
        assert!(memory.tallies[96..].iter().all(|&tally| tally == 0));
    }

    #[test]
    fn p9_and_p10() {
        let small = table(1, 1, 2, &[(0, 0)]);
        let mut memory = Memory::with(&small);
        memory.add(&[0], &[1]).unwrap();
        assert_eq!(memory.list(), (Verdict::Found, vec![1]));
        let mut memory = Memory::with(&small);
        memory.add(&[0, 0], &[0, 1]).unwrap();
        assert_eq!(memory.list(), (Verdict::None, vec![]));
        let mut memory = Memory::with(&table(1, 1, 1, &[(0, 0)]));
        memory.add(&[0, 0], &[0, 0]).unwrap();
        assert_eq!(memory.list(), (Verdict::Clear, vec![]));
    }

    #[test]
    fn steps_are_judged() {
        let step = Err(refusal(Kind::Step));
        let mut memory = Memory::with(&five_litre());
        assert_eq!(memory.add(&[1, 1], &[3, 4]), step);
        assert_eq!(memory.add(&[], &[]), step);
        assert_eq!(memory.add(&[0], &[]), step);
        assert_eq!(memory.add(&[0, 0], &[1]), step);
        assert_eq!(memory.add(&[3], &[0]), step);
        assert_eq!(memory.add(&[0; 65], &[0; 65]), step);
        assert_eq!(memory.add(&[0; 64], &[0; 64]), Ok(0));
        let mut memory = Memory::with(&eight_litre());
        assert_eq!(memory.add(&[1, 1], &[3, 4]), Ok(0));
        assert_eq!(memory.list().0, Verdict::Clear);
    }

    #[test]
    fn places_fill_up_and_are_used_again() {
        let mut memory = Memory::with(&five_litre());
        for place in 0..64 {
            assert_eq!(memory.add(&[0], &[1]), Ok(place));
        }
        let full = Err(refusal(Kind::Full));
        assert_eq!(memory.add(&[0], &[1]), full);
        assert_eq!(memory.add(&[3], &[1]), Err(refusal(Kind::Step)));
        assert_eq!(memory.load(&file(&[])), Ok(0));
        assert_eq!(memory.load(&file(&[1, 0, 1])), full);
        assert_eq!(memory.withdraw(41), Ok(0));
        assert_eq!(memory.withdraw(7), Ok(0));
        let three = file(&[1, 0, 1, 1, 0, 1, 1, 0, 1]);
        assert_eq!(memory.load(&three), full);
        assert_eq!(memory.add(&[1], &[0]), Ok(7));
        assert_eq!(memory.load(&file(&[1, 1, 3])), Ok(1));
        assert_eq!(memory.form().unwrap().places[41], Some(case(&[1], &[3])));
        assert_eq!(memory.audit(), Ok(None));
    }

    #[test]
    fn lengths_of_session_and_tallies() {
        let short = Err(refusal(Kind::Short));
        let file = write_table(&five_litre());
        let mut session = vec![165; 9000];
        let mut tallies = vec![42_405; 8400];
        assert_eq!(start(&mut session[..8770], &mut tallies, &[]), short);
        assert_eq!(start(&mut session, &mut tallies[..8191], &[]), short);
        assert!(session.iter().all(|&byte| byte == 165));
        assert_eq!(
            start(&mut session[..8771], &mut tallies[..8192], &file),
            Ok(0)
        );
        assert_eq!(start(&mut session, &mut tallies, &file), Ok(0));
        assert!(session[8771..].iter().all(|&byte| byte == 165));
        assert!(tallies[8192..].iter().all(|&tally| tally == 42_405));
        assert!(form(&session, &tallies).is_ok());
    }

    #[test]
    fn damage_is_seen_in_every_region() {
        let mut memory = Memory::with(&five_litre());
        memory.add(&[1, 2, 1], &[3, 0, 0]).unwrap();
        memory.add(&[0], &[1]).unwrap();
        let place = FIRST_PLACE;
        for (at, value) in [
            (0, 0),
            (1, 17),
            (2, 0),
            (3, 4),
            (4, 4),
            (3, 255),
            (27, 1),
            (514, 1),
            (place, 0),
            (place, 2),
            (place, 65),
            (place + 1, 3),
            (place + 4, 1),
            (place + 64, 1),
            (place + 65, 4),
            (place + 68, 1),
            (place + 128, 1),
            (place + 2 * 129, 65),
            (place + 2 * 129 + 1, 1),
            (8770, 1),
        ] {
            let good = memory.session[at];
            memory.session[at] = value;
            assert_eq!(memory.audit(), Err(refusal(Kind::Damaged)), "{at}");
            memory.session[at] = good;
        }
        for (at, value) in [(0, 3), (95, 3), (96, 1), (8191, 1)] {
            let good = memory.tallies[at];
            memory.tallies[at] = value;
            assert_eq!(memory.audit(), Err(refusal(Kind::Damaged)), "{at}");
            memory.tallies[at] = good;
        }
        assert_eq!(memory.audit(), Ok(None));
        memory.tallies[70] = 2;
        assert_eq!(memory.audit(), Ok(Some(70)));
        memory.tallies[70] = 0;
        // A length of 1 in a free place makes a case of input 0 and output 0.
        memory.session[place + 2 * 129] = 1;
        assert_eq!(memory.form().unwrap().places[2], Some(case(&[0], &[0])));
        assert_eq!(memory.audit(), Ok(Some(1)));
    }

    #[test]
    fn taking_away_is_checked_both_ways() {
        let damaged = Err(refusal(Kind::Damaged));
        let mut memory = Memory::with(&five_litre());
        memory.add(&[1, 2, 1], &[3, 0, 0]).unwrap();
        memory.add(&[0], &[1]).unwrap();
        // Number 0 misses case 1 and case 0 both; below 0 for a tally of 0.
        memory.tallies[0] = 0;
        assert_eq!(memory.withdraw(1), damaged);
        assert_eq!(memory.amend(1, &[0], &[2]), damaged);
        assert_eq!(memory.amend(1, &[0], &[4]), Err(refusal(Kind::Step)));
        assert_eq!(memory.amend(2, &[0], &[4]), Err(refusal(Kind::Slot)));
        memory.tallies[0] = 2;
        // Number 70 misses neither: 2 would stay, above the one case left.
        memory.tallies[70] = 2;
        assert_eq!(memory.withdraw(0), damaged);
        assert_eq!(memory.amend(0, &[0], &[1]), damaged);
        memory.tallies[70] = 1;
        assert_eq!(memory.withdraw(0), Ok(0));
        assert_eq!(memory.tallies[70], 1);
        assert_eq!(memory.audit(), Ok(Some(70)));
    }

    #[test]
    fn amend_keeps_its_place() {
        let mut memory = Memory::with(&five_litre());
        memory.add(&[0], &[1]).unwrap();
        memory.add(&[1, 2, 1], &[3, 0, 2]).unwrap();
        assert_eq!(memory.amend(1, &[1, 2], &[3, 0]), Ok(0));
        assert_eq!(memory.audit(), Ok(None));
        assert_eq!(memory.list().0, Verdict::Clear);
        assert_eq!(memory.form().unwrap().held(), [0, 1]);
        for place in [2, 63, 64, 4_294_967_295] {
            assert_eq!(memory.amend(place, &[0], &[1]), Err(refusal(Kind::Slot)));
            assert_eq!(memory.withdraw(place), Err(refusal(Kind::Slot)));
        }
    }

    #[test]
    fn answers_need_room() {
        let mut memory = Memory::with(&five_litre());
        memory.add(&[1, 2, 1], &[3, 0, 0]).unwrap();
        let (session, tallies) = (&memory.session, &memory.tallies);
        let mut bytes = [9; 300];
        let said = save(session, tallies, &mut bytes[..9]);
        assert_eq!(said, Err(carrying(Kind::Short, 10)));
        assert_eq!(save(session, tallies, &mut bytes[..10]), Ok(10));
        assert_eq!(bytes[..11], [1, 0, 7, 3, 1, 2, 1, 3, 0, 0, 9]);
        let mut numbers = [9; 3];
        let said = list(session, tallies, &mut numbers[..1]);
        assert_eq!(said, Err(carrying(Kind::Short, 2)));
        let said = list(session, tallies, &mut numbers);
        assert_eq!(said, Ok((Verdict::Found, 2)));
        assert_eq!(numbers, [70, 71, 9]);
        let short = Err(refusal(Kind::Short));
        assert_eq!(conflict(session, tallies, 0, &mut bytes[..255]), short);
        assert_eq!(candidates(session, tallies, &mut bytes[..255]), short);
        let said = conflict(session, tallies, 1, &mut bytes[..255]);
        assert_eq!(said, Err(refusal(Kind::Slot)));
    }

    #[test]
    fn load_is_judged_in_order() {
        let mut memory = Memory::with(&five_litre());
        // Case one has an input too high, case two a bad length: RECORD.
        let record = file(&[1, 9, 0, 0]);
        assert_eq!(memory.load(&record), Err(refusal(Kind::Record)));
        let record = file(&[1, 0, 1, 1, 9, 0]);
        assert_eq!(memory.load(&record), Err(refusal(Kind::Step)));
        assert_eq!(memory.form().unwrap().held(), []);
        let record = file(&[1, 0, 1, 2, 1, 2, 3, 0]);
        assert_eq!(memory.load(&record), Ok(2));
        assert_eq!(memory.form().unwrap().held(), [0, 1]);
    }
}
