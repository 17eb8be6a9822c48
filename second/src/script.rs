//! The trial script: its operations, how they are read and written, and the
//! trial that carries them out, prints their lines and notes what was met.

use std::collections::BTreeMap;

use crate::files::{self, Kind, Refusal, Source, KINDS};
use crate::machine::Case;
use crate::session::{self, Form, Verdict, SESSION, TALLIES};

/// The most bytes of a script.
pub const SCRIPT: usize = 65_536;

/// The bytes of the session's memory and of an answer buffer of bytes.
pub const BYTES: usize = 9_000;

/// The tallies of the memory and the numbers of an answer buffer of numbers.
pub const NUMBERS: usize = 8_400;

const BYTE_FILL: u8 = 165;
const NUMBER_FILL: u16 = 42_405;

/// One operation of a script.
#[derive(Clone, Debug, PartialEq, Eq)]
pub enum Operation {
    Lend {
        session: u16,
        tallies: u16,
    },
    Start {
        table: Vec<u8>,
    },
    Add {
        case: Case,
    },
    Amend {
        place: u32,
        case: Case,
    },
    Withdraw {
        place: u32,
    },
    Load {
        record: Vec<u8>,
    },
    Save {
        room: u16,
    },
    List {
        room: u16,
    },
    Audit,
    Symptoms {
        place: u32,
    },
    Conflict {
        place: u32,
        room: u16,
    },
    Candidates {
        room: u16,
    },
    Poke {
        at: u16,
        value: u8,
    },
    Tally {
        at: u16,
        value: u16,
    },
    Sum,
    Table {
        product: u8,
        room: u16,
    },
    Retest {
        first: Vec<u8>,
        again: Vec<u8>,
        position: u32,
    },
    Judge {
        table: Vec<u8>,
        record: Vec<u8>,
        number: u32,
    },
}

/// Takes operands from the script's bytes; `None` where they are cut off.
struct Reader<'a> {
    script: &'a [u8],
    at: usize,
}

impl Reader<'_> {
    fn take(&mut self, count: usize) -> Option<&[u8]> {
        let part = self.script.get(self.at..self.at + count)?;
        self.at += count;
        Some(part)
    }

    fn one(&mut self) -> Option<u8> {
        Some(self.take(1)?[0])
    }

    fn two(&mut self) -> Option<u16> {
        let part = self.take(2)?;
        Some(u16::from_be_bytes([part[0], part[1]]))
    }

    fn four(&mut self) -> Option<u32> {
        let part = self.take(4)?;
        Some(u32::from_be_bytes([part[0], part[1], part[2], part[3]]))
    }

    fn bytes(&mut self) -> Option<Vec<u8>> {
        let count = self.two()?;
        Some(self.take(count.into())?.to_vec())
    }

    fn case(&mut self) -> Option<Case> {
        let inputs = self.bytes()?;
        let outputs = self.bytes()?;
        Some(Case { inputs, outputs })
    }

    fn operation(&mut self) -> Option<Operation> {
        let operation = match self.one()? {
            0 => Operation::Lend {
                session: self.two()?,
                tallies: self.two()?,
            },
            1 => Operation::Start {
                table: self.bytes()?,
            },
            2 => Operation::Add { case: self.case()? },
            3 => Operation::Amend {
                place: self.four()?,
                case: self.case()?,
            },
            4 => Operation::Withdraw {
                place: self.four()?,
            },
            5 => Operation::Load {
                record: self.bytes()?,
            },
            6 => Operation::Save { room: self.two()? },
            7 => Operation::List { room: self.two()? },
            8 => Operation::Audit,
            9 => Operation::Symptoms {
                place: self.four()?,
            },
            10 => Operation::Conflict {
                place: self.four()?,
                room: self.two()?,
            },
            11 => Operation::Candidates { room: self.two()? },
            12 => Operation::Poke {
                at: self.two()?,
                value: self.one()?,
            },
            13 => Operation::Tally {
                at: self.two()?,
                value: self.two()?,
            },
            14 => Operation::Sum,
            15 => Operation::Table {
                product: self.one()?,
                room: self.two()?,
            },
            16 => Operation::Retest {
                first: self.bytes()?,
                again: self.bytes()?,
                position: self.four()?,
            },
            17 => Operation::Judge {
                table: self.bytes()?,
                record: self.bytes()?,
                number: self.four()?,
            },
            _ => return None,
        };
        Some(operation)
    }
}

impl Operation {
    /// The operation at a place of the script and the place after it; `None`
    /// for an unknown code or an operation that is cut off.
    pub fn read(script: &[u8], at: usize) -> Option<(Operation, usize)> {
        let mut reader = Reader { script, at };
        let operation = reader.operation()?;
        Some((operation, reader.at))
    }

    /// The operation's bytes in a script.
    pub fn bytes(&self) -> Vec<u8> {
        fn put(bytes: &mut Vec<u8>, part: &[u8]) {
            let count = u16::try_from(part.len()).expect("a part below 65,536 bytes");
            bytes.extend(count.to_be_bytes());
            bytes.extend(part);
        }
        let mut bytes = vec![self.code()];
        match self {
            Operation::Lend { session, tallies } => {
                bytes.extend(session.to_be_bytes());
                bytes.extend(tallies.to_be_bytes());
            }
            Operation::Start { table } => put(&mut bytes, table),
            Operation::Add { case } => {
                put(&mut bytes, &case.inputs);
                put(&mut bytes, &case.outputs);
            }
            Operation::Amend { place, case } => {
                bytes.extend(place.to_be_bytes());
                put(&mut bytes, &case.inputs);
                put(&mut bytes, &case.outputs);
            }
            Operation::Withdraw { place } | Operation::Symptoms { place } => {
                bytes.extend(place.to_be_bytes());
            }
            Operation::Load { record } => put(&mut bytes, record),
            Operation::Save { room }
            | Operation::List { room }
            | Operation::Candidates { room } => bytes.extend(room.to_be_bytes()),
            Operation::Audit | Operation::Sum => {}
            Operation::Conflict { place, room } => {
                bytes.extend(place.to_be_bytes());
                bytes.extend(room.to_be_bytes());
            }
            Operation::Poke { at, value } => {
                bytes.extend(at.to_be_bytes());
                bytes.push(*value);
            }
            Operation::Tally { at, value } => {
                bytes.extend(at.to_be_bytes());
                bytes.extend(value.to_be_bytes());
            }
            Operation::Table { product, room } => {
                bytes.push(*product);
                bytes.extend(room.to_be_bytes());
            }
            Operation::Retest {
                first,
                again,
                position,
            } => {
                put(&mut bytes, first);
                put(&mut bytes, again);
                bytes.extend(position.to_be_bytes());
            }
            Operation::Judge {
                table,
                record,
                number,
            } => {
                put(&mut bytes, table);
                put(&mut bytes, record);
                bytes.extend(number.to_be_bytes());
            }
        }
        bytes
    }

    /// The operation's code.
    fn code(&self) -> u8 {
        match self {
            Operation::Lend { .. } => 0,
            Operation::Start { .. } => 1,
            Operation::Add { .. } => 2,
            Operation::Amend { .. } => 3,
            Operation::Withdraw { .. } => 4,
            Operation::Load { .. } => 5,
            Operation::Save { .. } => 6,
            Operation::List { .. } => 7,
            Operation::Audit => 8,
            Operation::Symptoms { .. } => 9,
            Operation::Conflict { .. } => 10,
            Operation::Candidates { .. } => 11,
            Operation::Poke { .. } => 12,
            Operation::Tally { .. } => 13,
            Operation::Sum => 14,
            Operation::Table { .. } => 15,
            Operation::Retest { .. } => 16,
            Operation::Judge { .. } => 17,
        }
    }

    /// The operation's name.
    fn name(&self) -> &'static str {
        NAMES[usize::from(self.code())]
    }
}

/// The names of the operations by code.
const NAMES: [&str; 18] = [
    "LEND",
    "START",
    "ADD",
    "AMEND",
    "WITHDRAW",
    "LOAD",
    "SAVE",
    "LIST",
    "AUDIT",
    "SYMPTOMS",
    "CONFLICT",
    "CANDIDATES",
    "POKE",
    "TALLY",
    "SUM",
    "TABLE",
    "RETEST",
    "JUDGE",
];

/// The sum of a buffer's entries.
fn sum<T: Copy + Into<u64>>(buffer: &[T]) -> u64 {
    buffer
        .iter()
        .fold(1, |sum, &entry| (31 * sum + entry.into()) % 65_521)
}

/// Numbers as words, each with a blank before it.
fn words<T: ToString>(numbers: impl IntoIterator<Item = T>) -> String {
    let mut text = String::new();
    for number in numbers {
        text.push(' ');
        text.push_str(&number.to_string());
    }
    text
}

/// The cells with a 1 in a written set, as words.
fn cells(answer: &[u8]) -> String {
    words((0..session::SET).filter(|&cell| answer[cell] == 1))
}

/// The trial: the memory, what is lent of it, and what was met so far.
pub struct Trial {
    pub session: Vec<u8>,
    pub tallies: Vec<u16>,
    pub lent_session: usize,
    pub lent_tallies: usize,
    pub met: BTreeMap<String, u64>,
}

impl Trial {
    pub fn new() -> Trial {
        Trial {
            session: vec![BYTE_FILL; BYTES],
            tallies: vec![NUMBER_FILL; NUMBERS],
            lent_session: SESSION,
            lent_tallies: TALLIES,
            met: BTreeMap::new(),
        }
    }

    /// What the lent memory holds.
    pub fn form(&self) -> Result<Form, Refusal> {
        session::form(
            &self.session[..self.lent_session],
            &self.tallies[..self.lent_tallies],
        )
    }

    /// What the memory holds if enough of it were lent.
    pub fn whole_form(&self) -> Result<Form, Refusal> {
        session::form(&self.session, &self.tallies)
    }

    /// Whether enough of the memory is lent.
    pub fn lent_enough(&self) -> bool {
        self.lent_session >= SESSION && self.lent_tallies >= TALLIES
    }

    fn note(&mut self, kind: String) {
        *self.met.entry(kind).or_insert(0) += 1;
    }

    /// The words of a refusal; notes it under its number, and under its
    /// operation with the cause where a number has two.
    fn refused(&mut self, operation: &Operation, refusal: Refusal) -> String {
        let (_, kind) = KINDS[refusal.number() - 1];
        let cause = match (refusal.kind, operation) {
            (Kind::Short, Operation::Table { .. }) => " of room",
            (Kind::Short, _) if self.lent_enough() => " of room",
            (Kind::Short, _) => " of memory",
            (Kind::Damaged, _) if self.form().is_ok() => " taking away",
            (Kind::Damaged, _) => " in form",
            _ => "",
        };
        self.note(format!("refusal {} {kind}", refusal.number()));
        self.note(format!("{} {kind}{cause}", operation.name()));
        format!("NO {} {}", refusal.number(), refusal.carried)
    }

    /// Carries out one operation and gives its line, without the line feed.
    pub fn perform(&mut self, operation: &Operation) -> String {
        let text = self.answer(operation);
        format!("{} {text}", operation.name())
    }

    /// The words that an operation prints after its name.
    fn answer(&mut self, operation: &Operation) -> String {
        match operation {
            Operation::Lend { session, tallies } => {
                self.lent_session = usize::from(*session).min(BYTES);
                self.lent_tallies = usize::from(*tallies).min(NUMBERS);
                return format!("{} {}", self.lent_session, self.lent_tallies);
            }
            Operation::Poke { at, value } => {
                if let Some(byte) = self.session.get_mut(usize::from(*at)) {
                    *byte = *value;
                }
                return format!("{at} {value}");
            }
            Operation::Tally { at, value } => {
                if let Some(tally) = self.tallies.get_mut(usize::from(*at)) {
                    *tally = *value;
                }
                return format!("{at} {value}");
            }
            Operation::Sum => return format!("{} {}", sum(&self.session), sum(&self.tallies)),
            _ => {}
        }

        let mut bytes = vec![BYTE_FILL; BYTES];
        let mut numbers = vec![NUMBER_FILL; NUMBERS];
        let said = self.call(operation, &mut bytes, &mut numbers);
        let text = match said {
            Ok(words) => {
                self.note(format!("{} OK", operation.name()));
                format!("OK{words}")
            }
            Err(refusal) => self.refused(operation, refusal),
        };
        match operation {
            Operation::Save { .. }
            | Operation::Conflict { .. }
            | Operation::Candidates { .. }
            | Operation::Table { .. } => format!("{text} # {}", sum(&bytes)),
            Operation::List { .. } => format!("{text} # {}", sum(&numbers)),
            _ => text,
        }
    }

    /// Makes the call of an operation; answers the words after OK.
    fn call(
        &mut self,
        operation: &Operation,
        bytes: &mut [u8],
        numbers: &mut [u16],
    ) -> Result<String, Refusal> {
        let session = &mut self.session[..self.lent_session];
        let tallies = &mut self.tallies[..self.lent_tallies];
        let lend = |room: u16, entries: usize| usize::from(room).min(entries);
        let text = match operation {
            Operation::Start { table } => words([session::start(session, tallies, table)?]),
            Operation::Add { case } => words([session::add(session, tallies, case)?]),
            Operation::Amend { place, case } => {
                words([session::amend(session, tallies, *place as usize, case)?])
            }
            Operation::Withdraw { place } => {
                words([session::withdraw(session, tallies, *place as usize)?])
            }
            Operation::Load { record } => words([session::load(session, tallies, record)?]),
            Operation::Save { room } => {
                let room = lend(*room, bytes.len());
                words([session::save(session, tallies, &mut bytes[..room])?])
            }
            Operation::List { room } => {
                let room = lend(*room, numbers.len());
                let (verdict, count) = session::list(session, tallies, &mut numbers[..room])?;
                let verdict = match verdict {
                    Verdict::Clear => "CLEAR",
                    Verdict::Found => "FOUND",
                    Verdict::None => "NONE",
                };
                self.note(format!("verdict {verdict}"));
                format!(" {verdict} {count}{}", words(&numbers[..count]))
            }
            Operation::Audit => match session::audit(session, tallies)? {
                None => {
                    self.note("audit TRUE".to_string());
                    " TRUE".to_string()
                }
                Some(number) => {
                    self.note("audit FALSE".to_string());
                    format!(" FALSE {number}")
                }
            },
            Operation::Symptoms { place } => {
                let (count, first) = session::symptoms(session, tallies, *place as usize)?;
                words([count, first])
            }
            Operation::Conflict { place, room } => {
                let room = lend(*room, bytes.len());
                let answer = &mut bytes[..room];
                session::conflict(session, tallies, *place as usize, answer)?;
                cells(bytes)
            }
            Operation::Candidates { room } => {
                let room = lend(*room, bytes.len());
                session::candidates(session, tallies, &mut bytes[..room])?;
                cells(bytes)
            }
            Operation::Table { product, room } => {
                let machine = match product {
                    0 => files::five_litre(),
                    _ => files::eight_litre(),
                };
                let room = lend(*room, bytes.len());
                let file = files::write_table(&machine);
                words([session::write_bytes(&file, &mut bytes[..room])?])
            }
            Operation::Retest {
                first,
                again,
                position,
            } => match files::retest(first, again, *position as usize) {
                Ok((source, part)) => {
                    let source = match source {
                        Source::Retest => "retest",
                        Source::First => "first",
                    };
                    self.note(format!("retest from {source}"));
                    words(part)
                }
                Err(refusal) => {
                    self.note("retest refused".to_string());
                    return Err(refusal);
                }
            },
            Operation::Judge {
                table,
                record,
                number,
            } => {
                let value = files::judge(table, record, *number as usize);
                self.note(format!("judge {value}"));
                if value > 16 {
                    let (_, kind) = KINDS[value - 17];
                    self.note(format!("refusal {} {kind}", value - 16));
                }
                words([value])
            }
            Operation::Lend { .. }
            | Operation::Poke { .. }
            | Operation::Tally { .. }
            | Operation::Sum => unreachable!("no call"),
        };
        Ok(text)
    }

    /// Carries out a whole script and gives what is printed.
    pub fn run(&mut self, script: &[u8]) -> String {
        if script.len() > SCRIPT {
            return format!("STOP {SCRIPT}\n");
        }
        let mut printed = String::new();
        let mut at = 0;
        while at < script.len() {
            match Operation::read(script, at) {
                Some((operation, after)) => {
                    printed.push_str(&self.perform(&operation));
                    printed.push('\n');
                    at = after;
                }
                None => {
                    printed.push_str(&format!("STOP {at}\n"));
                    self.note("STOP".to_string());
                    break;
                }
            }
        }
        printed
    }
}

/// Every kind of answer that random scripts should meet, in the order in
/// which they are counted.
pub fn kinds() -> Vec<String> {
    let mut kinds = Vec::new();
    for (kind, name) in KINDS {
        kinds.push(format!("refusal {} {name}", kind as usize));
    }
    for verdict in ["CLEAR", "FOUND", "NONE"] {
        kinds.push(format!("verdict {verdict}"));
    }
    kinds.push("audit TRUE".to_string());
    kinds.push("audit FALSE".to_string());
    for value in [0, 1, 18, 19, 20, 21, 22, 26, 27] {
        kinds.push(format!("judge {value}"));
    }
    for pick in ["from retest", "from first", "refused"] {
        kinds.push(format!("retest {pick}"));
    }
    let memory = "SHORT of memory";
    let room = "SHORT of room";
    let form = "DAMAGED in form";
    let away = "DAMAGED taking away";
    let calls: [(&str, &[&str]); 13] = [
        ("START", &[memory, "VERSION", "LENGTH", "SIZE", "CELL"]),
        ("ADD", &[memory, form, "STEP", "FULL"]),
        ("AMEND", &[memory, form, "SLOT", "STEP", away]),
        ("WITHDRAW", &[memory, form, "SLOT", away]),
        (
            "LOAD",
            &[memory, form, "VERSION", "LENGTH", "RECORD", "STEP", "FULL"],
        ),
        ("SAVE", &[memory, form, room]),
        ("LIST", &[memory, form, room]),
        ("AUDIT", &[memory, form]),
        ("SYMPTOMS", &[memory, form, "SLOT"]),
        ("CONFLICT", &[memory, form, "SLOT", room]),
        ("CANDIDATES", &[memory, form, room]),
        ("TABLE", &[room]),
        ("RETEST", &["VERSION", "LENGTH", "RECORD", "SLOT"]),
    ];
    for (name, causes) in calls {
        kinds.push(format!("{name} OK"));
        for cause in causes {
            kinds.push(format!("{name} {cause}"));
        }
    }
    kinds.push("STOP".to_string());
    kinds
}

#[cfg(test)]
mod tests {
    use super::*;
    use crate::files::{five_litre, write_table};

    fn run(operations: &[Operation]) -> String {
        let script: Vec<u8> = operations.iter().flat_map(Operation::bytes).collect();
        Trial::new().run(&script)
    }

    fn case(inputs: &[u8], outputs: &[u8]) -> Case {
        Case {
            inputs: inputs.to_vec(),
            outputs: outputs.to_vec(),
        }
    }

    #[test]
    fn the_documents_example() {
        let mut script = vec![0, 0x22, 0x42, 0x20, 0x00, 1, 0, 30];
        script.extend(write_table(&five_litre()));
        let printed = Trial::new().run(&script);
        assert_eq!(printed, "LEND 8770 8192\nSTART NO 1 0\n");
    }

    #[test]
    fn operations_are_read_as_written() {
        let all = [
            Operation::Lend {
                session: 1,
                tallies: 65_535,
            },
            Operation::Start {
                table: vec![1, 2, 3],
            },
            Operation::Add {
                case: case(&[1], &[2, 3]),
            },
            Operation::Amend {
                place: 7,
                case: case(&[], &[2, 3]),
            },
            Operation::Withdraw { place: u32::MAX },
            Operation::Load { record: vec![] },
            Operation::Save { room: 258 },
            Operation::List { room: 259 },
            Operation::Audit,
            Operation::Symptoms { place: 1 },
            Operation::Conflict { place: 2, room: 3 },
            Operation::Candidates { room: 4 },
            Operation::Poke { at: 260, value: 9 },
            Operation::Tally {
                at: 261,
                value: 515,
            },
            Operation::Sum,
            Operation::Table {
                product: 1,
                room: 36,
            },
            Operation::Retest {
                first: vec![1],
                again: vec![2, 2],
                position: 66_051,
            },
            Operation::Judge {
                table: vec![3],
                record: vec![4],
                number: 16_909_060,
            },
        ];
        for (code, operation) in all.iter().enumerate() {
            let bytes = operation.bytes();
            assert_eq!(usize::from(bytes[0]), code);
            let read = Operation::read(&bytes, 0);
            assert_eq!(read, Some((operation.clone(), bytes.len())));
            for cut in 0..bytes.len() {
                assert_eq!(Operation::read(&bytes[..cut], 0), None);
            }
        }
    }

    #[test]
    fn stops() {
        assert_eq!(Trial::new().run(&[]), "");
        assert_eq!(Trial::new().run(&[18]), "STOP 0\n");
        let printed = Trial::new().run(&[12, 0, 5, 7, 255, 8]);
        assert_eq!(printed, "POKE 5 7\nSTOP 4\n");
        let printed = Trial::new().run(&[8, 2, 0, 1, 0, 0, 2, 0]);
        assert_eq!(printed, "AUDIT NO 9 0\nSTOP 1\n");
        assert_eq!(Trial::new().run(&[14; 65_537]), "STOP 65536\n");
        let mut script = vec![5, 255, 253];
        script.resize(65_536, 0);
        assert_eq!(Trial::new().run(&script), "LOAD NO 9 0\n");
    }

    #[test]
    fn lending_and_storing() {
        let printed = run(&[
            Operation::Lend {
                session: 9001,
                tallies: 8401,
            },
            Operation::Poke {
                at: 9000,
                value: 255,
            },
            Operation::Tally {
                at: 8400,
                value: 65_535,
            },
            Operation::Sum,
        ]);
        let bytes = sum(&[165u8; 9000]);
        let numbers = sum(&[42_405u16; 8400]);
        let expected =
            format!("LEND 9000 8400\nPOKE 9000 255\nTALLY 8400 65535\nSUM {bytes} {numbers}\n");
        assert_eq!(printed, expected);
        assert_eq!(sum::<u8>(&[]), 1);
        assert_eq!(sum(&[2u8, 3]), 31 * 33 + 3);
    }

    #[test]
    fn p5_and_p6_as_a_script() {
        let printed = run(&[
            Operation::Start {
                table: write_table(&five_litre()),
            },
            Operation::Candidates { room: 256 },
            Operation::Add {
                case: case(&[1, 2, 1], &[3, 0, 0]),
            },
            Operation::List { room: 1 },
            Operation::List { room: 2 },
            Operation::Conflict {
                place: 0,
                room: 65_535,
            },
            Operation::Conflict { place: 1, room: 0 },
            Operation::Candidates { room: 255 },
            Operation::Load {
                record: vec![1, 0, 7, 3, 1, 2, 0, 3, 0, 1],
            },
            Operation::List { room: 8400 },
            Operation::Audit,
            Operation::Symptoms { place: 0 },
            Operation::Symptoms { place: 1 },
            Operation::Table {
                product: 9,
                room: 35,
            },
            Operation::Retest {
                first: vec![1, 0, 3, 1, 7, 8],
                again: vec![1, 0, 3, 1, 7, 9],
                position: 0,
            },
            Operation::Retest {
                first: vec![1, 0, 3, 1, 7, 8],
                again: vec![1, 0, 3, 1, 7, 9],
                position: 1,
            },
        ]);
        let whole = |start: &[u8]| {
            let mut buffer = start.to_vec();
            buffer.resize(9000, 165);
            sum(&buffer)
        };
        let many = |start: &[u16]| {
            let mut buffer = start.to_vec();
            buffer.resize(8400, 42_405);
            sum(&buffer)
        };
        let mut set = [0; 256];
        let none = whole(&set);
        set[1] = 1;
        set[8] = 1;
        let some = whole(&set);
        let same = whole(&[]);
        let expected = format!(
            "START OK 0\n\
             CANDIDATES OK # {none}\n\
             ADD OK 0\n\
             LIST NO 1 2 # {}\n\
             LIST OK FOUND 2 70 71 # {}\n\
             CONFLICT OK 1 8 # {some}\n\
             CONFLICT NO 8 0 # {same}\n\
             CANDIDATES NO 1 0 # {same}\n\
             LOAD OK 1\n\
             LIST OK FOUND 1 70 # {}\n\
             AUDIT OK TRUE\n\
             SYMPTOMS OK 1 2\n\
             SYMPTOMS OK 0 64\n\
             TABLE NO 1 36 # {same}\n\
             RETEST OK 1 7 9\n\
             RETEST NO 8 0\n",
            many(&[]),
            many(&[70, 71]),
            many(&[70]),
        );
        assert_eq!(printed, expected);
    }

    #[test]
    fn kinds_are_all_different() {
        let mut all = kinds();
        let count = all.len();
        all.sort();
        all.dedup();
        assert_eq!(all.len(), count);
    }
}
