//! Random scripts, each decided by its seed alone.
//!
//! A maker carries out every operation as it writes it, so it knows what the
//! session holds and can keep most of the script valid. `wild` says how often
//! an argument is chosen badly; it is low in between and high while the
//! memory is damaged or lent short, so that refusals meet in every order.

use crate::files::{eight_litre, file, five_litre, read_table, write_record, write_table};
use crate::machine::{Case, Entry, Machine, MOST, STEPS};
use crate::script::{Operation, Trial, BYTES, NUMBERS, SCRIPT};
use crate::session::{FIRST_PLACE, PLACE, PLACES, SESSION, TALLIES};

/// What kind of script to make.
#[derive(Clone, Copy, Debug, PartialEq, Eq)]
pub enum Size {
    /// Tables of all sizes and sessions of all kinds.
    Small,
    /// A (16,16,16) table and a full session of 64 cases of 64 steps.
    Large,
}

/// The random script of a seed.
pub fn script(seed: u64, size: Size) -> Vec<u8> {
    let mut maker = Maker::new(seed);
    match size {
        Size::Small => maker.small(),
        Size::Large => maker.large(),
    }
    maker.script
}

/// A source of random numbers (splitmix64).
struct Dice(u64);

impl Dice {
    fn next(&mut self) -> u64 {
        self.0 = self.0.wrapping_add(0x9E37_79B9_7F4A_7C15);
        let mut z = self.0;
        z = (z ^ (z >> 30)).wrapping_mul(0xBF58_476D_1CE4_E5B9);
        z = (z ^ (z >> 27)).wrapping_mul(0x94D0_49BB_1331_11EB);
        z ^ (z >> 31)
    }

    /// A number below the bound, which is not 0.
    fn below(&mut self, bound: usize) -> usize {
        (self.next() % bound as u64) as usize
    }

    /// A number from the first to the last.
    fn from(&mut self, first: usize, last: usize) -> usize {
        first + self.below(last - first + 1)
    }

    /// True in so many out of a hundred.
    fn percent(&mut self, hundredths: usize) -> bool {
        self.below(100) < hundredths
    }

    fn pick<T: Copy>(&mut self, choices: &[T]) -> T {
        choices[self.below(choices.len())]
    }

    /// A byte below the bound, which is not 0.
    fn byte(&mut self, bound: usize) -> u8 {
        self.below(bound) as u8
    }

    /// So many bytes below the bound.
    fn bytes(&mut self, count: usize, bound: usize) -> Vec<u8> {
        (0..count).map(|_| self.byte(bound)).collect()
    }

    /// The length of a case, mostly short.
    fn length(&mut self) -> usize {
        match self.below(20) {
            0..=3 => 1,
            4..=13 => self.from(2, 7),
            14..=16 => self.from(8, 20),
            17 => self.from(21, 62),
            18 => 63,
            _ => STEPS,
        }
    }
}

/// How often an argument is bad, out of a hundred: as a rule, and while the
/// memory is damaged or lent short.
const TAME: usize = 6;
const WILD: usize = 35;

struct Maker {
    dice: Dice,
    script: Vec<u8>,
    trial: Trial,
    wild: usize,
    /// The table of the last accepted start.
    table: Machine,
    /// The board on the bench, with no fault, one or two.
    board: Machine,
    /// Inputs that lead to the board's fault.
    walk: Vec<u8>,
    /// How often a case is not as the board gave it, out of a hundred.
    noise: usize,
}

impl Maker {
    fn new(seed: u64) -> Maker {
        Maker {
            dice: Dice(seed),
            script: Vec::new(),
            trial: Trial::new(),
            wild: TAME,
            table: five_litre(),
            board: five_litre(),
            walk: Vec::new(),
            noise: 0,
        }
    }

    /// Writes an operation and carries it out; drops it if the script would
    /// become too long. Answers whether it was accepted.
    fn emit(&mut self, operation: Operation) -> bool {
        let bytes = operation.bytes();
        if self.script.len() + bytes.len() > SCRIPT {
            return false;
        }
        self.script.extend(bytes);
        let line = self.trial.perform(&operation);
        line.split(' ').nth(1) != Some("NO")
    }

    /// Whether an argument is to be chosen badly this time.
    fn bad(&mut self) -> bool {
        self.dice.percent(self.wild)
    }

    /// What the session holds, as far as it can be told.
    fn held(&self) -> Vec<usize> {
        self.trial
            .whole_form()
            .map_or(Vec::new(), |form| form.held())
    }

    // Tables and boards.

    /// A random table of the given sizes; so many cells out of a hundred are
    /// undefined.
    fn table_of(&mut self, n: usize, k: usize, m: usize, holes: usize) -> Machine {
        let mut cells = Vec::new();
        for _ in 0..n * k {
            cells.push(if self.dice.percent(holes) {
                None
            } else {
                Some(Entry {
                    next: self.dice.byte(n),
                    output: self.dice.byte(m),
                })
            });
        }
        Machine { n, k, m, cells }
    }

    /// A table of any size, or a product's.
    fn any_table(&mut self) -> Machine {
        let dice = &mut self.dice;
        let (n, k, m) = match dice.below(12) {
            0 | 1 => return five_litre(),
            2 | 3 => return eight_litre(),
            4..=7 => (dice.from(1, 5), dice.from(1, 4), dice.from(1, 5)),
            8 | 9 => (dice.from(1, MOST), dice.from(1, MOST), dice.from(1, MOST)),
            10 => {
                let edges = [1, 2, MOST - 1, MOST];
                (dice.pick(&edges), dice.pick(&edges), dice.pick(&edges))
            }
            _ => (MOST, MOST, MOST),
        };
        let holes = dice.pick(&[0, 0, 10, 30, 60, 100]);
        self.table_of(n, k, m, holes)
    }

    /// The machine with a random change in one cell that makes it differ, if
    /// there is such a change.
    fn faulty(&mut self, machine: &Machine, cell: usize) -> Machine {
        let span = machine.n + machine.m;
        for _ in 0..20 {
            let changed = machine.changed(cell * span + self.dice.below(span));
            if changed.completed(cell) != machine.completed(cell) {
                return changed;
            }
        }
        machine.clone()
    }

    /// Puts a board of the present table on the bench.
    fn mount(&mut self) {
        let table = self.table.clone();
        let steps = self.dice.from(1, 4);
        self.noise = self.dice.pick(&[0, 0, 0, 5, 40]);
        self.walk = self.dice.bytes(steps, table.k);
        let path = table.path(&self.walk);
        let cell = self.dice.pick(&path);
        self.board = match self.dice.below(20) {
            0..=3 => table,
            4..=14 => self.faulty(&table, cell),
            _ => {
                let once = self.faulty(&table, cell);
                let other = match self.dice.below(3) {
                    0 => cell,
                    1 => self.dice.pick(&path),
                    _ => self.dice.below(table.n * table.k),
                };
                self.faulty(&once, other)
            }
        };
    }

    // Table files.

    /// A damaged table file; several damages may meet.
    fn damaged_table(&mut self, table: &Machine) -> Vec<u8> {
        let mut bytes = write_table(table);
        for _ in 0..self.dice.pick(&[1, 1, 1, 2, 3]) {
            match self.dice.below(8) {
                0..=2 => self.damage_head(&mut bytes),
                3 | 4 => self.damage_sizes(&mut bytes),
                _ => self.damage_cells(&mut bytes, table),
            }
        }
        bytes
    }

    /// Damages a file's version or length.
    fn damage_head(&mut self, bytes: &mut Vec<u8>) {
        match self.dice.below(9) {
            0 | 1 => self.damage_version(bytes),
            2 => {
                bytes.truncate(self.dice.below(4));
                if self.dice.percent(40) {
                    self.damage_version(bytes);
                }
            }
            3 if bytes.len() > 2 => bytes[2] = bytes[2].wrapping_add(1),
            4 if bytes.len() > 2 => bytes[2] = bytes[2].wrapping_sub(1),
            5 if bytes.len() > 2 => bytes[1] = bytes[1].wrapping_add(1),
            6 if bytes.len() > 2 => bytes.swap(1, 2),
            7 => {
                let keep = self.dice.below(bytes.len() + 1);
                bytes.truncate(keep);
            }
            _ => {
                let more = self.dice.from(1, 4);
                bytes.extend(self.dice.bytes(more, 256));
            }
        }
    }

    /// Damages a file's version, if it has one.
    fn damage_version(&mut self, bytes: &mut [u8]) {
        if let Some(version) = bytes.first_mut() {
            *version = self.dice.pick(&[0, 2, 255, 129, 16]);
        }
    }

    /// Sets a file's length field to the count of its rest.
    fn mend_length(bytes: &mut [u8]) {
        if bytes.len() >= 3 {
            let length = (bytes.len() - 3) as u16;
            bytes[1..3].copy_from_slice(&length.to_be_bytes());
        }
    }

    /// Damages a table file's n, k or m, or the count of its cells.
    fn damage_sizes(&mut self, bytes: &mut Vec<u8>) {
        match self.dice.below(6) {
            0..=2 => {
                let at = self.dice.from(3, 5);
                let value = self.dice.pick(&[0, 17, 255, 16, 1, 18, 2]);
                if at < bytes.len() {
                    bytes[at] = value;
                }
            }
            3 => {
                let keep = self.dice.from(3, 8);
                bytes.truncate(keep);
                Self::mend_length(bytes);
            }
            4 => {
                let less = self.dice.from(1, 3);
                bytes.truncate(bytes.len().saturating_sub(less));
                Self::mend_length(bytes);
            }
            _ => {
                let more = self.dice.from(1, 3);
                bytes.extend(self.dice.bytes(more, 3));
                Self::mend_length(bytes);
            }
        }
    }

    /// Damages up to three of a table file's cells.
    fn damage_cells(&mut self, bytes: &mut [u8], table: &Machine) {
        let (n, m) = (table.n as u8, table.m as u8);
        for _ in 0..self.dice.from(1, 3) {
            let cell = match self.dice.below(4) {
                0 => 0,
                1 => table.cells.len() - 1,
                _ => self.dice.below(table.cells.len()),
            };
            let at = 6 + 2 * cell;
            if at + 1 >= bytes.len() {
                continue;
            }
            let pair = match self.dice.below(8) {
                0 | 1 => [n, 0],
                2 | 3 => [n - 1, m],
                4 => [255, 0],
                5 => [0, 255],
                6 => [254, 254],
                _ => [255, m],
            };
            bytes[at..at + 2].copy_from_slice(&pair);
        }
    }

    // Cases and records.

    /// Inputs for the present table, often over the way to the fault.
    fn inputs(&mut self) -> Vec<u8> {
        let length = self.dice.length();
        let mut inputs = Vec::new();
        if self.dice.percent(55) {
            inputs.extend(&self.walk);
        }
        let more = length.saturating_sub(inputs.len());
        inputs.extend(self.dice.bytes(more, self.table.k));
        inputs
    }

    /// Outputs for some inputs: mostly the board's.
    fn outputs(&mut self, inputs: &[u8]) -> Vec<u8> {
        let mut outputs = self.board.expected(inputs);
        if self.dice.percent(self.noise) {
            match self.dice.below(6) {
                0..=3 => outputs = self.table.expected(inputs),
                4 => outputs = self.dice.bytes(inputs.len(), self.table.m),
                _ => {
                    let step = self.dice.below(outputs.len());
                    outputs[step] = self.dice.byte(self.table.m);
                }
            }
        }
        outputs
    }

    /// A case that the present table accepts.
    fn good_case(&mut self) -> Case {
        let inputs = self.inputs();
        let outputs = self.outputs(&inputs);
        Case { inputs, outputs }
    }

    /// A case of so many steps that the present table accepts.
    fn case_of(&mut self, length: usize) -> Case {
        let inputs = self.dice.bytes(length, self.table.k);
        let outputs = self.outputs(&inputs);
        Case { inputs, outputs }
    }

    /// A case with a fault of the kind STEP, in the present table's eyes.
    fn bad_case(&mut self) -> Case {
        let mut case = self.good_case();
        match self.dice.below(9) {
            0 => {
                case.inputs.clear();
                case.outputs.clear();
            }
            1 => case = self.case_of(STEPS + 1),
            2 => {
                let length = self.dice.pick(&[66, 127, 128, 200, 256, 257, 320]);
                case = self.case_of(length);
            }
            3 => {
                case.outputs.pop();
            }
            4 => {
                case.inputs.pop();
            }
            5 => {
                case.outputs.push(0);
            }
            6 => match self.dice.below(3) {
                0 => case.inputs.clear(),
                1 => case.outputs.clear(),
                _ => case.inputs.resize(STEPS + 1, 0),
            },
            7 => self.lift_input(&mut case),
            _ => self.lift_output(&mut case),
        }
        case
    }

    /// Brings one input to k or above.
    fn lift_input(&mut self, case: &mut Case) {
        let step = self.dice.below(case.inputs.len());
        let k = self.table.k as u8;
        case.inputs[step] = self.dice.pick(&[k, k, k + 1, 16, 255, 254]);
    }

    /// Brings one output to m or above.
    fn lift_output(&mut self, case: &mut Case) {
        let step = self.dice.below(case.outputs.len());
        let m = self.table.m as u8;
        case.outputs[step] = self.dice.pick(&[m, m, m + 1, 16, 255, 254]);
    }

    fn case(&mut self) -> Case {
        if self.bad() {
            self.bad_case()
        } else {
            self.good_case()
        }
    }

    /// Cases for a record that the present table accepts.
    fn good_cases(&mut self) -> Vec<Case> {
        let count = match self.dice.below(20) {
            0 => 0,
            1..=15 => self.dice.from(1, 4),
            16..=18 => self.dice.from(5, 10),
            _ => self.dice.from(11, 30),
        };
        (0..count).map(|_| self.good_case()).collect()
    }

    /// A record damaged in its head, its form or its steps; several damages
    /// may meet.
    fn damaged_record(&mut self) -> Vec<u8> {
        let mut cases = self.good_cases();
        if cases.is_empty() {
            cases.push(self.good_case());
        }
        if self.dice.percent(45) {
            let at = self.dice.below(cases.len());
            let mut case = cases[at].clone();
            if self.dice.percent(50) {
                self.lift_input(&mut case);
            } else {
                self.lift_output(&mut case);
            }
            cases[at] = case;
            if self.dice.percent(60) {
                return write_record(&cases);
            }
        }
        let mut bytes = write_record(&cases);
        for _ in 0..self.dice.pick(&[1, 1, 2]) {
            if self.dice.percent(40) {
                self.damage_head(&mut bytes);
            } else {
                self.damage_form(&mut bytes);
            }
        }
        bytes
    }

    /// Damages a record's form.
    fn damage_form(&mut self, bytes: &mut Vec<u8>) {
        match self.dice.below(7) {
            0 => bytes.push(self.dice.pick(&[0, 65, 255, 1, 64])),
            1 => {
                let less = self.dice.from(1, 3);
                bytes.truncate(bytes.len().saturating_sub(less).max(3));
            }
            2 if bytes.len() > 3 => bytes[3] = self.dice.pick(&[0, 65, 128, 255]),
            3 if bytes.len() > 3 => bytes[3] = bytes[3].wrapping_add(1),
            4 => {
                // So many cases of one step that the record is one too long.
                let count = self.dice.pick(&[65, 65, 66, 90]);
                let case = self.case_of(1);
                *bytes = write_record(&vec![case; count]);
            }
            5 => {
                // A case of 65 steps, whole.
                bytes.push(65);
                bytes.extend(self.dice.bytes(130, self.table.k.min(self.table.m)));
            }
            _ => {
                bytes.push(self.dice.from(1, 64) as u8);
                let more = self.dice.below(6);
                bytes.extend(self.dice.bytes(more, 2));
            }
        }
        Self::mend_length(bytes);
    }

    fn record(&mut self) -> Vec<u8> {
        if self.bad() {
            self.damaged_record()
        } else {
            write_record(&self.good_cases())
        }
    }

    // Numbers of all kinds.

    /// A place: a held one, or a bad one.
    fn place(&mut self) -> u32 {
        let held = self.held();
        if !held.is_empty() && !self.bad() {
            return self.dice.pick(&held) as u32;
        }
        let some = held.first().copied().unwrap_or(0) as u32;
        let any = self.dice.below(PLACES) as u32;
        let bad = [
            any,
            63,
            64,
            64,
            65,
            255,
            256 + some,
            65_536 + some,
            0x8000_0000 + some,
            u32::MAX,
            u32::MAX,
            u32::MAX - 63 + some,
        ];
        self.dice.pick(&bad)
    }

    /// A room for so many entries, or too little of it.
    fn room(&mut self, needed: usize) -> u16 {
        let room = if self.bad() {
            let less = needed.saturating_sub(1);
            self.dice.pick(&[0, 1, less, less, needed / 2])
        } else {
            let full = [needed, needed + 1, TALLIES, NUMBERS, BYTES, 9_001, 65_535];
            self.dice.pick(&full).max(needed)
        };
        room as u16
    }

    // Calls, each with arguments that are mostly good.

    fn add(&mut self) {
        let case = self.case();
        self.emit(Operation::Add { case });
    }

    fn amend(&mut self) {
        let place = self.place();
        let case = self.case();
        self.emit(Operation::Amend { place, case });
    }

    fn withdraw(&mut self) {
        let place = self.place();
        self.emit(Operation::Withdraw { place });
    }

    fn load(&mut self) {
        let record = self.record();
        self.emit(Operation::Load { record });
    }

    fn save(&mut self) {
        let needed = match self.trial.whole_form() {
            Ok(form) => write_record(form.cases()).len(),
            Err(_) => 3,
        };
        let room = self.room(needed);
        self.emit(Operation::Save { room });
    }

    fn list(&mut self) {
        let needed = match self.trial.whole_form() {
            Ok(form) => form.listed(&self.trial.tallies).len(),
            Err(_) => 5,
        };
        let room = self.room(needed);
        self.emit(Operation::List { room });
    }

    fn audit(&mut self) {
        self.emit(Operation::Audit);
    }

    fn symptoms(&mut self) {
        let place = self.place();
        self.emit(Operation::Symptoms { place });
    }

    fn conflict(&mut self) {
        let place = self.place();
        let room = self.room(256);
        self.emit(Operation::Conflict { place, room });
    }

    fn candidates(&mut self) {
        let room = self.room(256);
        self.emit(Operation::Candidates { room });
    }

    fn sum(&mut self) {
        self.emit(Operation::Sum);
    }

    fn product(&mut self) {
        let product = self.dice.pick(&[0, 0, 1, 1, 2, 255]);
        let room = self.room(if product == 0 { 30 } else { 36 });
        self.emit(Operation::Table { product, room });
    }

    /// Starts with a table, or tries to with a damaged file of it.
    fn start(&mut self, table: &Machine) {
        let file = if self.bad() {
            self.damaged_table(table)
        } else {
            write_table(table)
        };
        self.start_with(file);
    }

    /// Starts with a file; an accepted table gets a new board.
    fn start_with(&mut self, table: Vec<u8>) {
        let read = read_table(&table);
        let accepted = self.emit(Operation::Start { table });
        if let (true, Ok(table)) = (accepted, read) {
            self.table = table;
            self.mount();
        }
    }

    /// Any session call but a start.
    fn any_call(&mut self) {
        match self.dice.below(16) {
            0..=2 => self.add(),
            3 | 4 => self.amend(),
            5 | 6 => self.withdraw(),
            7 | 8 => self.load(),
            9 => self.save(),
            10 | 11 => self.list(),
            12 => self.audit(),
            13 => self.symptoms(),
            14 => self.conflict(),
            _ => self.candidates(),
        }
    }

    /// A few calls with many bad arguments, and a look at the memory.
    fn probe(&mut self) {
        self.wild = WILD;
        for _ in 0..self.dice.from(1, 4) {
            if self.dice.percent(4) {
                let table = self.table.clone();
                self.start(&table);
            } else {
                self.any_call();
            }
        }
        self.wild = TAME;
        if self.dice.percent(30) {
            self.sum();
        }
    }

    // Retest and judge.

    /// A case for a record that no table looks at.
    fn loose_case(&mut self) -> Case {
        let length = self.dice.length();
        let bound = self.dice.pick(&[2, 3, 16, 256]);
        Case {
            inputs: self.dice.bytes(length, bound),
            outputs: self.dice.bytes(length, bound),
        }
    }

    fn retest(&mut self) {
        let count = self.dice.pick(&[0, 1, 2, 3, 4, 5, 64]);
        let first: Vec<Case> = (0..count)
            .map(|_| {
                let mut case = self.loose_case();
                if count == 64 {
                    case.inputs.truncate(2);
                    case.outputs.truncate(2);
                }
                case
            })
            .collect();
        let mut again = Vec::new();
        for case in &first {
            // The same inputs with other outputs, once or more, or nearly
            // the same inputs.
            for _ in 0..self.dice.pick(&[0, 0, 1, 2]) {
                let mut other = case.clone();
                let length = other.outputs.len();
                other.outputs = self.dice.bytes(length, 256);
                match self.dice.below(8) {
                    0 if length > 1 => {
                        other.inputs.pop();
                        other.outputs.pop();
                    }
                    1 if length < STEPS => {
                        other.inputs.push(0);
                        other.outputs.push(0);
                    }
                    2 => other.inputs[length - 1] ^= 1,
                    _ => {}
                }
                again.push(other);
            }
        }
        if self.dice.percent(40) {
            again.insert(0, self.loose_case());
        }
        for at in (1..again.len()).rev() {
            again.swap(at, self.dice.below(at + 1));
        }
        again.truncate(64);

        let mut position = self.dice.below(count.max(1));
        if self.dice.percent(15) {
            position = self
                .dice
                .pick(&[count, count + 1, 64, 256, 65_536, 0xFFFF_FFFF]);
        }
        let mut first = write_record(&first);
        let mut again = write_record(&again);
        if self.dice.percent(12) {
            self.damage_record(&mut first);
        }
        if self.dice.percent(12) {
            self.damage_record(&mut again);
        }
        self.emit(Operation::Retest {
            first,
            again,
            position: position as u32,
        });
    }

    /// Damages a record's head or form.
    fn damage_record(&mut self, bytes: &mut Vec<u8>) {
        if self.dice.percent(50) {
            self.damage_head(bytes);
        } else {
            self.damage_form(bytes);
        }
    }

    fn judge(&mut self) {
        let table = match self.dice.below(3) {
            0 => self.any_table(),
            _ => self.table.clone(),
        };
        let mut number = self.dice.below(table.numbers());
        let changed = table.changed(number);
        let mut cases = Vec::new();
        for _ in 0..self.dice.pick(&[0, 1, 1, 2, 3, 6]) {
            let length = self.dice.length();
            let inputs = self.dice.bytes(length, table.k);
            let mut outputs = changed.expected(&inputs);
            match self.dice.below(10) {
                0 => outputs = table.expected(&inputs),
                1 => {
                    let step = self.dice.below(length);
                    outputs[step] = self.dice.byte(table.m);
                }
                _ => {}
            }
            cases.push(Case { inputs, outputs });
        }
        if self.dice.percent(10) && !cases.is_empty() {
            let at = self.dice.below(cases.len());
            let mut case = cases[at].clone();
            let step = self.dice.below(case.inputs.len());
            if self.dice.percent(50) {
                case.inputs[step] = table.k as u8;
            } else {
                case.outputs[step] = table.m as u8;
            }
            cases[at] = case;
        }
        let mut record = write_record(&cases);
        let mut file = write_table(&table);
        if self.dice.percent(10) {
            self.damage_record(&mut record);
        }
        if self.dice.percent(12) {
            file = self.damaged_table(&table);
        }
        if self.dice.percent(25) {
            let all = table.numbers();
            let others = [
                all - 1,
                all,
                all + 1,
                8_191,
                8_192,
                65_536 + number,
                0xFFFF_FFFF,
                self.dice.below(all),
            ];
            number = self.dice.pick(&others);
        }
        self.emit(Operation::Judge {
            table: file,
            record,
            number: number as u32,
        });
    }

    // Damage to the memory.

    fn poke(&mut self, at: usize, value: u8) {
        let at = at as u16;
        self.emit(Operation::Poke { at, value });
    }

    fn tally(&mut self, at: usize, value: u16) {
        let at = at as u16;
        self.emit(Operation::Tally { at, value });
    }

    /// Changes one byte of the session somewhere, or two of one cell; answers
    /// what was there.
    fn damage_session(&mut self) -> Vec<(usize, u8)> {
        let end = 3 + 2 * self.table.n * self.table.k;
        let held = self.held();
        let place = if held.is_empty() || self.dice.percent(25) {
            self.dice.pick(&[0, 1, 62, 63])
        } else {
            self.dice.pick(&held)
        };
        let start = FIRST_PLACE + place * PLACE;
        let length = usize::from(self.trial.session[start]).min(STEPS);
        let (n, k, m) = (self.table.n, self.table.k, self.table.m);
        let mut changes = Vec::new();
        match self.dice.below(13) {
            0 => {
                let at = self.dice.below(3);
                let old = self.trial.session[at];
                let values = [0, 1, 16, 17, 255, old.wrapping_add(1), old.wrapping_sub(1)];
                changes.push((at, self.dice.pick(&values)));
            }
            1 | 2 => {
                let at = self.dice.from(3, end - 1);
                let old = self.trial.session[at];
                let low = self.dice.byte(n.min(m));
                let values = [n as u8, m as u8, 255, 254, old.wrapping_add(1), low, low];
                changes.push((at, self.dice.pick(&values)));
            }
            3 => {
                // Another cell, well-formed: only the tallies tell.
                let cell = self.dice.below(n * k);
                let pair = if self.dice.percent(30) {
                    [255, 255]
                } else {
                    [self.dice.byte(n), self.dice.byte(m)]
                };
                changes.push((3 + 2 * cell, pair[0]));
                changes.push((4 + 2 * cell, pair[1]));
            }
            4 if end < FIRST_PLACE => {
                let any = self.dice.from(end, FIRST_PLACE - 1);
                let at = self.dice.pick(&[end, any, FIRST_PLACE - 1]);
                changes.push((at, self.dice.pick(&[1, 255])));
            }
            5 => {
                let old = self.trial.session[start];
                let values = [
                    0,
                    1,
                    63,
                    64,
                    65,
                    255,
                    old.wrapping_add(1),
                    old.wrapping_sub(1),
                ];
                changes.push((start, self.dice.pick(&values)));
            }
            6 if length > 0 => {
                let at = start + 1 + self.dice.below(length);
                let values = [0, k as u8 - 1, k as u8, 255, self.dice.byte(k)];
                changes.push((at, self.dice.pick(&values)));
            }
            7 if length > 0 => {
                let at = start + 1 + STEPS + self.dice.below(length);
                let values = [0, m as u8 - 1, m as u8, 255, self.dice.byte(m)];
                changes.push((at, self.dice.pick(&values)));
            }
            8 if length < STEPS => {
                let any = self.dice.from(length, STEPS - 1);
                let step = self.dice.pick(&[length, any, STEPS - 1]);
                changes.push((start + 1 + step, self.dice.pick(&[1, 255])));
            }
            9 if length < STEPS => {
                let any = self.dice.from(length, STEPS - 1);
                let step = self.dice.pick(&[length, any, STEPS - 1]);
                changes.push((start + 1 + STEPS + step, self.dice.pick(&[1, 255])));
            }
            10 => {
                // In or just after the last place, or in the tail.
                let at = self
                    .dice
                    .pick(&[SESSION - 1, SESSION, SESSION + 1, BYTES - 1]);
                changes.push((at, self.dice.pick(&[0, 1, 255])));
            }
            11 => {
                let at = self.dice.pick(&[BYTES, BYTES + 1, 65_535]);
                changes.push((at, 7));
            }
            _ => {
                let at = self.dice.below(SESSION);
                changes.push((at, self.dice.byte(256)));
            }
        }
        let mut old = Vec::new();
        for (at, value) in changes {
            old.push((at, self.trial.session.get(at).copied().unwrap_or(0)));
            self.poke(at, value);
        }
        old
    }

    /// Changes one tally somewhere; answers what was there.
    fn damage_tally(&mut self) -> (usize, u16) {
        let used = self.table.numbers();
        let held = self.held().len() as u16;
        let (at, value) = match self.dice.below(10) {
            0..=5 => {
                let any = self.dice.below(used);
                let at = self.dice.pick(&[0, used - 1, any, any, any]);
                let old = self.trial.tallies[at];
                let values = [
                    0,
                    held,
                    held,
                    held + 1,
                    old.wrapping_add(1),
                    old.wrapping_sub(1),
                    old ^ 1,
                    65_535,
                ];
                (at, self.dice.pick(&values))
            }
            6 | 7 if used < TALLIES => {
                let any = self.dice.from(used, TALLIES - 1);
                let at = self.dice.pick(&[used, any, TALLIES - 1]);
                (at, self.dice.pick(&[1, held, 65_535]))
            }
            8 => {
                let at = self.dice.pick(&[TALLIES, TALLIES + 1, NUMBERS - 1]);
                (at, self.dice.pick(&[0, 1, 65_535]))
            }
            _ => (self.dice.pick(&[NUMBERS, NUMBERS + 1, 65_535]), 7),
        };
        let old = self.trial.tallies.get(at).copied().unwrap_or(0);
        self.tally(at, value);
        (at, old)
    }

    /// Damages the memory, makes some calls, and mostly mends it.
    fn damage(&mut self) {
        let mut bytes = Vec::new();
        let mut tallies = Vec::new();
        for _ in 0..self.dice.pick(&[1, 1, 1, 2]) {
            if self.dice.percent(60) {
                bytes.extend(self.damage_session());
            } else {
                tallies.push(self.damage_tally());
            }
        }
        self.probe();
        if self.dice.percent(40) {
            self.audit();
        }
        if self.dice.percent(80) {
            for (at, value) in bytes.into_iter().rev() {
                self.poke(at, value);
            }
            for (at, value) in tallies.into_iter().rev() {
                self.tally(at, value);
            }
        }
    }

    /// Makes a tally untrue within the form, then takes cases away.
    fn take_away(&mut self) {
        let Ok(form) = self.trial.form() else { return };
        let held = form.held();
        if held.is_empty() {
            return;
        }
        let place = self.dice.pick(&held);
        let case = form.places[place].clone().expect("a held case");
        // A number that this case misses goes below 0 from 0; one that it
        // doesn't miss stays at the count of the cases held.
        let misses = form.machine.misses(&case);
        let wanted = u16::from(self.dice.percent(50));
        let numbers: Vec<usize> = (0..misses.len())
            .filter(|&number| misses[number] == wanted)
            .collect();
        if numbers.is_empty() {
            return;
        }
        let at = match self.dice.below(4) {
            0 => numbers[0],
            1 => numbers[numbers.len() - 1],
            _ => self.dice.pick(&numbers),
        };
        let old = self.trial.tallies[at];
        let value = if wanted == 1 { 0 } else { held.len() as u16 };
        self.tally(at, value);
        let place = place as u32;
        for _ in 0..self.dice.from(1, 2) {
            if self.dice.percent(50) {
                self.emit(Operation::Withdraw { place });
            } else {
                let case = self.case();
                self.emit(Operation::Amend { place, case });
            }
        }
        if self.dice.percent(50) {
            self.probe();
        }
        if self.dice.percent(30) {
            self.audit();
        }
        if self.dice.percent(75) {
            self.tally(at, old);
        }
    }

    /// A table with every cell alike, and a head whose sizes alone are wrong.
    fn bare(&mut self) {
        let (n, k, m) = (
            self.dice.pick(&[1, 1, 2, 16]),
            self.dice.pick(&[1, 1, 2, 16]),
            self.dice.pick(&[1, 2, 16]),
        );
        let cell = self.dice.pick(&[None, Some(Entry { next: 0, output: 0 })]);
        let table = Machine {
            n,
            k,
            m,
            cells: vec![cell; n * k],
        };
        self.start_with(write_table(&table));
        let at = self.dice.below(3);
        let old = self.trial.session[at];
        self.poke(at, if old == 16 { 17 } else { 0 });
        self.audit();
        self.probe();
        self.poke(at, old);
    }

    /// Lends the memory short or long, makes some calls, and mostly lends it
    /// in full again.
    fn lend(&mut self) {
        let any = self.dice.below(SESSION);
        let lengths = [
            0,
            3,
            515,
            any,
            SESSION - 1,
            SESSION - 1,
            SESSION,
            SESSION + 1,
            BYTES,
        ];
        let session = self.dice.pick(&lengths);
        let any = self.dice.below(TALLIES);
        let used = self.table.numbers();
        let counts = [
            0,
            used,
            any,
            TALLIES - 1,
            TALLIES - 1,
            TALLIES,
            TALLIES + 1,
            NUMBERS,
        ];
        let tallies = self.dice.pick(&counts);
        self.emit(Operation::Lend {
            session: session as u16,
            tallies: tallies as u16,
        });
        self.probe();
        if self.dice.percent(25) {
            let table = self.table.clone();
            self.wild = WILD;
            self.start(&table);
            self.wild = TAME;
        }
        if self.dice.percent(85) {
            self.lend_enough();
        }
    }

    fn lend_enough(&mut self) {
        let longer = self.dice.from(SESSION, BYTES);
        let session = self
            .dice
            .pick(&[SESSION, SESSION, BYTES, BYTES + 1, 65_535, longer]);
        let longer = self.dice.from(TALLIES, NUMBERS);
        let tallies = self
            .dice
            .pick(&[TALLIES, TALLIES, NUMBERS, NUMBERS + 1, 65_535, longer]);
        self.emit(Operation::Lend {
            session: session as u16,
            tallies: tallies as u16,
        });
    }

    // Longer acts.

    /// Fills the session up and tries to go on.
    fn fill_up(&mut self) {
        let Ok(form) = self.trial.form() else { return };
        let free = form.free().len();
        let count = match self.dice.below(4) {
            0 => free + 1,
            1 => free.saturating_sub(1),
            _ => free,
        };
        let mut cases = Vec::new();
        for _ in 0..count.min(PLACES) {
            let length = self.dice.from(1, 3);
            cases.push(self.case_of(length));
        }
        let record = write_record(&cases);
        self.emit(Operation::Load { record });
        for _ in 0..self.dice.from(1, 3) {
            match self.dice.below(4) {
                0 | 1 => self.add(),
                2 => self.load(),
                _ => {
                    self.withdraw();
                    self.add();
                }
            }
        }
        if self.dice.percent(60) {
            self.list();
            self.audit();
        }
        // Make room again, from anywhere.
        for _ in 0..self.dice.from(0, 8) {
            self.withdraw();
        }
    }

    /// Saves, starts anew or not, and loads what was saved.
    fn reload(&mut self) {
        let Ok(form) = self.trial.form() else { return };
        let record = write_record(form.cases());
        self.emit(Operation::Save { room: 9_000 });
        let anew = self.dice.percent(70);
        if anew {
            let (board, walk) = (self.board.clone(), self.walk.clone());
            self.start_with(write_table(&form.machine));
            if (board.n, board.k, board.m) == (self.table.n, self.table.k, self.table.m) {
                (self.board, self.walk) = (board, walk);
            }
        }
        self.emit(Operation::Load { record });
        if anew {
            self.emit(Operation::Save { room: 8_259 });
            self.list();
            self.audit();
        }
        if self.dice.percent(30) {
            self.sum();
        }
    }

    /// Looks at all the session's answers.
    fn look(&mut self) {
        self.list();
        self.candidates();
        for _ in 0..self.dice.from(1, 2) {
            self.symptoms();
            self.conflict();
        }
    }

    /// A withdrawal and an addition at the place that became free.
    fn replace(&mut self) {
        self.withdraw();
        if self.dice.percent(40) {
            self.withdraw();
        }
        self.add();
        self.list();
    }

    /// Starts with a table, after some damaged files of it.
    fn begin(&mut self) {
        if !self.trial.lent_enough() {
            self.lend_enough();
        }
        let table = self.any_table();
        for _ in 0..self.dice.pick(&[0, 0, 0, 1, 2, 3]) {
            let file = self.damaged_table(&table);
            self.start_with(file);
        }
        self.start_with(write_table(&table));
        self.wild = 0;
        for _ in 0..self.dice.from(1, 4) {
            self.add();
        }
        self.wild = TAME;
    }

    fn act(&mut self) {
        let healthy = self.trial.form().is_ok();
        if !healthy && self.dice.percent(40) {
            self.begin();
        }
        match self.dice.below(100) {
            0..=21 => self.add(),
            22..=29 => self.look(),
            30..=34 => self.audit(),
            35..=41 => self.amend(),
            42..=46 => self.replace(),
            47..=49 => self.withdraw(),
            50..=53 => self.load(),
            54 | 55 => {
                let record = self.damaged_record();
                self.emit(Operation::Load { record });
            }
            56..=58 => self.save(),
            59..=62 => self.reload(),
            63..=71 => self.damage(),
            72..=75 => self.take_away(),
            76..=79 => self.lend(),
            80 | 81 => self.product(),
            82..=86 => self.retest(),
            87..=93 => self.judge(),
            94 | 95 => self.fill_up(),
            96 => self.sum(),
            97 => self.probe(),
            98 => self.bare(),
            _ => {
                // A start that is refused leaves the session as it was.
                let table = self.any_table();
                let file = self.damaged_table(&table);
                self.start_with(file);
            }
        }
    }

    /// Ends the script in the middle of an operation or with a code that is
    /// none, and perhaps with more bytes after it.
    fn stop(&mut self) {
        let bytes = if self.dice.percent(50) {
            let operation = match self.dice.below(4) {
                0 => Operation::Add {
                    case: self.good_case(),
                },
                1 => Operation::Load {
                    record: self.record(),
                },
                2 => Operation::Lend {
                    session: 9_000,
                    tallies: 8_400,
                },
                _ => Operation::Withdraw { place: 0 },
            };
            let mut bytes = operation.bytes();
            bytes.truncate(self.dice.from(1, bytes.len() - 1));
            bytes
        } else {
            let more = self.dice.below(10);
            let mut bytes = vec![self.dice.from(18, 255) as u8];
            bytes.extend(self.dice.bytes(more, 18));
            bytes
        };
        if self.script.len() + bytes.len() <= SCRIPT {
            self.script.extend(bytes);
        }
    }

    /// Brings the script to its full length with one long file.
    fn fill_script(&mut self) {
        let room = SCRIPT - self.script.len();
        if room < 10 {
            return;
        }
        let length = room - 3;
        let mut rest = Vec::new();
        while rest.len() < length - 3 {
            let case = self.case_of(STEPS);
            rest.extend(write_record([&case]).split_off(3));
        }
        rest.truncate(length - 3);
        let bytes = file(&rest);
        let operation = if self.dice.percent(50) {
            Operation::Load { record: bytes }
        } else {
            Operation::Start { table: bytes }
        };
        self.emit(operation);
    }

    /// A small script.
    fn small(&mut self) {
        if self.dice.percent(15) {
            self.probe();
        }
        for _ in 0..self.dice.pick(&[1, 1, 2, 2, 3]) {
            self.begin();
            for _ in 0..self.dice.from(8, 30) {
                self.act();
            }
        }
        self.wild = 0;
        self.list();
        self.audit();
        self.save();
        self.sum();
        if self.dice.percent(3) {
            self.fill_script();
        } else if self.dice.percent(15) {
            self.stop();
        }
    }

    /// A large script.
    fn large(&mut self) {
        let holes = self.dice.pick(&[5, 10, 20, 40]);
        let table = self.table_of(MOST, MOST, MOST, holes);
        self.start_with(write_table(&table));
        self.wild = 0;

        // Full by adds and loads of cases of 64 steps.
        while self.trial.form().is_ok_and(|form| !form.free().is_empty()) {
            let free = self.trial.form().map_or(0, |form| form.free().len());
            if self.dice.percent(85) {
                let case = self.long_case();
                self.emit(Operation::Add { case });
            } else {
                let count = self.dice.from(1, 8).min(free);
                let cases: Vec<Case> = (0..count).map(|_| self.long_case()).collect();
                let record = write_record(&cases);
                self.emit(Operation::Load { record });
            }
        }
        let case = self.long_case();
        self.emit(Operation::Add { case });
        self.look();
        self.audit();
        self.emit(Operation::Save { room: 8_258 });
        self.emit(Operation::Save { room: 8_259 });

        // Edited case by case.
        for _ in 0..self.dice.from(15, 30) {
            match self.dice.below(8) {
                0..=2 => {
                    let place = self.place();
                    let case = self.long_case();
                    self.emit(Operation::Amend { place, case });
                }
                3 | 4 => self.withdraw(),
                5 | 6 => {
                    let case = self.long_case();
                    self.emit(Operation::Add { case });
                }
                _ => self.look(),
            }
        }
        self.audit();
        self.list();

        // Damaged and mended, saved and loaded again.
        self.wild = TAME;
        self.take_away();
        let (at, old) = self.damage_tally();
        self.audit();
        self.tally(at, old);
        self.wild = 0;
        self.reload();
        while self.trial.form().is_ok_and(|form| !form.free().is_empty()) {
            let case = self.long_case();
            self.emit(Operation::Add { case });
        }
        self.look();
        self.audit();
        self.save();
        self.sum();
    }

    /// A case of 64 steps.
    fn long_case(&mut self) -> Case {
        let mut inputs = self.dice.bytes(STEPS, self.table.k);
        if self.dice.percent(30) {
            inputs[..self.walk.len()].copy_from_slice(&self.walk);
        }
        let outputs = self.outputs(&inputs);
        Case { inputs, outputs }
    }
}

#[cfg(test)]
mod tests {
    use super::*;
    use crate::files::read_record;
    use crate::session::{self, Form};

    #[test]
    fn a_seed_decides_its_script() {
        for seed in 0..5 {
            assert_eq!(script(seed, Size::Small), script(seed, Size::Small));
            assert_ne!(script(seed, Size::Small), script(seed + 1, Size::Small));
        }
    }

    #[test]
    fn scripts_keep_to_their_length() {
        for seed in 0..60 {
            assert!(script(seed, Size::Small).len() <= SCRIPT);
        }
        assert!(script(1, Size::Large).len() <= SCRIPT);
    }

    #[test]
    fn large_scripts_fill_the_session() {
        let mut trial = Trial::new();
        let printed = trial.run(&script(3, Size::Large));
        let form: Form = trial.form().expect("a well-formed session");
        assert_eq!(
            (form.machine.n, form.machine.k, form.machine.m),
            (16, 16, 16)
        );
        assert!(form.machine.cells.contains(&None));
        assert_eq!(form.held().len(), 64);
        assert!(form.cases().all(|case| case.inputs.len() == 64));
        assert!(printed.contains("ADD NO 7 0"));
    }

    #[test]
    fn undamaged_sessions_have_true_tallies() {
        for seed in 0..80 {
            let mut maker = Maker::new(seed);
            maker.begin();
            for _ in 0..12 {
                match maker.dice.below(6) {
                    0 | 1 => maker.add(),
                    2 => maker.load(),
                    3 => maker.amend(),
                    4 => maker.withdraw(),
                    _ => maker.reload(),
                }
            }
            let (session, tallies) = (&maker.trial.session, &maker.trial.tallies);
            assert_eq!(session::audit(session, tallies), Ok(None));

            // The law: the cell of every listed fault is a candidate.
            let form = maker.trial.form().expect("a well-formed session");
            if form.cases().all(|case| form.machine.reproduces(case)) {
                continue;
            }
            let mut set = [0; 256];
            session::candidates(session, tallies, &mut set).expect("the candidates");
            for number in form.listed(tallies) {
                let cell = usize::from(number) / (form.machine.n + form.machine.m);
                assert_eq!(set[cell], 1);
            }
        }
    }

    #[test]
    fn a_saved_record_is_one() {
        let mut maker = Maker::new(9);
        maker.begin();
        let form = maker.trial.form().expect("a well-formed session");
        let record = write_record(form.cases());
        let cases: Vec<Case> = form.cases().cloned().collect();
        assert_eq!(read_record(&record), Ok(cases));
    }
}
