//! Random KISS2 calls: texts written from random tables and damaged in every
//! way, table files whole and damaged, and rooms around what is needed.
//!
//! A text is damaged line by line first, then byte by byte.

use super::{Maker, TAME, WILD};
use crate::files::{read_table, write_table};
use crate::kiss2::{read_text, write_text, FIRST_CELL_LINE, LARGEST_FILE, MOST_BYTES};
use crate::machine::{Entry, Machine, MOST};
use crate::script::{Operation, BYTES};

/// The lines of a text, without their line feeds.
type Lines = Vec<String>;

/// The directives before the cells.
const DIRECTIVES: [&str; FIRST_CELL_LINE - 1] = [".i", ".o", ".p", ".s", ".r"];

/// The lowest state whose word has two digits.
const FIRST_OF_TWO_DIGITS: usize = 10;

/// What one byte holds, so that a number above may be taken for one below.
const BYTE: usize = 256;

/// Values for a directive, of the form and not.
const VALUES: [&str; 32] = [
    "",
    "0",
    "00",
    "1",
    "01",
    "001",
    "2",
    "02",
    "3",
    "4",
    "5",
    "6",
    "15",
    "16",
    "016",
    "17",
    "255",
    "256",
    "257",
    "258",
    "260",
    "999",
    "0999",
    "1000",
    "65537",
    "4294967297",
    "18446744073709551617",
    "-1",
    "+1",
    "1.0",
    "x",
    "1 1",
];

/// States for `.r` that are not its s0.
const RESETS: [&str; 9] = ["s1", "s15", "s16", "s00", "S0", "0", "s", "s0 s0", "s0s"];

/// Words that are no state.
const NO_STATES: [&str; 14] = [
    "s16", "s16", "s17", "s07", "s07", "s00", "S1", "S1", "s", "1", "s256", "s-1", "s1x", "*",
];

/// Lines that are none.
const NO_LINES: [&str; 9] = [
    "",
    "",
    " ",
    "# a comment",
    ".type fr",
    ".f",
    ".end",
    ".x 1",
    "0",
];

/// The bytes that texts are made of, and some that they are not.
const BYTES_OF_TEXTS: &[u8] = b"\n\n\n   ..00112345679ssS-#\t\riopre\0\x7F\xFF";

/// The places of the lines for cells.
fn cell_places(lines: &Lines) -> Vec<usize> {
    let is_cell = |line: &String| line.starts_with(['0', '1']);
    (0..lines.len()).filter(|&at| is_cell(&lines[at])).collect()
}

/// Sets the value of a directive where it stands.
fn set_directive(lines: &mut Lines, name: &str, value: &str) {
    if let Some(line) = lines.iter_mut().find(|line| line.starts_with(name)) {
        *line = format!("{name} {value}");
    }
}

/// Sets `.p` to the count of lines for cells.
fn mend_count(lines: &mut Lines) {
    let count = cell_places(lines).len();
    set_directive(lines, ".p", &count.to_string());
}

/// The lines as one text.
fn joined(lines: &Lines) -> Vec<u8> {
    lines
        .iter()
        .flat_map(|line| format!("{line}\n").into_bytes())
        .collect()
}

impl Maker {
    /// A few calls, with room mostly enough or often too little.
    pub(super) fn kiss2(&mut self) {
        self.wild = self.dice.pick(&[TAME, TAME, WILD]);
        for _ in 0..self.dice.from(1, 3) {
            self.kiss2_call();
        }
        self.wild = TAME;
    }

    /// Reads a text, writes one, or both in turn.
    fn kiss2_call(&mut self) {
        let table = self.table_for_text();
        match self.dice.below(40) {
            0..=6 => {
                let lines = self.good_lines(&table);
                self.kiss_read(joined(&lines));
            }
            7..=28 => {
                let text = self.damaged_text(&table);
                self.kiss_read(text);
            }
            29..=32 => self.kiss_write(write_table(&table)),
            33..=36 => {
                let file = self.damaged_table(&table);
                self.kiss_write(file);
            }
            37 | 38 => self.there_and_back(&table),
            _ => {
                let text = self.long_text(&table);
                self.kiss_read(text);
            }
        }
    }

    /// Writes a table's text, reads it, and writes what was read.
    pub(super) fn there_and_back(&mut self, table: &Machine) {
        self.kiss_write(write_table(table));
        let text = write_text(table);
        let read = read_text(&text).expect("a written text is read");
        self.kiss_read(text);
        self.kiss_write(write_table(&read));
    }

    fn kiss_read(&mut self, text: Vec<u8>) {
        let needed = read_text(&text).map_or(LARGEST_FILE, |table| write_table(&table).len());
        let room = if self.bad() {
            self.dice
                .pick(&[0, 1, LARGEST_FILE - 1, LARGEST_FILE - 1, needed - 1, needed])
        } else {
            self.dice
                .pick(&[LARGEST_FILE, LARGEST_FILE, LARGEST_FILE + 1, BYTES, 65_535])
        };
        let room = room as u16;
        self.emit(Operation::KissRead { text, room });
    }

    fn kiss_write(&mut self, table: Vec<u8>) {
        let room = match read_table(&table) {
            Ok(table) => self.room(write_text(&table).len()),
            Err(_) => self.dice.pick(&[0, 0, 29, BYTES as u16]),
        };
        self.emit(Operation::KissWrite { table, room });
    }

    // Tables and texts of the form.

    /// A table for a text: any, or one at an edge of what texts can say.
    fn table_for_text(&mut self) -> Machine {
        let dice = &mut self.dice;
        match dice.below(20) {
            0 => self.longest_table(),
            1 => {
                let powers = [2, 4, 8, MOST];
                let (n, k, m) = (dice.from(1, 4), dice.pick(&powers), dice.pick(&powers));
                self.table_of(n, k, m, 20)
            }
            2 => {
                let (n, k, m) = (dice.from(1, 3), dice.from(1, MOST), dice.from(1, MOST));
                self.table_of(n, k, m, 30)
            }
            3 => {
                let (n, k) = (dice.from(1, MOST), dice.from(1, 3));
                self.table_of(n, k, 2, 100)
            }
            _ => self.any_table(),
        }
    }

    /// A table whose text is as long as one can be.
    fn longest_table(&mut self) -> Machine {
        let mut table = self.table_of(MOST, MOST, MOST, 0);
        for cell in &mut table.cells {
            let next = self.dice.from(FIRST_OF_TWO_DIGITS, MOST - 1) as u8;
            let output = self.dice.byte(MOST);
            *cell = Some(Entry { next, output });
        }
        table
    }

    /// The lines of a table's text, those for cells often in another order.
    fn good_lines(&mut self, table: &Machine) -> Lines {
        let text = String::from_utf8(write_text(table)).expect("a text of characters");
        let mut lines: Lines = text.lines().map(str::to_string).collect();
        if self.dice.percent(40) {
            let places = cell_places(&lines);
            for (done, &at) in places.iter().enumerate() {
                lines.swap(at, places[self.dice.below(done + 1)]);
            }
        }
        lines
    }

    // Damaged texts.

    /// A damaged text; several damages may meet.
    fn damaged_text(&mut self, table: &Machine) -> Vec<u8> {
        let mut lines = self.good_lines(table);
        let in_lines = self.dice.pick(&[0, 1, 1, 1, 1, 2, 2, 3]);
        for _ in 0..in_lines {
            self.damage_lines(&mut lines, table);
        }
        if self.dice.percent(40) {
            mend_count(&mut lines);
        }
        let mut text = joined(&lines);
        if in_lines == 0 || self.dice.percent(10) {
            self.damage_bytes(&mut text);
        }
        text
    }

    fn damage_lines(&mut self, lines: &mut Lines, table: &Machine) {
        match self.dice.below(20) {
            0 | 1 => self.damage_order(lines),
            2..=4 => self.damage_directive(lines),
            5..=8 => self.damage_counts(lines, table),
            9 => self.damage_width(lines, table),
            10..=12 => self.damage_cell_line(lines),
            13 => self.raise_state(lines, table),
            14 | 15 => self.second_line(lines),
            16 | 17 => self.damage_blanks(lines),
            18 => self.damage_end(lines),
            _ => {
                let at = self.dice.below(lines.len() + 1);
                lines.insert(at, self.dice.pick(&NO_LINES).to_string());
            }
        }
    }

    /// Drops, doubles, swaps or moves a line.
    fn damage_order(&mut self, lines: &mut Lines) {
        let (one, other) = (self.dice.below(lines.len()), self.dice.below(lines.len()));
        match self.dice.below(4) {
            0 if lines.len() > 1 => {
                lines.remove(one);
            }
            1 => lines.insert(other, lines[one].clone()),
            2 => lines.swap(one, other),
            _ => {
                let line = lines.remove(one);
                lines.insert(other, line);
            }
        }
    }

    /// Changes a directive's value or its name.
    fn damage_directive(&mut self, lines: &mut Lines) {
        let name = self.dice.pick(&DIRECTIVES);
        let value = match (name, self.dice.below(4)) {
            (".r", _) => self.dice.pick(&RESETS),
            (".i" | ".o", 0) => self.dice.pick(&["0", "5"]),
            (".p", 0) => "1000",
            _ => self.dice.pick(&VALUES),
        };
        set_directive(lines, name, value);
        if self.dice.percent(15) {
            let other = self.dice.pick(&[".I", "i", "..i", ".", ".x", ".e", ".ii"]);
            if let Some(line) = lines.iter_mut().find(|line| line.starts_with(name)) {
                *line = line.replacen(name, other, 1);
            }
        }
    }

    /// Names another count of lines or of states; some are near the true one.
    fn damage_counts(&mut self, lines: &mut Lines, table: &Machine) {
        if self.dice.percent(40) {
            let count = cell_places(lines).len();
            let less = count.saturating_sub(1);
            let counts = [less, less, count + 1, count + 1, count + BYTE, 0, 256, 999];
            let count = self.dice.pick(&counts);
            set_directive(lines, ".p", &count.to_string());
        } else {
            let n = table.n;
            let states = [0, 0, 17, 17, n - 1, n - 1, 1, n + 1, n + BYTE, 999];
            let states = self.dice.pick(&states);
            set_directive(lines, ".s", &states.to_string());
        }
    }

    /// Names a width that is one off.
    fn damage_width(&mut self, lines: &mut Lines, table: &Machine) {
        let (name, size) = self.dice.pick(&[(".i", table.k), (".o", table.m)]);
        let width = size.next_power_of_two().ilog2().max(1);
        let width = if self.dice.percent(50) {
            width + 1
        } else {
            width - 1
        };
        set_directive(lines, name, &width.to_string());
    }

    /// Damages a word of a line for a cell, or the count of its words.
    fn damage_cell_line(&mut self, lines: &mut Lines) {
        let places = cell_places(lines);
        if places.is_empty() {
            return;
        }
        let at = self.dice.pick(&places);
        let mut words: Vec<String> = lines[at].split(' ').map(str::to_string).collect();
        let word = self.dice.below(words.len());
        match self.dice.below(6) {
            0 => {
                words.remove(word);
            }
            1 => words.insert(word, words[word].clone()),
            2 => {
                let other = self.dice.below(words.len());
                words.swap(word, other);
            }
            _ if words[word].starts_with('s') => {
                words[word] = self.dice.pick(&NO_STATES).to_string();
            }
            _ => self.damage_bits(&mut words[word]),
        }
        lines[at] = words.join(" ");
    }

    /// Damages a word of bits: one more, one less, or one that is none.
    fn damage_bits(&mut self, word: &mut String) {
        let bit = word.pop();
        match self.dice.below(5) {
            0 => {}
            1 => word.extend(bit.into_iter().chain(['0'])),
            2 => word.push('2'),
            _ => word.push('-'),
        }
    }

    /// Puts a state that is not below the count of states into a line.
    fn raise_state(&mut self, lines: &mut Lines, table: &Machine) {
        let places = cell_places(lines);
        if places.is_empty() || table.n == MOST {
            return;
        }
        let any = self.dice.from(table.n, MOST - 1);
        let state = format!("s{}", self.dice.pick(&[table.n, table.n, any, MOST - 1]));
        let at = self.dice.pick(&places);
        let mut words: Vec<&str> = lines[at].split(' ').collect();
        let (from, next) = (1, 2);
        let word = self.dice.pick(&[from, next, next]);
        if word < words.len() {
            words[word] = &state;
        }
        lines[at] = words.join(" ");
    }

    /// Adds a second line for a cell: the same, one with other values, or one
    /// that is not of the form.
    fn second_line(&mut self, lines: &mut Lines) {
        let places = cell_places(lines);
        if places.is_empty() {
            return;
        }
        let (one, other) = (self.dice.pick(&places), self.dice.pick(&places));
        let mut second = lines[one].clone();
        match self.dice.below(5) {
            0 => {}
            1 => second.push('0'),
            2 => second.push(' '),
            _ => {
                let state = self.dice.below(MOST);
                let mut words: Vec<&str> = second.split(' ').collect();
                let state = format!("s{state}");
                if let [_, _, next, output] = &mut words[..] {
                    *next = &state;
                    *output = lines[other].split(' ').next_back().unwrap_or(output);
                }
                second = words.join(" ");
            }
        }
        let first = places[0];
        let last = places[places.len() - 1] + 1;
        let at = self.dice.from(first, last);
        let at = self.dice.pick(&[at, one, one + 1, last]);
        lines.insert(at, second);
        if self.dice.percent(60) {
            mend_count(lines);
        }
        if self.dice.percent(15) {
            set_directive(lines, ".s", self.dice.pick(&["0", "1", "17"]));
        }
    }

    /// Damages what parts the words or ends a line.
    fn damage_blanks(&mut self, lines: &mut Lines) {
        let at = self.dice.below(lines.len());
        let line = &mut lines[at];
        match self.dice.below(8) {
            0 => line.push('\r'),
            1 => line.push(' '),
            2 => line.insert(0, ' '),
            3 => *line = line.replacen(' ', "  ", 1),
            4 => *line = line.replacen(' ', "\t", 1),
            5 => line.push_str(" # a comment"),
            6 => *line = line.replacen(' ', "", 1),
            _ => {
                for line in lines {
                    line.push('\r');
                }
            }
        }
    }

    /// Damages the end: none, a longer one, one too early, or lines after it.
    fn damage_end(&mut self, lines: &mut Lines) {
        match self.dice.below(5) {
            0 => {
                lines.pop();
            }
            1 => {
                let more = self.dice.pick(&[" ", "\r", "e", " 1", "."]);
                if let Some(end) = lines.last_mut() {
                    end.push_str(more);
                }
            }
            2 => {
                let at = self.dice.below(lines.len());
                lines.insert(at, ".e".to_string());
            }
            _ => {
                let again = lines[self.dice.below(lines.len())].clone();
                let more = [&again, "", "", ".e", " "];
                lines.push(self.dice.pick(&more).to_string());
            }
        }
    }

    /// Changes, inserts or drops bytes anywhere.
    fn damage_bytes(&mut self, text: &mut Vec<u8>) {
        let any = self.dice.byte(BYTE);
        let common = self.dice.pick(BYTES_OF_TEXTS);
        let byte = self.dice.pick(&[any, common, common]);
        let at = self.dice.below(text.len());
        match self.dice.below(16) {
            0..=3 => text[at] = byte,
            4..=6 => text.insert(at, byte),
            7..=9 => {
                text.remove(at);
            }
            10 | 11 => text.truncate(at),
            12 => {
                text.pop();
            }
            13 | 14 => text.push(byte),
            _ => text.clear(),
        }
    }

    /// A text at the most bytes, or one over: a text and then the lines after
    /// its directives again and again, or those alone.
    fn long_text(&mut self, table: &Machine) -> Vec<u8> {
        let mut lines = self.good_lines(table);
        if self.dice.percent(40) {
            lines.pop();
        }
        let mut text = if self.dice.percent(80) {
            joined(&lines)
        } else {
            Vec::new()
        };
        let mut again = joined(&lines.split_off(DIRECTIVES.len()));
        if again.is_empty() {
            again.push(b'0');
        }
        let length = self.dice.pick(&[MOST_BYTES, MOST_BYTES + 1]);
        text.extend(again.iter().cycle().take(length - text.len()));
        text
    }
}

#[cfg(test)]
mod tests {
    use super::*;
    use crate::boundaries::LONGEST_TEXT;

    const SEEDS: u64 = 300;

    #[test]
    fn texts_in_any_order_are_read_as_the_written_one() {
        for seed in 0..SEEDS {
            let mut maker = Maker::new(seed);
            let table = maker.table_for_text();
            let lines = maker.good_lines(&table);
            let read = read_text(&joined(&lines));
            assert!(read.is_ok());
            assert_eq!(read, read_text(&write_text(&table)));
        }
    }

    #[test]
    fn the_longest_tables_have_the_longest_texts() {
        for seed in 0..SEEDS {
            let mut maker = Maker::new(seed);
            assert_eq!(write_text(&maker.longest_table()).len(), LONGEST_TEXT);
            let table = maker.table_for_text();
            assert!(write_text(&table).len() <= LONGEST_TEXT);
        }
    }

    #[test]
    fn long_texts_are_at_the_most_bytes_or_one_over() {
        for seed in 0..SEEDS {
            let mut maker = Maker::new(seed);
            let table = maker.table_for_text();
            let text = maker.long_text(&table);
            assert!((MOST_BYTES..=MOST_BYTES + 1).contains(&text.len()));
            assert!(read_text(&text).is_err());
        }
    }

    #[test]
    fn damaged_texts_are_mostly_refused_and_sometimes_taken() {
        let mut taken = 0;
        for seed in 0..SEEDS {
            let mut maker = Maker::new(seed);
            let table = maker.table_for_text();
            let text = maker.damaged_text(&table);
            taken += u64::from(read_text(&text).is_ok());
        }
        assert!(0 < taken && taken < SEEDS / 2);
    }
}
