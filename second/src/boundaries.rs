//! The boundaries that the KISS2 calls of random scripts have to meet beside
//! every refusal. Each has a name and a condition on the call and its answer.

use crate::files::{read_table, write_table, Kind, Refusal};
use crate::kiss2::{self, CellLine, Listing, END, FIRST_CELL_LINE, LARGEST_FILE, P_LINE, S_LINE};
use crate::machine::{Machine, MOST};

/// A call that read a text, and its answer.
pub struct Reading<'a> {
    pub text: &'a [u8],
    pub room: usize,
    pub answer: Result<usize, Refusal>,
}

/// A call that wrote a text, and its answer.
pub struct Writing<'a> {
    pub file: &'a [u8],
    pub room: usize,
    pub answer: Result<usize, Refusal>,
}

/// The bytes of the longest text: four bits each way, all 256 cells, every
/// next state of two digits.
pub const LONGEST_TEXT: usize = 4_480;

/// The sizes on either side of a step in their widths.
const SIZES_AT_A_STEP: [usize; 8] = [1, 2, 3, 4, 5, 8, 9, 16];

/// The most cells of a table.
const CELLS: usize = MOST * MOST;

impl Reading<'_> {
    /// Whether the call was refused so.
    fn refused(&self, kind: Kind) -> bool {
        self.answer.is_err_and(|refusal| refusal.kind == kind)
    }

    /// Whether the call was refused so, with the line.
    fn refused_at(&self, kind: Kind, line: usize) -> bool {
        self.refused(kind) && self.carried() == line
    }

    /// What the refusal carries; 0 if there is none.
    fn carried(&self) -> usize {
        self.answer.err().map_or(0, |refusal| refusal.carried)
    }

    /// Whether the call was accepted, and its text says this.
    fn taken(&self, says: impl Fn(&Listing) -> bool) -> bool {
        self.answer.is_ok() && self.listing_is(says)
    }

    /// Whether the call was refused for a count at the directive's line, and
    /// its text says this.
    fn miscounted(&self, line: usize, says: impl Fn(&Listing) -> bool) -> bool {
        self.refused_at(Kind::Count, line) && self.listing_is(says)
    }

    /// Whether the text is of the form and says this.
    fn listing_is(&self, says: impl Fn(&Listing) -> bool) -> bool {
        kiss2::listing(self.text).is_ok_and(|listing| says(&listing))
    }

    /// The line at a number with its line feed as far as it has one; empty
    /// where the text has no such line.
    fn line(&self, number: usize) -> &[u8] {
        let lines = kiss2::lines(self.text);
        let at = number.checked_sub(1);
        at.and_then(|at| lines.get(at).copied()).unwrap_or_default()
    }

    /// The line that TEXT is about, without its line feed.
    fn at_fault(&self) -> &[u8] {
        let line = self.line(self.carried());
        line.strip_suffix(b"\n").unwrap_or(line)
    }

    /// Whether TEXT is about a line that is there, and the line is so.
    fn text_where(&self, so: impl Fn(&[u8]) -> bool) -> bool {
        self.refused(Kind::Text) && !self.line(self.carried()).is_empty() && so(self.at_fault())
    }

    /// Whether TEXT is about a line that stands where cells' lines do, and
    /// the line is so.
    fn text_among_cells(&self, so: impl Fn(&[u8]) -> bool) -> bool {
        self.carried() >= FIRST_CELL_LINE && !self.after_end() && self.text_where(so)
    }

    /// Whether the line before the one at fault is the end.
    fn after_end(&self) -> bool {
        self.carried() > FIRST_CELL_LINE
            && self.line(self.carried() - 1).strip_suffix(b"\n") == Some(END)
    }

    /// The lines for cells before the line at fault, which stands after the
    /// directives.
    fn cell_lines_before(&self) -> Vec<&[u8]> {
        let lines = kiss2::lines(self.text);
        lines[FIRST_CELL_LINE - 1..self.carried() - 1].to_vec()
    }

    /// Whether the line at fault names a state and input that an earlier
    /// line for a cell names.
    fn names_a_taken_cell(&self) -> bool {
        let named = |line: &[u8]| -> Vec<Vec<u8>> {
            line.split(|&byte| byte == b' ')
                .take(2)
                .map(<[u8]>::to_vec)
                .collect()
        };
        let at_fault = named(self.at_fault());
        self.cell_lines_before()
            .iter()
            .any(|line| named(line) == at_fault)
    }

    /// Whether the line at fault stood before, the very same.
    fn stood_before(&self) -> bool {
        let line = self.line(self.carried());
        self.cell_lines_before().contains(&line)
    }
}

/// Whether a line has this in it.
fn has(line: &[u8], part: &str) -> bool {
    line.windows(part.len())
        .any(|window| window == part.as_bytes())
}

/// Whether the lines for cells stand by rising cell.
fn in_order(listing: &Listing) -> bool {
    let cell = |line: &CellLine| (line.state, line.input);
    listing
        .cells
        .windows(2)
        .all(|pair| cell(&pair[0]) < cell(&pair[1]))
}

/// Whether the count of states is outside its range.
fn states_out_of_range(listing: &Listing) -> bool {
    !(1..=MOST).contains(&listing.states)
}

/// Whether some line names such a number that is not below the states, which
/// are in range.
fn not_below(listing: &Listing, number: impl Fn(&CellLine) -> u8) -> bool {
    !states_out_of_range(listing)
        && listing
            .cells
            .iter()
            .any(|line| usize::from(number(line)) >= listing.states)
}

/// A boundary of readings: its name and its condition.
type OfReadings = (&'static str, fn(&Reading) -> bool);

/// A boundary of writings: its name and its condition.
type OfWritings = (&'static str, fn(&Writing) -> bool);

const READINGS: [OfReadings; 66] = [
    ("SHORT at 0", |r| r.refused(Kind::Short) && r.room == 0),
    ("SHORT at 517", |r| {
        r.refused(Kind::Short) && r.room == LARGEST_FILE - 1
    }),
    ("SHORT with room for the file", |r| {
        r.refused(Kind::Short)
            && kiss2::read_text(r.text).is_ok_and(|table| r.room >= write_table(&table).len())
    }),
    ("SHORT of a text at fault", |r| {
        r.refused(Kind::Short) && kiss2::listing(r.text).is_err()
    }),
    ("OK at 518", |r| r.answer.is_ok() && r.room == LARGEST_FILE),
    ("OK over 518", |r| r.answer.is_ok() && r.room > LARGEST_FILE),
    ("OK lines in order", |r| {
        r.taken(|l| l.cells.len() > 1 && in_order(l))
    }),
    ("OK lines out of order", |r| r.taken(|l| !in_order(l))),
    ("OK no line", |r| r.taken(|l| l.cells.is_empty())),
    ("OK 256 lines", |r| r.taken(|l| l.cells.len() == CELLS)),
    ("OK 1 state", |r| r.taken(|l| l.states == 1)),
    ("OK 16 states", |r| r.taken(|l| l.states == MOST)),
    ("OK s15 and next s15", |r| {
        let last = MOST as u8 - 1;
        r.taken(|l| {
            l.cells
                .iter()
                .any(|c| c.state == last && c.entry.next == last)
        })
    }),
    ("OK .i 1", |r| r.taken(|l| l.input_bits == 1)),
    ("OK .i 2", |r| r.taken(|l| l.input_bits == 2)),
    ("OK .i 3", |r| r.taken(|l| l.input_bits == 3)),
    ("OK .i 4", |r| r.taken(|l| l.input_bits == 4)),
    ("OK .o 1", |r| r.taken(|l| l.output_bits == 1)),
    ("OK .o 2", |r| r.taken(|l| l.output_bits == 2)),
    ("OK .o 3", |r| r.taken(|l| l.output_bits == 3)),
    ("OK .o 4", |r| r.taken(|l| l.output_bits == 4)),
    ("OK the longest text", |r| {
        r.answer.is_ok() && r.text.len() == LONGEST_TEXT
    }),
    ("TEXT at line 0 of 16,385 bytes", |r| {
        r.refused_at(Kind::Text, 0) && r.text.len() == kiss2::MOST_BYTES + 1
    }),
    ("TEXT at a line of 16,384 bytes", |r| {
        r.refused(Kind::Text) && r.carried() > 0 && r.text.len() == kiss2::MOST_BYTES
    }),
    ("TEXT at line 1", |r| r.refused_at(Kind::Text, 1)),
    ("TEXT at line 2", |r| r.refused_at(Kind::Text, 2)),
    ("TEXT at line 3", |r| r.refused_at(Kind::Text, 3)),
    ("TEXT at line 4", |r| r.refused_at(Kind::Text, 4)),
    ("TEXT at line 5", |r| r.refused_at(Kind::Text, 5)),
    ("TEXT at a cell's line", |r| {
        r.text_among_cells(|line| line.starts_with(b"0") || line.starts_with(b"1"))
    }),
    ("TEXT at .e", |r| {
        r.text_among_cells(|line| line.starts_with(END))
    }),
    ("TEXT at .e without its line feed", |r| {
        r.text_among_cells(|line| line == END)
    }),
    ("TEXT for want of .e", |r| {
        r.refused(Kind::Text)
            && r.carried() >= FIRST_CELL_LINE
            && r.line(r.carried()).is_empty()
            && !r.after_end()
    }),
    ("TEXT after .e", |r| r.refused(Kind::Text) && r.after_end()),
    ("TEXT of no byte", |r| {
        r.refused_at(Kind::Text, 1) && r.text.is_empty()
    }),
    ("TEXT at an empty line", |r| r.text_where(<[u8]>::is_empty)),
    ("TEXT at a carriage return", |r| {
        r.text_where(|line| line.ends_with(b"\r"))
    }),
    ("TEXT at a tab", |r| r.text_where(|line| has(line, "\t"))),
    ("TEXT at a doubled blank", |r| {
        r.text_where(|line| has(line, "  "))
    }),
    ("TEXT at a trailing blank", |r| {
        r.text_where(|line| line.ends_with(b" "))
    }),
    ("TEXT at a leading blank", |r| {
        r.text_where(|line| line.starts_with(b" "))
    }),
    ("TEXT at a comment", |r| r.text_where(|line| has(line, "#"))),
    ("TEXT at a dash", |r| {
        r.text_among_cells(|line| has(line, "-"))
    }),
    ("TEXT at .i 0", |r| r.text_where(|line| line == b".i 0")),
    ("TEXT at .i 5", |r| r.text_where(|line| line == b".i 5")),
    ("TEXT at .o 0", |r| r.text_where(|line| line == b".o 0")),
    ("TEXT at .o 5", |r| r.text_where(|line| line == b".o 5")),
    ("TEXT at .p 1000", |r| {
        r.text_where(|line| line == b".p 1000")
    }),
    ("TEXT at a leading zero of .p", |r| {
        r.refused_at(Kind::Text, P_LINE) && r.text_where(|line| line.starts_with(b".p 0"))
    }),
    ("TEXT at a leading zero of .s", |r| {
        r.refused_at(Kind::Text, S_LINE) && r.text_where(|line| line.starts_with(b".s 0"))
    }),
    ("TEXT at .r s1", |r| r.text_where(|line| line == b".r s1")),
    ("TEXT at s16", |r| {
        r.text_among_cells(|line| has(line, " s16 "))
    }),
    ("TEXT at s07", |r| {
        r.text_among_cells(|line| has(line, " s07 "))
    }),
    ("TEXT at S1", |r| {
        r.text_among_cells(|line| has(line, " S1 "))
    }),
    ("TEXT for a cell that has a line", |r| {
        r.text_among_cells(|_| r.names_a_taken_cell())
    }),
    ("TEXT after .s 17", |r| {
        r.refused(Kind::Text) && r.carried() > S_LINE && r.line(S_LINE) == b".s 17\n"
    }),
    ("TWICE the same line", |r| {
        r.refused(Kind::Twice) && r.stood_before()
    }),
    ("TWICE with other values", |r| {
        r.refused(Kind::Twice) && !r.stood_before()
    }),
    ("TWICE after .s 0", |r| {
        r.refused(Kind::Twice) && r.line(S_LINE) == b".s 0\n"
    }),
    ("COUNT .p one too small", |r| {
        r.miscounted(P_LINE, |l| l.lines + 1 == l.cells.len())
    }),
    ("COUNT .p one too large", |r| {
        r.miscounted(P_LINE, |l| l.lines == l.cells.len() + 1)
    }),
    ("COUNT .p, and .s as well", |r| {
        r.miscounted(P_LINE, states_out_of_range)
    }),
    ("COUNT .s 0", |r| r.miscounted(S_LINE, |l| l.states == 0)),
    ("COUNT .s 17", |r| {
        r.miscounted(S_LINE, |l| l.states == MOST + 1)
    }),
    ("COUNT a state", |r| {
        r.miscounted(S_LINE, |l| not_below(l, |line| line.state))
    }),
    ("COUNT a next state alone", |r| {
        r.miscounted(S_LINE, |l| {
            not_below(l, |line| line.entry.next) && !not_below(l, |line| line.state)
        })
    }),
];

impl Writing<'_> {
    /// Whether the call was refused so.
    fn refused(&self, kind: Kind) -> bool {
        self.answer.is_err_and(|refusal| refusal.kind == kind)
    }

    /// The bytes that SHORT asks for; 0 if the answer is another.
    fn needed(&self) -> usize {
        match self.answer {
            Err(refusal) if refusal.kind == Kind::Short => refusal.carried,
            _ => 0,
        }
    }

    /// Whether the call was accepted, and its table is so.
    fn taken(&self, so: impl Fn(&Machine) -> bool) -> bool {
        self.answer.is_ok() && read_table(self.file).is_ok_and(|table| so(&table))
    }
}

const WRITINGS: [OfWritings; 12] = [
    ("OK with just the room", |w| w.answer == Ok(w.room)),
    ("OK with more room", |w| {
        w.answer.is_ok_and(|written| written < w.room)
    }),
    ("OK the longest text", |w| w.answer == Ok(LONGEST_TEXT)),
    ("OK no cell defined", |w| {
        w.taken(|table| table.cells.iter().all(Option::is_none))
    }),
    ("OK some cell undefined", |w| {
        w.taken(|table| table.cells.contains(&None))
    }),
    ("OK 256 cells", |w| {
        w.taken(|table| table.cells.len() == CELLS)
    }),
    ("SHORT at 0", |w| w.refused(Kind::Short) && w.room == 0),
    ("SHORT by one", |w| w.needed() == w.room + 1),
    ("SHORT of the longest text", |w| w.needed() == LONGEST_TEXT),
    ("LENGTH at 0", |w| w.refused(Kind::Length) && w.room == 0),
    ("SIZE at 0", |w| w.refused(Kind::Size) && w.room == 0),
    ("CELL at 0", |w| w.refused(Kind::Cell) && w.room == 0),
];

/// What a reading met.
pub fn met_reading(reading: &Reading) -> Vec<String> {
    READINGS
        .iter()
        .filter(|(_, holds)| holds(reading))
        .map(|(name, _)| name.to_string())
        .collect()
}

/// What a writing met.
pub fn met_writing(writing: &Writing) -> Vec<String> {
    let mut met: Vec<String> = WRITINGS
        .iter()
        .filter(|(_, holds)| holds(writing))
        .map(|(name, _)| name.to_string())
        .collect();
    for size in SIZES_AT_A_STEP {
        if writing.taken(|table| table.k == size) {
            met.push(inputs_of(size));
        }
        if writing.taken(|table| table.m == size) {
            met.push(outputs_of(size));
        }
    }
    met
}

fn inputs_of(size: usize) -> String {
    format!("OK k {size}")
}

fn outputs_of(size: usize) -> String {
    format!("OK m {size}")
}

/// All that readings should meet.
pub fn readings() -> Vec<String> {
    READINGS.iter().map(|(name, _)| name.to_string()).collect()
}

/// All that writings should meet.
pub fn writings() -> Vec<String> {
    let names = WRITINGS.iter().map(|(name, _)| name.to_string());
    names
        .chain(SIZES_AT_A_STEP.map(inputs_of))
        .chain(SIZES_AT_A_STEP.map(outputs_of))
        .collect()
}

#[cfg(test)]
mod tests {
    use super::*;
    use crate::files::{five_litre, table};

    fn of_text(text: &[u8]) -> Vec<String> {
        let mut file = [0; LARGEST_FILE];
        met_reading(&Reading {
            text,
            room: file.len(),
            answer: kiss2::read(text, &mut file),
        })
    }

    /// What the text meets with a part replaced.
    fn with(old: &str, new: &str) -> Vec<String> {
        let five = String::from_utf8(kiss2::write_text(&five_litre())).expect("a text");
        assert_eq!(five.matches(old).count(), 1);
        of_text(five.replace(old, new).as_bytes())
    }

    #[test]
    fn accepted_texts() {
        let met = with(".i 2", ".i 2");
        assert_eq!(
            met,
            ["OK at 518", "OK lines in order", "OK .i 2", "OK .o 2"]
        );
        let met = with("00 s0 s1 01\n01 s0 s2 11\n", "01 s0 s2 11\n00 s0 s1 01\n");
        assert!(met.contains(&"OK lines out of order".to_string()));
        let longest = kiss2::write_text(&table(16, 16, 16, &[(15, 15); 256]));
        assert!(of_text(&longest).contains(&"OK the longest text".to_string()));
    }

    #[test]
    fn refused_texts() {
        assert_eq!(of_text(b""), ["TEXT at line 1", "TEXT of no byte"]);
        assert_eq!(with(".i 2", ".i 5"), ["TEXT at line 1", "TEXT at .i 5"]);
        assert_eq!(with(".e\n", ""), ["TEXT for want of .e"]);
        assert_eq!(
            with(".e\n", ".e"),
            ["TEXT at .e", "TEXT at .e without its line feed"]
        );
        assert_eq!(
            with(".e\n", ".e\n\n"),
            ["TEXT after .e", "TEXT at an empty line"]
        );
        assert_eq!(
            with("10 s3 s1 00\n", "00 s0 s1 01\n"),
            ["TWICE the same line"]
        );
        assert_eq!(
            with("10 s3 s1 00\n", "00 s0 s2 01\n"),
            ["TWICE with other values"]
        );
        assert_eq!(
            with("10 s3 s1 00\n", "00 s0 s16 01\n"),
            [
                "TEXT at a cell's line",
                "TEXT at s16",
                "TEXT for a cell that has a line"
            ]
        );
        assert_eq!(with(".p 11", ".p 12"), ["COUNT .p one too large"]);
        assert_eq!(with(".s 4", ".s 3"), ["COUNT a state"]);
        assert_eq!(
            with("10 s3 s1 00", "10 s3 s4 00"),
            ["COUNT a next state alone"]
        );
    }

    #[test]
    fn texts_at_the_most_bytes() {
        let mut text = kiss2::write_text(&five_litre());
        text.resize(kiss2::MOST_BYTES, b'x');
        assert_eq!(
            of_text(&text),
            ["TEXT at a line of 16,384 bytes", "TEXT after .e"]
        );
        text.push(b'x');
        assert_eq!(of_text(&text), ["TEXT at line 0 of 16,385 bytes"]);
    }

    #[test]
    fn writings_by_room() {
        let file = write_table(&five_litre());
        let met = |room: usize| {
            let answer = kiss2::write(&file, &mut vec![0; room]);
            met_writing(&Writing {
                file: &file,
                room,
                answer,
            })
        };
        let five = kiss2::write_text(&five_litre()).len();
        assert_eq!(
            met(five),
            [
                "OK with just the room",
                "OK some cell undefined",
                "OK k 3",
                "OK m 4"
            ]
        );
        assert_eq!(met(five - 1), ["SHORT by one"]);
        assert_eq!(met(0), ["SHORT at 0"]);
    }
}
