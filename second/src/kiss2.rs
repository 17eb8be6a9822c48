//! The design office's tables: KISS2 text read into a table file, and a table
//! file written as KISS2 text.
//!
//! A text is cut into its lines, each line into its words. Reading first takes
//! every line for its form, then judges the counts that the text names.

use std::collections::BTreeSet;

use crate::files::{carrying, read_table, refusal, write_table, Kind, Refusal};
use crate::machine::{Entry, Machine, MOST};
use crate::session::write_bytes;

/// The most bytes of a text.
pub const MOST_BYTES: usize = 16_384;

/// The bytes of a table file before its cells: version, length, n, k and m.
const FILE_HEAD: usize = 6;

/// The room that reading asks for: the bytes of the largest table file.
pub const LARGEST_FILE: usize = FILE_HEAD + 2 * MOST * MOST;

/// The most bits of an input or an output.
const MOST_BITS: usize = 4;

/// The most digits of a number.
const MOST_DIGITS: usize = 3;

/// The line that TEXT carries for a text that is too long to be read.
const NO_LINE: usize = 0;

/// The lines of the directives before the cells, counted from 1.
const I_LINE: usize = 1;
const O_LINE: usize = 2;
pub const P_LINE: usize = 3;
pub const S_LINE: usize = 4;
const R_LINE: usize = 5;

/// The line after the directives: the first cell's, or the end's.
pub const FIRST_CELL_LINE: usize = 6;

/// The reset directive's whole line.
const RESET: &[u8] = b".r s0";

/// The directive that ends a text.
pub const END: &[u8] = b".e";

/// What a line for a cell says.
#[derive(Clone, Copy, Debug, PartialEq, Eq)]
pub struct CellLine {
    pub state: u8,
    pub input: u8,
    pub entry: Entry,
}

/// What a text of the form says, before its counts are judged.
#[derive(Clone, Debug, PartialEq, Eq)]
pub struct Listing {
    pub input_bits: usize,
    pub output_bits: usize,
    /// What `.p` names.
    pub lines: usize,
    /// What `.s` names.
    pub states: usize,
    /// The cells' lines in the text's order, no two for one cell.
    pub cells: Vec<CellLine>,
}

/// The words of a line; blanks that part nothing leave empty words.
fn words(line: &[u8]) -> Vec<&[u8]> {
    line.split(|&byte| byte == b' ').collect()
}

/// A decimal number without a leading zero.
fn number(word: &[u8]) -> Option<usize> {
    let leading_zero = word.len() > 1 && word[0] == b'0';
    let digits = word.iter().all(u8::is_ascii_digit);
    if !(1..=MOST_DIGITS).contains(&word.len()) || leading_zero || !digits {
        return None;
    }
    let value = |value, digit: &u8| 10 * value + usize::from(digit - b'0');
    Some(word.iter().fold(0, value))
}

/// A state from s0 to s15.
fn state(word: &[u8]) -> Option<u8> {
    let value = number(word.strip_prefix(b"s")?)?;
    (value < MOST).then_some(value as u8)
}

/// Bits of exactly the width, highest first.
fn bits(word: &[u8], width: usize) -> Option<u8> {
    if word.len() != width {
        return None;
    }
    word.iter().try_fold(0, |value, bit| match bit {
        b'0' => Some(2 * value),
        b'1' => Some(2 * value + 1),
        _ => None,
    })
}

/// The number that a directive's line names.
fn directive(line: &[u8], name: &str) -> Option<usize> {
    match words(line)[..] {
        [first, value] if first == name.as_bytes() => number(value),
        _ => None,
    }
}

/// The width that a directive's line names.
fn width(line: &[u8], name: &str) -> Option<usize> {
    directive(line, name).filter(|bits| (1..=MOST_BITS).contains(bits))
}

/// What a cell's line says.
fn cell_line(line: &[u8], input_bits: usize, output_bits: usize) -> Option<CellLine> {
    match words(line)[..] {
        [input, from, next, output] => Some(CellLine {
            state: state(from)?,
            input: bits(input, input_bits)?,
            entry: Entry {
                next: state(next)?,
                output: bits(output, output_bits)?,
            },
        }),
        _ => None,
    }
}

/// A text's lines, each with its line feed as far as the text has it.
pub fn lines(text: &[u8]) -> Vec<&[u8]> {
    text.split_inclusive(|&byte| byte == b'\n').collect()
}

/// What `read` makes of the line at a number, or TEXT there: the line is
/// missing, has no line feed or is not of the form.
fn take<T>(
    lines: &[&[u8]],
    number: usize,
    read: impl Fn(&[u8]) -> Option<T>,
) -> Result<T, Refusal> {
    lines
        .get(number - 1)
        .and_then(|line| line.strip_suffix(b"\n"))
        .and_then(read)
        .ok_or(carrying(Kind::Text, number))
}

/// The cells' lines up to the text's end.
fn cells(lines: &[&[u8]], input_bits: usize, output_bits: usize) -> Result<Vec<CellLine>, Refusal> {
    let mut cells = Vec::new();
    let mut taken = BTreeSet::new();
    let mut number = FIRST_CELL_LINE;
    let cell_or_end = |line: &[u8]| match line {
        END => Some(None),
        _ => cell_line(line, input_bits, output_bits).map(Some),
    };
    while let Some(cell) = take(lines, number, cell_or_end)? {
        if !taken.insert((cell.state, cell.input)) {
            return Err(carrying(Kind::Twice, number));
        }
        cells.push(cell);
        number += 1;
    }
    if lines.len() > number {
        return Err(carrying(Kind::Text, number + 1));
    }
    Ok(cells)
}

/// What a text says, or the refusal at the first line at fault.
pub fn listing(text: &[u8]) -> Result<Listing, Refusal> {
    if text.len() > MOST_BYTES {
        return Err(carrying(Kind::Text, NO_LINE));
    }
    let lines = &lines(text);
    let input_bits = take(lines, I_LINE, |line| width(line, ".i"))?;
    let output_bits = take(lines, O_LINE, |line| width(line, ".o"))?;
    let named_lines = take(lines, P_LINE, |line| directive(line, ".p"))?;
    let states = take(lines, S_LINE, |line| directive(line, ".s"))?;
    take(lines, R_LINE, |line| (line == RESET).then_some(()))?;
    Ok(Listing {
        input_bits,
        output_bits,
        lines: named_lines,
        states,
        cells: cells(lines, input_bits, output_bits)?,
    })
}

impl Listing {
    /// COUNT with the line of the first directive whose number is wrong.
    fn count(&self) -> Result<(), Refusal> {
        if self.lines != self.cells.len() {
            return Err(carrying(Kind::Count, P_LINE));
        }
        let below = |state: u8| usize::from(state) < self.states;
        let all_below = |cell: &CellLine| below(cell.state) && below(cell.entry.next);
        if !(1..=MOST).contains(&self.states) || !self.cells.iter().all(all_below) {
            return Err(carrying(Kind::Count, S_LINE));
        }
        Ok(())
    }

    /// The table of a listing whose counts are right.
    fn table(&self) -> Machine {
        let (n, k, m) = (self.states, 1 << self.input_bits, 1 << self.output_bits);
        let mut cells = vec![None; n * k];
        for line in &self.cells {
            let cell = usize::from(line.state) * k + usize::from(line.input);
            cells[cell] = Some(line.entry);
        }
        Machine { n, k, m, cells }
    }
}

/// The table that a text says, or the refusal.
pub fn read_text(text: &[u8]) -> Result<Machine, Refusal> {
    let listing = listing(text)?;
    listing.count()?;
    Ok(listing.table())
}

/// Reads a text and writes its table as a table file; answers the bytes
/// written.
pub fn read(text: &[u8], file: &mut [u8]) -> Result<usize, Refusal> {
    if file.len() < LARGEST_FILE {
        return Err(refusal(Kind::Short));
    }
    write_bytes(&write_table(&read_text(text)?), file)
}

/// The smallest width of at least one bit for numbers below the size.
fn smallest_width(size: usize) -> usize {
    (1..=MOST_BITS)
        .find(|&bits| size <= 1 << bits)
        .expect("a size of at most 16")
}

/// The text of a table, by rising cell.
pub fn write_text(table: &Machine) -> Vec<u8> {
    let (inputs, outputs) = (smallest_width(table.k), smallest_width(table.m));
    let mut cells = Vec::new();
    for (cell, entry) in table.cells.iter().enumerate() {
        if let Some(Entry { next, output }) = entry {
            let (state, input) = (cell / table.k, cell % table.k);
            cells.push(format!(
                "{input:0inputs$b} s{state} s{next} {output:0outputs$b}\n"
            ));
        }
    }
    let (lines, states) = (cells.len(), table.n);
    let head = format!(".i {inputs}\n.o {outputs}\n.p {lines}\n.s {states}\n.r s0\n");
    format!("{head}{}.e\n", cells.concat()).into_bytes()
}

/// Reads a table file and writes its table as a text; answers the bytes
/// written.
pub fn write(file: &[u8], text: &mut [u8]) -> Result<usize, Refusal> {
    write_bytes(&write_text(&read_table(file)?), text)
}

#[cfg(test)]
mod tests {
    use super::*;
    use crate::files::{eight_litre, file, five_litre, table};

    const FIVE: &str = "\
.i 2
.o 2
.p 11
.s 4
.r s0
00 s0 s1 01
01 s0 s2 11
10 s0 s0 00
00 s1 s0 10
01 s1 s2 11
10 s1 s1 00
00 s2 s3 01
01 s2 s2 00
10 s2 s0 00
00 s3 s2 10
10 s3 s1 00
.e
";

    /// One state, one bit each way, one cell.
    const SMALL: &str = ".i 1\n.o 1\n.p 1\n.s 1\n.r s0\n1 s0 s0 1\n.e\n";

    const TEXT: Kind = Kind::Text;
    const TWICE: Kind = Kind::Twice;
    const COUNT: Kind = Kind::Count;

    fn refused(text: &str) -> (Kind, usize) {
        let refusal = read_text(text.as_bytes()).expect_err("a refusal");
        (refusal.kind, refusal.carried)
    }

    fn taken(text: &str) -> Machine {
        read_text(text.as_bytes()).expect("a table")
    }

    /// The small text with one part replaced, which stands there once.
    fn small(old: &str, new: &str) -> String {
        assert_eq!(SMALL.matches(old).count(), 1);
        SMALL.replace(old, new)
    }

    /// A text of one bit each way with these counts and lines.
    fn with(lines: &str, states: &str, cells: &str) -> String {
        format!(".i 1\n.o 1\n.p {lines}\n.s {states}\n.r s0\n{cells}.e\n")
    }

    /// A table with the cells all the same.
    fn uniform(n: usize, k: usize, m: usize, cell: (u8, u8)) -> Machine {
        table(n, k, m, &vec![cell; n * k])
    }

    const UNDEFINED: (u8, u8) = (255, 255);

    #[test]
    fn the_five_litre_text() {
        assert_eq!(write_text(&five_litre()), FIVE.as_bytes());
        let read = taken(FIVE);
        assert_eq!((read.n, read.k, read.m), (4, 4, 4));
        for state in 0..4 {
            let row = &read.cells[4 * state..4 * state + 4];
            assert_eq!(row[..3], five_litre().cells[3 * state..3 * state + 3]);
            assert_eq!(row[3], None);
        }
        assert_eq!(read.cells[4 * 3 + 1], None);
    }

    #[test]
    fn the_eight_litre_text_has_three_bits_of_output() {
        let text = String::from_utf8(write_text(&eight_litre())).expect("a text");
        assert!(text.starts_with(".i 2\n.o 3\n.p 14\n.s 5\n.r s0\n00 s0 s1 001\n"));
        assert!(text.ends_with("01 s3 s4 100\n10 s3 s1 000\n00 s4 s4 000\n10 s4 s0 000\n.e\n"));
        assert_eq!(taken(&text).m, 8);
    }

    #[test]
    fn the_file_is_written_and_the_tail_stays() {
        let mut buffer = [165; LARGEST_FILE];
        assert_eq!(read(SMALL.as_bytes(), &mut buffer), Ok(10));
        assert_eq!(buffer[..10], [1, 0, 7, 1, 2, 2, 255, 255, 0, 1]);
        assert!(buffer[10..].iter().all(|&byte| byte == 165));
    }

    #[test]
    fn reading_under_518_bytes_is_short_before_all_else() {
        let mut buffer = [165; LARGEST_FILE - 1];
        let short = Err(refusal(Kind::Short));
        assert_eq!(LARGEST_FILE, 518);
        assert_eq!(read(SMALL.as_bytes(), &mut buffer), short);
        assert_eq!(read(b"", &mut buffer), short);
        assert_eq!(read(&[b'x'; MOST_BYTES + 1], &mut buffer), short);
        assert_eq!(read(SMALL.as_bytes(), &mut []), short);
        assert_eq!(buffer, [165; LARGEST_FILE - 1]);
        let mut buffer = [165; LARGEST_FILE];
        let text = Err(carrying(TEXT, 1));
        assert_eq!(read(b"", &mut buffer), text);
        assert_eq!(buffer, [165; LARGEST_FILE]);
    }

    #[test]
    fn the_largest_file_is_read() {
        let largest = uniform(16, 16, 16, (15, 15));
        let mut buffer = [165; LARGEST_FILE];
        let read = read(&write_text(&largest), &mut buffer);
        assert_eq!(read, Ok(LARGEST_FILE));
        assert_eq!(buffer[..], write_table(&largest));
    }

    #[test]
    fn a_text_over_16384_bytes_has_line_0() {
        let mut text = SMALL.as_bytes().to_vec();
        text.resize(MOST_BYTES, b'\n');
        assert_eq!(read_text(&text), Err(carrying(TEXT, 8)));
        text.push(b'\n');
        assert_eq!(read_text(&text), Err(carrying(TEXT, 0)));
    }

    #[test]
    fn each_line_at_fault_has_its_number() {
        assert_eq!(refused(&small(".i 1", ".i 5")), (TEXT, 1));
        assert_eq!(refused(&small(".o 1", ".o 0")), (TEXT, 2));
        assert_eq!(refused(&small(".p 1", ".p 1000")), (TEXT, 3));
        assert_eq!(refused(&small(".s 1", ".s")), (TEXT, 4));
        assert_eq!(refused(&small(".r s0", ".r s1")), (TEXT, 5));
        assert_eq!(refused(&small("1 s0 s0 1", "1 s0 s0 2")), (TEXT, 6));
        assert_eq!(refused(&small(".e", ".f")), (TEXT, 7));
        assert_eq!(refused(&small(".e\n", ".e\n.e\n")), (TEXT, 8));
    }

    #[test]
    fn the_first_line_at_fault_is_carried() {
        let two = small(".i 1", ".i 0").replace(".r s0", ".r");
        assert_eq!(refused(&two), (TEXT, 1));
        let twice_then_text = with("2", "1", "0 s0 s0 0\n0 s0 s0 0\nx\n");
        assert_eq!(refused(&twice_then_text), (TWICE, 7));
        let text_then_twice = with("2", "1", "0 s0 s0 0\nx\n0 s0 s0 0\n");
        assert_eq!(refused(&text_then_twice), (TEXT, 7));
    }

    #[test]
    fn a_missing_line_is_at_fault_at_its_place() {
        let lines: Vec<&str> = SMALL.split_inclusive('\n').collect();
        for missing in 0..lines.len() {
            let mut rest = lines.clone();
            rest.remove(missing);
            let line = [1, 2, 3, 4, 5, 3, 7][missing];
            let kind = if missing == 5 { COUNT } else { TEXT };
            assert_eq!(refused(&rest.concat()), (kind, line));
        }
    }

    #[test]
    fn a_text_that_ends_early_is_at_fault_where_it_ends() {
        assert_eq!(refused(""), (TEXT, 1));
        for end in 0..SMALL.len() {
            let line = 1 + SMALL[..end].matches('\n').count();
            assert_eq!(refused(&SMALL[..end]), (TEXT, line));
        }
    }

    #[test]
    fn bytes_after_the_end_are_at_fault_at_the_next_line() {
        for more in ["\n", " ", ".", ".e", "1 s0 s0 1\n", "x\ny\n"] {
            assert_eq!(refused(&format!("{SMALL}{more}")), (TEXT, 8));
        }
    }

    #[test]
    fn numbers() {
        assert_eq!(number(b"0"), Some(0));
        assert_eq!(number(b"10"), Some(10));
        assert_eq!(number(b"999"), Some(999));
        for word in [
            "", "00", "01", "012", "1000", "0999", "+1", "-1", "1a", " 1", "1\t",
        ] {
            assert_eq!(number(word.as_bytes()), None);
        }
    }

    #[test]
    fn states() {
        assert_eq!(state(b"s0"), Some(0));
        assert_eq!(state(b"s9"), Some(9));
        assert_eq!(state(b"s15"), Some(15));
        for word in [
            "", "s", "s16", "s07", "s00", "S1", "1", "ss1", "s1s", "s-1", "s256", "s271",
        ] {
            assert_eq!(state(word.as_bytes()), None);
        }
    }

    #[test]
    fn bits_have_their_width_and_the_highest_first() {
        assert_eq!(bits(b"0", 1), Some(0));
        assert_eq!(bits(b"1000", 4), Some(8));
        assert_eq!(bits(b"0011", 4), Some(3));
        for word in ["", "0", "111", "1-", "12", "1 ", "-0"] {
            assert_eq!(bits(word.as_bytes(), 2), None);
        }
    }

    #[test]
    fn widths_are_one_to_four() {
        for (line, name) in [(1, "i"), (2, "o")] {
            let old = format!(".{name} 1");
            let lines_gone = small("1 s0 s0 1\n", "").replace(".p 1", ".p 0");
            for width in ["1", "2", "3", "4"] {
                let text = lines_gone.replace(&old, &format!(".{name} {width}"));
                assert!(read_text(text.as_bytes()).is_ok());
            }
            for width in ["", "0", "5", "10", "257", "01", "1 1", "x"] {
                let text = lines_gone.replace(&old, &format!(".{name} {width}"));
                assert_eq!(refused(&text), (TEXT, line));
            }
        }
    }

    #[test]
    fn a_width_that_is_not_the_lines_is_at_fault_at_the_first_line() {
        assert_eq!(refused(&FIVE.replace(".i 2", ".i 3")), (TEXT, 6));
        assert_eq!(refused(&FIVE.replace(".o 2", ".o 1")), (TEXT, 6));
    }

    #[test]
    fn leading_zeros_are_refused() {
        assert_eq!(refused(&small(".i 1", ".i 01")), (TEXT, 1));
        assert_eq!(refused(&small(".o 1", ".o 01")), (TEXT, 2));
        assert_eq!(refused(&small(".p 1", ".p 01")), (TEXT, 3));
        assert_eq!(refused(&small(".s 1", ".s 001")), (TEXT, 4));
        assert_eq!(refused(&small(".r s0", ".r s00")), (TEXT, 5));
        assert_eq!(refused(&small("1 s0 s0 1", "1 s00 s0 1")), (TEXT, 6));
        assert_eq!(refused(&small("1 s0 s0 1", "1 s0 s00 1")), (TEXT, 6));
    }

    #[test]
    fn words_are_parted_by_one_blank_and_nothing_else() {
        let lines = [".i 1", ".o 1", ".p 1", ".s 1", ".r s0", "1 s0 s0 1", ".e"];
        for (index, line) in lines.into_iter().enumerate() {
            let fault = (TEXT, index + 1);
            assert_eq!(refused(&small(line, &format!("{line} "))), fault);
            assert_eq!(refused(&small(line, &format!(" {line}"))), fault);
            assert_eq!(refused(&small(line, &format!("{line}\r"))), fault);
            assert_eq!(refused(&small(line, &format!("{line}\t"))), fault);
            assert_eq!(refused(&small(line, &format!("{line} # x"))), fault);
            assert_eq!(refused(&small(line, &format!("# x\n{line}"))), fault);
            assert_eq!(refused(&small(line, &format!("\n{line}"))), fault);
            if line.contains(' ') {
                let doubled = line.replacen(' ', "  ", 1);
                assert_eq!(refused(&small(line, &doubled)), fault);
                let tab = line.replacen(' ', "\t", 1);
                assert_eq!(refused(&small(line, &tab)), fault);
            }
        }
        assert_eq!(refused(&SMALL.replace('\n', "\r\n")), (TEXT, 1));
    }

    #[test]
    fn directives_stand_once_each_in_their_order() {
        assert_eq!(refused(&small(".o 1\n", ".o 1\n.o 1\n")), (TEXT, 3));
        assert_eq!(refused(&small(".r s0\n", ".r s0\n.r s0\n")), (TEXT, 6));
        let swapped = small(".p 1\n.s 1\n", ".s 1\n.p 1\n");
        assert_eq!(refused(&swapped), (TEXT, 3));
        let early = small("1 s0 s0 1\n.e\n", ".e\n1 s0 s0 1\n");
        assert_eq!(refused(&early), (TEXT, 7));
        assert_eq!(refused(&small(".i 1", ".I 1")), (TEXT, 1));
        assert_eq!(refused(&small(".e", ".e 1")), (TEXT, 7));
    }

    #[test]
    fn words_of_a_cells_line_are_four() {
        for line in [
            "1 s0 s0",
            "1 s0 s0 1 1",
            "s0 1 s0 1",
            "1 s0 1 s0",
            "1 s16 s0 1",
            "1 s0 s16 1",
            "1 s07 s0 1",
            "1 S1 s0 1",
            "1 s0 S1 1",
            "- s0 s0 1",
            "1 s0 s0 -",
            "1 s0 * 1",
            "11 s0 s0 1",
            "1 s0 s0 01",
        ] {
            assert_eq!(refused(&small("1 s0 s0 1", line)), (TEXT, 6));
        }
    }

    #[test]
    fn lines_stand_in_any_order() {
        let mut lines: Vec<&str> = FIVE.split_inclusive('\n').collect();
        lines[5..16].reverse();
        assert_eq!(taken(&lines.concat()), taken(FIVE));
        lines.swap(7, 12);
        assert_eq!(taken(&lines.concat()), taken(FIVE));
    }

    #[test]
    fn a_second_line_for_a_cell_is_twice() {
        let same = with("2", "1", "0 s0 s0 0\n0 s0 s0 0\n");
        assert_eq!(refused(&same), (TWICE, 7));
        let other = with("2", "2", "0 s0 s0 0\n1 s0 s0 0\n0 s0 s1 1\n");
        assert_eq!(refused(&other), (TWICE, 8));
        let above = with("9", "1", "0 s9 s9 0\n0 s9 s9 0\n");
        assert_eq!(refused(&above), (TWICE, 7));
        let no_state = with("2", "0", "0 s0 s0 0\n0 s0 s0 0\n");
        assert_eq!(refused(&no_state), (TWICE, 7));
        assert_eq!(refused(&same[..same.len() - 1]), (TWICE, 7));
    }

    #[test]
    fn a_line_that_is_not_of_the_form_is_text_and_never_twice() {
        let wide = with("2", "1", "0 s0 s0 0\n0 s0 s0 00\n");
        assert_eq!(refused(&wide), (TEXT, 7));
        let next = with("2", "1", "0 s0 s0 0\n0 s0 s16 0\n");
        assert_eq!(refused(&next), (TEXT, 7));
        let cut = ".i 1\n.o 1\n.p 2\n.s 1\n.r s0\n0 s0 s0 0\n0 s0 s0 0";
        assert_eq!(refused(cut), (TEXT, 7));
    }

    #[test]
    fn the_count_of_lines_is_judged_after_all_lines() {
        let cells = "0 s0 s0 0\n1 s0 s0 0\n";
        assert!(read_text(with("2", "1", cells).as_bytes()).is_ok());
        for lines in ["0", "1", "3", "258", "999"] {
            assert_eq!(refused(&with(lines, "1", cells)), (COUNT, 3));
        }
        let twice = with("7", "1", "0 s0 s0 0\n0 s0 s0 0\n");
        assert_eq!(refused(&twice), (TWICE, 7));
        assert_eq!(refused(&with("7", "1", "x\n")), (TEXT, 6));
    }

    #[test]
    fn the_count_of_states_is_judged_last() {
        for states in ["0", "17", "257", "999"] {
            assert_eq!(refused(&with("0", states, "")), (COUNT, 4));
            assert_eq!(refused(&with("1", states, "")), (COUNT, 3));
        }
        assert_eq!(taken(&with("0", "1", "")).n, 1);
        assert_eq!(taken(&with("0", "16", "")).n, 16);
    }

    #[test]
    fn every_state_and_next_state_is_below_the_count() {
        assert!(read_text(with("1", "2", "0 s1 s1 0\n").as_bytes()).is_ok());
        assert_eq!(refused(&with("1", "1", "0 s1 s0 0\n")), (COUNT, 4));
        assert_eq!(refused(&with("1", "1", "0 s0 s1 0\n")), (COUNT, 4));
        assert_eq!(refused(&with("1", "15", "0 s15 s0 0\n")), (COUNT, 4));
        assert!(read_text(with("1", "16", "0 s15 s15 0\n").as_bytes()).is_ok());
        let last = with("2", "2", "0 s1 s1 0\n1 s0 s2 0\n");
        assert_eq!(refused(&last), (COUNT, 4));
        assert_eq!(refused(&with("2", "1", "0 s1 s0 0\n")), (COUNT, 3));
    }

    #[test]
    fn bytes_that_are_no_characters_are_text() {
        for (index, byte) in [(0, 0), (3, 0xFF), (12, 0x80), (36, 0xC3)] {
            let mut text = SMALL.as_bytes().to_vec();
            text[index] = byte;
            let line = 1 + SMALL[..index].matches('\n').count();
            assert_eq!(read_text(&text), Err(carrying(TEXT, line)));
        }
    }

    #[test]
    fn one_changed_byte_is_refused_or_another_table_of_the_form() {
        for index in 0..SMALL.len() {
            for byte in 0..=255 {
                let mut text = SMALL.as_bytes().to_vec();
                text[index] = byte;
                if let Ok(table) = read_text(&text) {
                    let listing = listing(&text).expect("a listing");
                    assert_eq!(listing.cells.len(), 1);
                    assert_eq!(write_text(&table), text);
                }
            }
        }
    }

    #[test]
    fn a_table_with_no_defined_cell_is_written_with_no_line() {
        let text = ".i 1\n.o 1\n.p 0\n.s 3\n.r s0\n.e\n";
        let undefined = uniform(3, 2, 2, UNDEFINED);
        assert_eq!(write_text(&undefined), text.as_bytes());
        assert_eq!(taken(text), undefined);
    }

    #[test]
    fn widths_are_the_smallest_of_at_least_one_bit() {
        let widths = [1, 1, 2, 2, 3, 3, 3, 3, 4, 4, 4, 4, 4, 4, 4, 4];
        for (index, width) in widths.into_iter().enumerate() {
            assert_eq!(smallest_width(index + 1), width);
        }
    }

    #[test]
    fn the_longest_text() {
        let longest = write_text(&uniform(16, 16, 16, (15, 15)));
        let head = ".i 4\n.o 4\n.p 256\n.s 16\n.r s0\n.e\n".len();
        let below_ten = 160 * "0000 s0 s15 0000\n".len();
        let from_ten = 96 * "0000 s10 s15 0000\n".len();
        assert_eq!(longest.len(), head + below_ten + from_ten);
        assert_eq!(longest.len(), 4_480);
    }

    #[test]
    fn what_is_written_reads_back_with_k_and_m_at_their_powers() {
        for n in 1..=MOST {
            for k in 1..=MOST {
                for m in 1..=MOST {
                    let cell = |c: usize| match c % 3 {
                        0 => UNDEFINED,
                        _ => ((c % n) as u8, (c % m) as u8),
                    };
                    let cells: Vec<(u8, u8)> = (0..n * k).map(cell).collect();
                    let written = table(n, k, m, &cells);
                    let read = read_text(&write_text(&written)).expect("a table");
                    let power = |size: usize| size.next_power_of_two().max(2);
                    assert_eq!((read.n, read.k, read.m), (n, power(k), power(m)));
                    for (number, &entry) in read.cells.iter().enumerate() {
                        let (state, input) = (number / read.k, number % read.k);
                        let same = (input < k).then(|| written.cells[state * k + input]);
                        assert_eq!(entry, same.flatten());
                    }
                }
            }
        }
    }

    #[test]
    fn writing_refuses_what_the_table_file_is_refused_for() {
        let write = |file: &[u8]| {
            let mut text = [165; 100];
            let answer = write(file, &mut text).map_err(|r| (r.kind, r.carried));
            assert_eq!(text, [165; 100]);
            answer.expect_err("a refusal")
        };
        assert_eq!(write(&[]), (Kind::Length, 0));
        assert_eq!(write(&[2, 0, 0]), (Kind::Version, 0));
        assert_eq!(write(&[1, 0, 1]), (Kind::Length, 0));
        assert_eq!(write(&file(&[0, 1, 1])), (Kind::Size, 0));
        assert_eq!(write(&file(&[1, 2, 1, 0, 0, 1, 0])), (Kind::Cell, 1));
        assert_eq!(write(&write_table(&five_litre())), (Kind::Short, 162));
    }

    #[test]
    fn writing_needs_just_the_bytes_of_the_text() {
        let file = write_table(&five_litre());
        let mut text = [165; FIVE.len() + 1];
        let short = Err(carrying(Kind::Short, FIVE.len()));
        assert_eq!(write(&file, &mut text[..FIVE.len() - 1]), short);
        assert_eq!(write(&file, &mut []), short);
        assert_eq!(text, [165; FIVE.len() + 1]);
        assert_eq!(write(&[], &mut []), Err(refusal(Kind::Length)));
        let exact = write(&file, &mut text[..FIVE.len()]);
        assert_eq!(exact, Ok(FIVE.len()));
        assert_eq!(text[..FIVE.len()], *FIVE.as_bytes());
        let more = write(&file, &mut text);
        assert_eq!(more, Ok(FIVE.len()));
        assert_eq!(text[FIVE.len()], 165);
    }
}
