//! The machine: a deterministic state table with an output on each
//! transition, its completed runs, its changed machines and its symptoms.
//!
//! Everything is done the plain way. A changed machine is a full copy of the
//! table with one cell replaced, and a case is judged by running the copy.

/// The most states, inputs or outputs that a table may have.
pub const MOST: usize = 16;

/// The most steps that a case may have; also the answer "no symptom".
pub const STEPS: usize = 64;

/// What a defined cell holds.
#[derive(Clone, Copy, Debug, PartialEq, Eq)]
pub struct Entry {
    pub next: u8,
    pub output: u8,
}

/// A state table; `None` stands for an undefined cell.
#[derive(Clone, Debug, PartialEq, Eq)]
pub struct Machine {
    pub n: usize,
    pub k: usize,
    pub m: usize,
    pub cells: Vec<Option<Entry>>,
}

/// A test case: what was fed in and what was seen.
#[derive(Clone, Debug, PartialEq, Eq)]
pub struct Case {
    pub inputs: Vec<u8>,
    pub outputs: Vec<u8>,
}

/// A fault number taken apart.
#[derive(Clone, Copy, Debug, PartialEq, Eq)]
pub enum Change {
    Output { cell: usize, value: u8 },
    Transfer { cell: usize, value: u8 },
}

impl Machine {
    /// How many fault numbers are in use.
    pub fn numbers(&self) -> usize {
        self.n * self.k * (self.n + self.m)
    }

    /// What a cell does when it runs: an undefined one loops to its own state
    /// with output 0.
    pub fn completed(&self, cell: usize) -> Entry {
        match self.cells[cell] {
            Some(entry) => entry,
            None => Entry {
                next: (cell / self.k) as u8,
                output: 0,
            },
        }
    }

    /// The change that a number in use stands for.
    pub fn change(&self, number: usize) -> Change {
        let cell = number / (self.n + self.m);
        let j = number % (self.n + self.m);
        if j < self.m {
            Change::Output {
                cell,
                value: j as u8,
            }
        } else {
            Change::Transfer {
                cell,
                value: (j - self.m) as u8,
            }
        }
    }

    /// The changed machine of a number in use. What the number doesn't
    /// change keeps its completed value.
    pub fn changed(&self, number: usize) -> Machine {
        let mut copy = self.clone();
        match self.change(number) {
            Change::Output { cell, value } => {
                copy.cells[cell] = Some(Entry {
                    next: self.completed(cell).next,
                    output: value,
                });
            }
            Change::Transfer { cell, value } => {
                copy.cells[cell] = Some(Entry {
                    next: value,
                    output: self.completed(cell).output,
                });
            }
        }
        copy
    }

    /// Whether a number in use is a fault: its cell is defined and its value
    /// is not the cell's own.
    pub fn is_fault(&self, number: usize) -> bool {
        match self.change(number) {
            Change::Output { cell, value } => {
                self.cells[cell].is_some_and(|entry| entry.output != value)
            }
            Change::Transfer { cell, value } => {
                self.cells[cell].is_some_and(|entry| entry.next != value)
            }
        }
    }

    /// The cells that a run from state 0 executes, one for each step.
    pub fn path(&self, inputs: &[u8]) -> Vec<usize> {
        let mut state = 0;
        let mut cells = Vec::new();
        for &input in inputs {
            let cell = state * self.k + usize::from(input);
            cells.push(cell);
            state = usize::from(self.completed(cell).next);
        }
        cells
    }

    /// The outputs of a run from state 0.
    pub fn expected(&self, inputs: &[u8]) -> Vec<u8> {
        self.path(inputs)
            .into_iter()
            .map(|cell| self.completed(cell).output)
            .collect()
    }

    /// Whether the machine gives every observed output of the case; stops at
    /// the first difference.
    pub fn reproduces(&self, case: &Case) -> bool {
        let mut state = 0;
        for (&input, &seen) in case.inputs.iter().zip(&case.outputs) {
            let entry = self.completed(state * self.k + usize::from(input));
            if entry.output != seen {
                return false;
            }
            state = usize::from(entry.next);
        }
        true
    }

    /// The steps at which the observed output differs from the expected one.
    pub fn symptoms(&self, case: &Case) -> Vec<usize> {
        let expected = self.expected(&case.inputs);
        (0..case.outputs.len())
            .filter(|&step| case.outputs[step] != expected[step])
            .collect()
    }

    /// The cells executed from step 0 up to and with the first symptom, in
    /// rising number; none for a passing case.
    pub fn conflict(&self, case: &Case) -> Vec<usize> {
        match self.symptoms(case).first() {
            None => Vec::new(),
            Some(&first) => {
                let mut cells = self.path(&case.inputs)[..=first].to_vec();
                cells.sort_unstable();
                cells.dedup();
                cells
            }
        }
    }

    /// Whether STEP would accept the case.
    pub fn accepts(&self, case: &Case) -> bool {
        let length = case.inputs.len();
        (1..=STEPS).contains(&length)
            && case.outputs.len() == length
            && case.inputs.iter().all(|&x| usize::from(x) < self.k)
            && case.outputs.iter().all(|&x| usize::from(x) < self.m)
    }

    /// For each number in use, 1 if its machine doesn't reproduce the case
    /// and 0 if it does.
    pub fn misses(&self, case: &Case) -> Vec<u16> {
        (0..self.numbers())
            .map(|number| u16::from(!self.changed(number).reproduces(case)))
            .collect()
    }
}

#[cfg(test)]
mod tests {
    use super::*;
    use crate::files::{eight_litre, five_litre};

    #[test]
    fn p1_and_p2() {
        assert_eq!(five_litre().expected(&[1, 0, 2, 0]), [3, 1, 0, 2]);
        assert_eq!(five_litre().expected(&[1, 1]), [3, 0]);
        assert_eq!(eight_litre().expected(&[1, 1]), [3, 4]);
    }

    #[test]
    fn undefined_cells_loop_with_the_null_output() {
        let five = five_litre();
        // 1 leads to state 2, 0 to state 3, where input 1 is undefined.
        assert_eq!(five.path(&[1, 0, 1, 1, 0]), [1, 6, 10, 10, 9]);
        assert_eq!(five.expected(&[1, 0, 1, 1, 0]), [3, 1, 0, 0, 2]);
        let eight = eight_litre();
        assert_eq!(eight.path(&[1, 1, 1, 0]), [1, 7, 13, 12]);
        assert_eq!(eight.expected(&[1, 1, 1, 0]), [3, 4, 0, 0]);
    }

    #[test]
    fn numbers_on_undefined_cells_change_the_machine_but_are_no_faults() {
        let five = five_litre();
        assert_eq!(five.numbers(), 96);
        for number in 80..88 {
            assert!(!five.is_fault(number));
        }
        // Number 82: cell 10 gives 2 and keeps the completed next state 3.
        let changed = five.changed(82);
        assert_eq!(changed.completed(10), Entry { next: 3, output: 2 });
        // Number 85: cell 10 goes to 1 and keeps the completed output 0.
        let changed = five.changed(85);
        assert_eq!(changed.completed(10), Entry { next: 1, output: 0 });
    }

    #[test]
    fn a_number_with_the_cells_own_value_is_no_fault() {
        let five = five_litre();
        assert!(!five.is_fault(1));
        assert!(!five.is_fault(5));
        assert_eq!(five.changed(1), five);
        assert_eq!(five.changed(5), five);
        let faults = (0..96).filter(|&number| five.is_fault(number)).count();
        assert_eq!(faults, 66);
    }

    #[test]
    fn the_change_holds_at_every_execution() {
        // Number 2: cell 0 gives 2; timer, timer, timer runs cell 0 twice.
        assert_eq!(five_litre().changed(2).expected(&[0, 0, 0]), [2, 2, 2]);
    }

    #[test]
    fn the_most_numbers_are_8192() {
        let machine = Machine {
            n: 16,
            k: 16,
            m: 16,
            cells: vec![None; 256],
        };
        assert_eq!(machine.numbers(), 8192);
    }

    #[test]
    fn every_difference_is_a_symptom() {
        let case = Case {
            inputs: vec![1, 0, 2, 0],
            outputs: vec![3, 2, 0, 0],
        };
        assert_eq!(five_litre().symptoms(&case), [1, 3]);
    }
}
