//! The register as hand-written Rust: fixed arrays, cells in a vector, searches from the end.

mod access;
mod book;
mod outcome;

use crate::call::{Answer, CELLS, Call, Cell, Contender, Refusal, answer_days};
use book::{Book, Decision, Note, ReadLine, Row, Transaction, WriteLine};

pub struct Hand {
    cells: Vec<Cell>,
    transactions: Book<Transaction, 64>,
    rows: Book<Row, 256>,
    reads: Book<ReadLine, 512>,
    writes: Book<WriteLine, 512>,
    notes: Book<Note, 4096>,
    // The bounds that the policy is shown, kept for their memory.
    befores: Vec<i32>,
    afters: Vec<i32>,
}

fn ground_of(key: u16) -> u16 {
    key >> 13
}

fn place_of_row(rows: &[Row], transaction: u32, ground: u16) -> Option<usize> {
    rows.iter().rposition(|row| row.transaction == transaction && row.ground == ground)
}

impl Hand {
    pub fn new() -> Box<Hand> {
        Box::new(Hand {
            cells: vec![Cell::default(); CELLS],
            transactions: Book::new(),
            rows: Book::new(),
            reads: Book::new(),
            writes: Book::new(),
            notes: Book::new(),
            befores: Vec::with_capacity(256),
            afters: Vec::with_capacity(256),
        })
    }

    fn transaction(&mut self, number: u32) -> Result<&mut Transaction, Refusal> {
        let mut lines = self.transactions.lines_mut().iter_mut().rev();
        lines.find(|line| line.number == number).ok_or(Refusal::NeverBegun)
    }

    fn open(&mut self, number: u32) -> Result<&mut Transaction, Refusal> {
        match self.transaction(number)? {
            line if line.decision == Decision::Open => Ok(line),
            _ => Err(Refusal::AlreadyDecided),
        }
    }
}

impl Contender for Hand {
    fn name(&self) -> &'static str {
        "hand-written"
    }

    fn clear(&mut self) {
        self.cells.fill(Cell::default());
    }

    fn days(&mut self, calls: &[Call], per_day: usize, answers: &mut [Answer]) {
        answer_days(self, calls, per_day, answers);
    }

    fn cells(&self) -> Vec<Cell> {
        self.cells.clone()
    }
}
