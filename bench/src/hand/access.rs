//! Reads and prewrites: the lines and notes that they add.

use super::book::{Note, Order, ReadLine, Row, State, WriteLine};
use super::{Hand, ground_of, place_of_row};
use crate::call::{Cell, Refusal, TOP};

// Whether a transaction's lines at a ground are soft locks.
fn is_locked(rows: &[Row], transaction: u32, ground: u16) -> bool {
    place_of_row(rows, transaction, ground)
        .is_some_and(|place| matches!(rows[place].state, State::Running | State::Validated))
}

impl Hand {
    fn cell(&self, key: u16) -> Result<Cell, Refusal> {
        self.cells.get(usize::from(key)).copied().ok_or(Refusal::NoSuchKey)
    }

    // Whether the transaction has yet to get a row at the ground.
    fn needs_row(&self, transaction: u32, ground: u16) -> Result<bool, Refusal> {
        match place_of_row(self.rows.lines(), transaction, ground) {
            None => Ok(true),
            Some(place) if self.rows.lines()[place].state == State::Running => Ok(false),
            Some(_) => Err(Refusal::NotRunning),
        }
    }

    fn add_row(&mut self, transaction: u32, ground: u16) {
        self.rows.push(Row { transaction, ground, state: State::Running, lower: 0, upper: TOP });
    }

    // The others whose write locks stand on a key, in the order of their lines.
    fn writers(&self, key: u16, but: u32) -> impl Iterator<Item = u32> {
        let lines = self.writes.lines().iter().filter(move |line| line.key == key && line.transaction != but);
        lines.map(|line| line.transaction).filter(move |&it| is_locked(self.rows.lines(), it, ground_of(key)))
    }

    // The others whose read locks stand on it.
    fn readers(&self, key: u16, but: u32) -> impl Iterator<Item = u32> {
        let lines = self.reads.lines().iter().filter(move |line| line.key == key && line.transaction != but);
        lines.map(|line| line.transaction).filter(move |&it| is_locked(self.rows.lines(), it, ground_of(key)))
    }

    pub(super) fn read_cell(&mut self, transaction: u32, key: u16) -> Result<(i16, i32), Refusal> {
        self.open(transaction)?;
        let cell = self.cell(key)?;
        let ground = ground_of(key);
        let needs_row = self.needs_row(transaction, ground)?;
        if self.writes.lines().iter().rev().any(|line| line.transaction == transaction) {
            return Err(Refusal::ReadAfterPrewrite);
        }
        let mut own = self.reads.lines().iter().rev();
        if let Some(line) = own.find(|line| line.transaction == transaction && line.key == key) {
            return Ok((line.value, line.seen));
        }
        // The locks are counted only where the notes might not find room.
        let free = self.notes.free();
        if self.reads.free() == 0
            || needs_row && self.rows.free() == 0
            || free < self.writes.lines().len() && free < self.writers(key, transaction).count()
        {
            return Err(Refusal::NoRoom);
        }
        for &WriteLine { transaction: writer, key: written, .. } in self.writes.lines() {
            if written == key && is_locked(self.rows.lines(), writer, ground) {
                self.notes.push(Note { key, first: transaction, second: writer, order: Order::Before });
            }
        }
        if needs_row {
            self.add_row(transaction, ground);
        }
        self.reads.push(ReadLine { transaction, key, value: cell.value, seen: cell.write });
        Ok((cell.value, cell.write))
    }

    pub(super) fn prewrite_cell(&mut self, transaction: u32, key: u16, value: i16) -> Result<(), Refusal> {
        self.open(transaction)?;
        self.cell(key)?;
        let ground = ground_of(key);
        let needs_row = self.needs_row(transaction, ground)?;
        let mut own = self.writes.lines_mut().iter_mut().rev();
        if let Some(line) = own.find(|line| line.transaction == transaction && line.key == key) {
            line.value = value;
            return Ok(());
        }
        let free = self.notes.free();
        let locks = || self.readers(key, transaction).count() + self.writers(key, transaction).count();
        if self.writes.free() == 0
            || needs_row && self.rows.free() == 0
            || free < self.reads.lines().len() + self.writes.lines().len() && free < locks()
        {
            return Err(Refusal::NoRoom);
        }
        for &ReadLine { transaction: reader, key: read, .. } in self.reads.lines() {
            if read == key && reader != transaction && is_locked(self.rows.lines(), reader, ground) {
                self.notes.push(Note { key, first: reader, second: transaction, order: Order::Before });
            }
        }
        for &WriteLine { transaction: writer, key: written, .. } in self.writes.lines() {
            if written == key && is_locked(self.rows.lines(), writer, ground) {
                self.notes.push(Note { key, first: transaction, second: writer, order: Order::Apart });
            }
        }
        if needs_row {
            self.add_row(transaction, ground);
        }
        self.writes.push(WriteLine { transaction, key, value });
        Ok(())
    }
}
