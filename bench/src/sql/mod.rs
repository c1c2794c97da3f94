//! The same rules as SQL over SQLite's tables in memory.

mod plain;
mod sqlite;
mod statements;

use crate::call::{Answer, CELLS, Call, Calls, Cell, Contender, Refusal, answer, answer_days, near};
pub use plain::Plain;
use sqlite::Database;
use statements::{Statements, TABLES};

const RUNNING: i64 = 0;
const VALIDATED: i64 = 1;
const COMMITTED: i64 = 2;
const ABORTED: i64 = 3;

// The statements come first, since they are dropped first.
pub struct Sql {
    statements: Statements,
    _database: Database,
}

fn ground_of(key: u16) -> i64 {
    (key >> 13).into()
}

impl Sql {
    pub fn new() -> Sql {
        let database = Database::in_memory();
        TABLES.iter().for_each(|sql| database.prepare(sql).run([]));
        let statements = Statements::new(&database);
        (0..CELLS).for_each(|key| statements.add_cell.run([key as i64]));
        Sql { statements, _database: database }
    }

    // A transaction's decision, -1 where it is Aborted; nothing while it is open.
    fn decision(&self, number: i64) -> Result<Option<i64>, Refusal> {
        let [is_open, decision] = self.statements.decision.first([number]).ok_or(Refusal::NeverBegun)?;
        Ok((is_open == 0).then_some(decision))
    }

    fn open(&self, number: i64) -> Result<(), Refusal> {
        match self.decision(number)? {
            None => Ok(()),
            Some(_) => Err(Refusal::AlreadyDecided),
        }
    }

    fn needs_row(&self, number: i64, ground: i64) -> Result<bool, Refusal> {
        match self.statements.row.first([number, ground]) {
            None => Ok(true),
            Some([RUNNING, _, _]) => Ok(false),
            Some(_) => Err(Refusal::NotRunning),
        }
    }
}

impl Calls for Sql {
    fn fresh(&mut self) {
        let its = &self.statements;
        its.end_day.run([]);
        its.begin_day.run([]);
        let books = [&its.no_transactions, &its.no_rows, &its.no_reads, &its.no_writes, &its.no_notes];
        books.iter().for_each(|book| book.run([]));
    }

    fn begin(&mut self, number: u32) -> Result<(), Refusal> {
        let number = i64::from(number);
        let Some([last]) = self.statements.last.first([]) else { unreachable!() };
        if number <= last || number > 4095 {
            return Err(Refusal::BadNumber);
        }
        if self.statements.count_transactions.first([]) == Some([64]) {
            return Err(Refusal::NoRoom);
        }
        self.statements.begin.run([number]);
        Ok(())
    }

    fn read(&mut self, number: u32, key: u16) -> Result<(i16, i32), Refusal> {
        let (number, ground, key) = (i64::from(number), ground_of(key), i64::from(key));
        let its = &self.statements;
        self.open(number)?;
        let [value, stamp] = its.cell.first([key]).ok_or(Refusal::NoSuchKey)?;
        let needs_row = self.needs_row(number, ground)?;
        if its.any_write.first([number]) == Some([1]) {
            return Err(Refusal::ReadAfterPrewrite);
        }
        if let Some([value, seen]) = its.read_line.first([number, key]) {
            return Ok((value as i16, seen as i32));
        }
        let Some([rows, reads, writes, notes]) = its.free.first([]) else { unreachable!() };
        let scarce = notes < 512 - writes;
        if reads == 0 || needs_row && rows == 0 || scarce && its.writers.first([key, number]) > Some([notes]) {
            return Err(Refusal::NoRoom);
        }
        its.note_before_writers.run([key, number]);
        if needs_row {
            its.add_row.run([number, ground]);
        }
        its.add_read.run([number, key, ground, value, stamp]);
        Ok((value as i16, stamp as i32))
    }

    fn prewrite(&mut self, number: u32, key: u16, value: i16) -> Result<(), Refusal> {
        let (number, ground, key, value) = (i64::from(number), ground_of(key), i64::from(key), i64::from(value));
        let its = &self.statements;
        self.open(number)?;
        its.cell.first::<1, 2>([key]).ok_or(Refusal::NoSuchKey)?;
        let needs_row = self.needs_row(number, ground)?;
        if its.set_write.first([number, key, value]) == Some([1]) {
            return Ok(());
        }
        let Some([rows, reads, writes, notes]) = its.free.first([]) else { unreachable!() };
        let locks = || its.readers.first([key, number]).zip(its.writers.first([key, number])).map(|([a], [b])| a + b);
        let scarce = notes < 1024 - reads - writes;
        if writes == 0 || needs_row && rows == 0 || scarce && locks() > Some(notes) {
            return Err(Refusal::NoRoom);
        }
        its.note_after_readers.run([key, number]);
        its.note_apart.run([key, number]);
        if needs_row {
            its.add_row.run([number, ground]);
        }
        its.add_write.run([number, key, ground, value]);
        Ok(())
    }

    fn validate(&mut self, number: u32, ground: u16) -> Result<Option<(i32, i32)>, Refusal> {
        let (number, ground) = (i64::from(number), i64::from(ground));
        let its = &self.statements;
        self.open(number)?;
        let [state, first_lower, first_upper] = its.row.first([number, ground]).ok_or(Refusal::NoRow)?;
        if state != RUNNING {
            return Err(Refusal::NotRunning);
        }
        let Some([seen]) = its.floor.first([number, ground]) else { unreachable!() };
        let Some([floor, ceiling, near_rows]) = its.findings.first([number, ground]) else { unreachable!() };
        let (lower, upper) = (first_lower.max(seen).max(floor), first_upper.min(ceiling));
        if lower > upper {
            its.set_row.run([number, ground, ABORTED, first_lower, first_upper]);
            return Ok(None);
        }
        // Near asks only whether there are rows that have to make way.
        let (lower, upper) = near(lower as i32, upper as i32, if near_rows > 0 { &[0] } else { &[] }, &[]);
        if near_rows > 0 {
            its.lower_befores.run([number, ground, lower.into()]);
            its.raise_afters.run([number, ground, upper.into()]);
        }
        its.set_row.run([number, ground, VALIDATED, lower.into(), upper.into()]);
        Ok(Some((lower, upper)))
    }

    fn decide(&mut self, number: u32) -> Result<Option<i32>, Refusal> {
        let number = i64::from(number);
        self.open(number)?;
        let Some([running, aborted, lower, upper]) = self.statements.rows_of.first([number]) else { unreachable!() };
        if running > 0 {
            return Err(Refusal::StillRunning);
        }
        let stamp = (aborted == 0 && lower <= upper).then_some(lower);
        self.statements.decide.run([number, stamp.unwrap_or(-1)]);
        Ok(stamp.map(|stamp| stamp as i32))
    }

    fn withdraw(&mut self, number: u32) -> Result<(), Refusal> {
        self.open(number.into())?;
        self.statements.decide.run([number.into(), -1]);
        Ok(())
    }

    fn settle(&mut self, number: u32, ground: u16) -> Result<(), Refusal> {
        let (number, ground) = (i64::from(number), i64::from(ground));
        let its = &self.statements;
        let decision = self.decision(number)?.ok_or(Refusal::NotDecided)?;
        let [state, lower, upper] = its.row.first([number, ground]).ok_or(Refusal::NoRow)?;
        if matches!(state, COMMITTED | ABORTED) {
            return Err(Refusal::AlreadySettled);
        }
        if decision < 0 {
            its.set_row.run([number, ground, ABORTED, lower, upper]);
            return Ok(());
        }
        its.set_row.run([number, ground, COMMITTED, decision, decision]);
        its.settle_reads.run([number, ground, decision]);
        its.settle_writes.run([number, ground, decision]);
        Ok(())
    }
}

impl Contender for Sql {
    fn name(&self) -> &'static str {
        "SQLite"
    }

    // Anew, so that what is measured does not depend on what was before.
    fn clear(&mut self) {
        *self = Sql::new();
    }

    fn days(&mut self, calls: &[Call], per_day: usize, answers: &mut [Answer]) {
        answer_days(self, calls, per_day, answers);
    }

    fn one_more(&mut self, call: &Call) -> Option<Answer> {
        Some(answer(self, call))
    }

    fn cells(&self) -> Vec<Cell> {
        let cell =
            |[value, write, read]: [i64; 3]| Cell { value: value as i16, write: write as i32, read: read as i32 };
        self.statements.cells.all().into_iter().map(cell).collect()
    }
}
