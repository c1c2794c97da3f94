//! SQLite by itself: its own transactions over a table of values, without stamps, notes or rows. It takes one transaction at a time, and
//! so does less than the rules ask.

use super::sqlite::{Database, Statement};
use crate::call::{Answer, CELLS, Call, Calls, Cell, Contender, Refusal, answer_days};

// The statements come first, since they are dropped first.
pub struct Plain {
    begin: Statement,
    read: Statement,
    write: Statement,
    commit: Statement,
    roll_back: Statement,
    _database: Database,
}

impl Plain {
    pub fn new() -> Plain {
        let database = Database::in_memory();
        let prepare = |sql| database.prepare(sql);
        prepare("CREATE TABLE cells (key INTEGER PRIMARY KEY, value INTEGER)").run([]);
        let add = prepare("INSERT INTO cells VALUES (?1, 0)");
        (0..CELLS).for_each(|key| add.run([key as i64]));
        Plain {
            begin: prepare("BEGIN"),
            read: prepare("SELECT value FROM cells WHERE key = ?1"),
            write: prepare("UPDATE cells SET value = ?2 WHERE key = ?1"),
            commit: prepare("COMMIT"),
            roll_back: prepare("ROLLBACK"),
            _database: database,
        }
    }
}

impl Calls for Plain {
    fn fresh(&mut self) {}

    fn begin(&mut self, _: u32) -> Result<(), Refusal> {
        self.begin.run([]);
        Ok(())
    }

    fn read(&mut self, _: u32, key: u16) -> Result<(i16, i32), Refusal> {
        let [value] = self.read.first([key.into()]).ok_or(Refusal::NoSuchKey)?;
        Ok((value as i16, 0))
    }

    fn prewrite(&mut self, _: u32, key: u16, value: i16) -> Result<(), Refusal> {
        self.write.run([key.into(), value.into()]);
        Ok(())
    }

    fn validate(&mut self, _: u32, _: u16) -> Result<Option<(i32, i32)>, Refusal> {
        Ok(None)
    }

    fn decide(&mut self, _: u32) -> Result<Option<i32>, Refusal> {
        self.commit.run([]);
        Ok(None)
    }

    fn withdraw(&mut self, _: u32) -> Result<(), Refusal> {
        self.roll_back.run([]);
        Ok(())
    }

    fn settle(&mut self, _: u32, _: u16) -> Result<(), Refusal> {
        Ok(())
    }
}

impl Contender for Plain {
    fn name(&self) -> &'static str {
        "SQLite's own transactions"
    }

    fn keeps_the_rules(&self) -> bool {
        false
    }

    fn clear(&mut self) {
        *self = Plain::new();
    }

    fn days(&mut self, calls: &[Call], per_day: usize, answers: &mut [Answer]) {
        answer_days(self, calls, per_day, answers);
    }

    fn cells(&self) -> Vec<Cell> {
        Vec::new()
    }
}
