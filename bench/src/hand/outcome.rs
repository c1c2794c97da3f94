//! The seven calls. What a read or a prewrite adds is in `access`.

use super::book::{Decision, Order, Places, Row, State, Transaction};
use super::{Hand, ground_of, place_of_row};
use crate::call::{Calls, Refusal, TOP, near};

// What the notes leave of a range, and the rows that have to make way.
struct Findings {
    lower: i32,
    upper: i32,
    befores: Places,
    afters: Places,
}

impl Hand {
    // The row of a transaction at a ground, with its place.
    fn row(&self, transaction: u32, ground: u16) -> Result<(usize, Row), Refusal> {
        let place = place_of_row(self.rows.lines(), transaction, ground).ok_or(Refusal::NoRow)?;
        Ok((place, self.rows.lines()[place]))
    }

    // The lowest stamp above all that the transaction saw or will overwrite at the ground.
    fn floor(&self, transaction: u32, ground: u16) -> i32 {
        let reads = self.reads.lines().iter();
        let reads = reads.filter(|line| line.transaction == transaction && ground_of(line.key) == ground);
        let floor = reads.fold(0, |floor, line| floor.max(line.seen + 1));
        let writes = self.writes.lines().iter();
        let writes = writes.filter(|line| line.transaction == transaction && ground_of(line.key) == ground);
        writes.fold(floor, |floor, line| {
            let cell = &self.cells[usize::from(line.key)];
            floor.max(cell.write.max(cell.read) + 1)
        })
    }

    fn findings(&self, transaction: u32, ground: u16, mut lower: i32, mut upper: i32) -> Findings {
        let mut befores = Places::default();
        let mut afters = Places::default();
        for note in self.notes.lines() {
            let is_first = note.first == transaction;
            if !is_first && note.second != transaction || ground_of(note.key) != ground {
                continue;
            }
            let other = if is_first { note.second } else { note.first };
            let Some(place) = place_of_row(self.rows.lines(), other, ground) else {
                continue;
            };
            let row = &self.rows.lines()[place];
            match (row.state, note.order) {
                (State::Aborted, _) => {}
                (State::Running, Order::Before) if !is_first => befores.add(place),
                (State::Running, _) => afters.add(place),
                (_, Order::Before) if is_first => upper = upper.min(row.lower - 1),
                _ => lower = lower.max(row.upper + 1),
            }
        }
        Findings { lower, upper, befores, afters }
    }

    // Takes a part of the range, and has the rows that are near make way for it.
    fn take(&mut self, found: &Findings) -> (i32, i32) {
        let Findings { lower, upper, befores, afters } = found;
        if befores.is_empty() && afters.is_empty() {
            return near(*lower, *upper, &[], &[]);
        }
        self.befores.clear();
        self.afters.clear();
        for (place, row) in self.rows.lines().iter().enumerate() {
            if befores.has(place) {
                self.befores.push(row.lower);
            }
            if afters.has(place) {
                self.afters.push(row.upper);
            }
        }
        let (lower, upper) = near(*lower, *upper, &self.befores, &self.afters);
        for (place, row) in self.rows.lines_mut().iter_mut().enumerate() {
            if befores.has(place) {
                row.upper = row.upper.min(lower - 1);
            }
            if afters.has(place) {
                row.lower = row.lower.max(upper + 1);
            }
        }
        (lower, upper)
    }

    // Writes a commit into the cells of a ground.
    fn settle_cells(&mut self, transaction: u32, ground: u16, stamp: i32) {
        for line in self.reads.lines() {
            if line.transaction == transaction && ground_of(line.key) == ground {
                let cell = &mut self.cells[usize::from(line.key)];
                cell.read = cell.read.max(stamp);
            }
        }
        for line in self.writes.lines() {
            if line.transaction == transaction && ground_of(line.key) == ground {
                let cell = &mut self.cells[usize::from(line.key)];
                if cell.write < stamp {
                    cell.value = line.value;
                    cell.write = stamp;
                }
            }
        }
    }
}

impl Calls for Hand {
    fn fresh(&mut self) {
        self.transactions.clear();
        self.rows.clear();
        self.reads.clear();
        self.writes.clear();
        self.notes.clear();
    }

    fn begin(&mut self, number: u32) -> Result<(), Refusal> {
        let last = self.transactions.lines().last().map_or(0, |line| line.number);
        if number <= last || number > 4095 {
            return Err(Refusal::BadNumber);
        }
        if self.transactions.free() == 0 {
            return Err(Refusal::NoRoom);
        }
        self.transactions.push(Transaction { number, decision: Decision::Open });
        Ok(())
    }

    fn read(&mut self, transaction: u32, key: u16) -> Result<(i16, i32), Refusal> {
        self.read_cell(transaction, key)
    }

    fn prewrite(&mut self, transaction: u32, key: u16, value: i16) -> Result<(), Refusal> {
        self.prewrite_cell(transaction, key, value)
    }

    fn validate(&mut self, transaction: u32, ground: u16) -> Result<Option<(i32, i32)>, Refusal> {
        self.open(transaction)?;
        let (place, row) = self.row(transaction, ground)?;
        if row.state != State::Running {
            return Err(Refusal::NotRunning);
        }
        let lower = row.lower.max(self.floor(transaction, ground));
        let found = self.findings(transaction, ground, lower, row.upper);
        if found.lower > found.upper {
            self.rows.lines_mut()[place].state = State::Aborted;
            return Ok(None);
        }
        let (lower, upper) = self.take(&found);
        self.rows.lines_mut()[place] = Row { state: State::Validated, lower, upper, ..row };
        Ok(Some((lower, upper)))
    }

    fn decide(&mut self, transaction: u32) -> Result<Option<i32>, Refusal> {
        self.open(transaction)?;
        let (mut lower, mut upper) = (0, TOP);
        for row in self.rows.lines().iter().filter(|row| row.transaction == transaction) {
            match row.state {
                State::Running => return Err(Refusal::StillRunning),
                // No stamp is left then, whatever the other rows allow.
                State::Aborted => upper = -1,
                _ => {}
            }
            lower = lower.max(row.lower);
            upper = upper.min(row.upper);
        }
        let stamp = (lower <= upper).then_some(lower);
        self.open(transaction)?.decision = stamp.map_or(Decision::Aborted, Decision::Committed);
        Ok(stamp)
    }

    fn withdraw(&mut self, transaction: u32) -> Result<(), Refusal> {
        self.open(transaction)?.decision = Decision::Aborted;
        Ok(())
    }

    fn settle(&mut self, transaction: u32, ground: u16) -> Result<(), Refusal> {
        let decision = self.transaction(transaction)?.decision;
        if decision == Decision::Open {
            return Err(Refusal::NotDecided);
        }
        let (place, row) = self.row(transaction, ground)?;
        if matches!(row.state, State::Committed | State::Aborted) {
            return Err(Refusal::AlreadySettled);
        }
        self.rows.lines_mut()[place] = match decision {
            Decision::Committed(stamp) => Row { state: State::Committed, lower: stamp, upper: stamp, ..row },
            _ => Row { state: State::Aborted, ..row },
        };
        if let Decision::Committed(stamp) = decision {
            self.settle_cells(transaction, ground, stamp);
        }
        Ok(())
    }
}
