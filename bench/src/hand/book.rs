//! Books of fixed room, and their lines.

pub struct Book<T, const N: usize> {
    lines: [T; N],
    count: usize,
}

impl<T: Copy + Default, const N: usize> Book<T, N> {
    pub fn new() -> Self {
        Book { lines: [T::default(); N], count: 0 }
    }

    pub fn clear(&mut self) {
        self.count = 0;
    }

    pub fn lines(&self) -> &[T] {
        &self.lines[..self.count]
    }

    pub fn lines_mut(&mut self) -> &mut [T] {
        &mut self.lines[..self.count]
    }

    pub fn free(&self) -> usize {
        N - self.count
    }

    /// Adds a line where there is room.
    pub fn push(&mut self, line: T) {
        self.lines[self.count] = line;
        self.count += 1;
    }
}

#[derive(Clone, Copy, Default, PartialEq)]
pub enum Decision {
    #[default]
    Open,
    Committed(i32),
    Aborted,
}

#[derive(Clone, Copy, Default)]
pub struct Transaction {
    pub number: u32,
    pub decision: Decision,
}

#[derive(Clone, Copy, Default, PartialEq)]
pub enum State {
    #[default]
    Running,
    Validated,
    Committed,
    Aborted,
}

#[derive(Clone, Copy, Default)]
pub struct Row {
    pub transaction: u32,
    pub ground: u16,
    pub state: State,
    pub lower: i32,
    pub upper: i32,
}

#[derive(Clone, Copy, Default)]
pub struct ReadLine {
    pub transaction: u32,
    pub key: u16,
    pub value: i16,
    pub seen: i32,
}

#[derive(Clone, Copy, Default)]
pub struct WriteLine {
    pub transaction: u32,
    pub key: u16,
    pub value: i16,
}

#[derive(Clone, Copy, Default, PartialEq)]
pub enum Order {
    #[default]
    Before,
    Apart,
}

#[derive(Clone, Copy, Default)]
pub struct Note {
    pub key: u16,
    pub order: Order,
    pub first: u32,
    pub second: u32,
}

/// A set of row numbers.
#[derive(Default)]
pub struct Places([u64; 4]);

impl Places {
    pub fn add(&mut self, place: usize) {
        self.0[place / 64] |= 1 << (place % 64);
    }

    pub fn has(&self, place: usize) -> bool {
        self.0[place / 64] >> (place % 64) & 1 == 1
    }

    pub fn is_empty(&self) -> bool {
        self.0 == [0; 4]
    }
}
