//! The calls of a day, what they are answered, and whoever answers them.

/// What is called.
#[derive(Clone, Copy, Debug, PartialEq, Eq)]
#[repr(u32)]
pub enum Kind {
    Begin = 1,
    Read,
    Prewrite,
    Validate,
    Decide,
    Withdraw,
    Settle,
}

/// A call. Where it names a ground, the key is the ground.
#[derive(Clone, Copy, Debug)]
#[repr(C)]
pub struct Call {
    pub kind: Kind,
    pub transaction: u32,
    pub key: u16,
    pub value: i16,
}

impl Call {
    pub fn new(kind: Kind, transaction: u32, key: u16, value: i16) -> Call {
        Call { kind, transaction, key, value }
    }
}

/// An answer: the refusal's number, or 0 and one or two numbers. What was aborted answers -1 and -1, what has nothing to say 0 and 0.
#[derive(Clone, Copy, Debug, Default, PartialEq, Eq)]
#[repr(C)]
pub struct Answer {
    pub refusal: u32,
    pub first: i32,
    pub second: i32,
}

/// Why a call is refused.
#[derive(Clone, Copy)]
pub enum Refusal {
    BadNumber = 1,
    NoRoom,
    NeverBegun,
    AlreadyDecided,
    NotRunning,
    NoRow,
    ReadAfterPrewrite,
    StillRunning,
    NotDecided,
    AlreadySettled,
    NoSuchKey,
}

/// The largest stamp.
pub const TOP: i32 = 268_435_455;

/// How many cells there are, all of ground 0.
pub const CELLS: usize = 1024;

#[derive(Clone, Copy, Debug, Default, PartialEq, Eq)]
pub struct Cell {
    pub value: i16,
    pub write: i32,
    pub read: i32,
}

/// What the policy Near takes of a range.
pub fn near(lower: i32, upper: i32, befores: &[i32], afters: &[i32]) -> (i32, i32) {
    if befores.is_empty() && afters.is_empty() { (lower, upper) } else { (lower, upper.min(lower + 1023)) }
}

/// One who answers days of calls over 1,024 cells.
pub trait Contender {
    fn name(&self) -> &'static str;

    /// Makes all cells zero.
    fn clear(&mut self);

    /// Answers the calls, with fresh books after every `per_day` of them.
    fn days(&mut self, calls: &[Call], per_day: usize, answers: &mut [Answer]);

    /// Answers one more call on the books as the last day left them, where its days do not always take the same instructions.
    fn one_more(&mut self, _call: &Call) -> Option<Answer> {
        None
    }

    /// Whether it answers as the rules say, and any number of transactions side by side.
    fn keeps_the_rules(&self) -> bool {
        true
    }

    fn cells(&self) -> Vec<Cell>;
}

/// The seven calls as methods, on books that can be made fresh.
pub trait Calls {
    fn fresh(&mut self);
    fn begin(&mut self, transaction: u32) -> Result<(), Refusal>;
    fn read(&mut self, transaction: u32, key: u16) -> Result<(i16, i32), Refusal>;
    fn prewrite(&mut self, transaction: u32, key: u16, value: i16) -> Result<(), Refusal>;
    /// The range that is left, or nothing where the row is Aborted.
    fn validate(&mut self, transaction: u32, ground: u16) -> Result<Option<(i32, i32)>, Refusal>;
    /// The commit stamp, or nothing.
    fn decide(&mut self, transaction: u32) -> Result<Option<i32>, Refusal>;
    fn withdraw(&mut self, transaction: u32) -> Result<(), Refusal>;
    fn settle(&mut self, transaction: u32, ground: u16) -> Result<(), Refusal>;
}

fn numbers(register: &mut impl Calls, call: &Call) -> Result<(i32, i32), Refusal> {
    const ABORTED: (i32, i32) = (-1, -1);
    let &Call { kind, transaction, key, value } = call;
    Ok(match kind {
        Kind::Begin => register.begin(transaction).map(|()| (0, 0))?,
        Kind::Read => register.read(transaction, key).map(|(value, stamp)| (value.into(), stamp))?,
        Kind::Prewrite => register.prewrite(transaction, key, value).map(|()| (0, 0))?,
        Kind::Validate => register.validate(transaction, key)?.unwrap_or(ABORTED),
        Kind::Decide => register.decide(transaction)?.map_or(ABORTED, |stamp| (stamp, 0)),
        Kind::Withdraw => register.withdraw(transaction).map(|()| ABORTED)?,
        Kind::Settle => register.settle(transaction, key).map(|()| (0, 0))?,
    })
}

/// Has a call answered through the methods.
pub fn answer(register: &mut impl Calls, call: &Call) -> Answer {
    match numbers(register, call) {
        Ok((first, second)) => Answer { refusal: 0, first, second },
        Err(refusal) => Answer { refusal: refusal as u32, ..Answer::default() },
    }
}

/// Has days of calls answered through the methods.
pub fn answer_days(register: &mut impl Calls, calls: &[Call], per_day: usize, answers: &mut [Answer]) {
    for (day, answers) in calls.chunks(per_day).zip(answers.chunks_mut(per_day)) {
        register.fresh();
        for (call, slot) in day.iter().zip(answers) {
            *slot = answer(register, call);
        }
    }
}
