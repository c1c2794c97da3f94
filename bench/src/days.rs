//! The days that are measured, and random ones on which the contenders are held against each other.

use crate::call::{Call, Kind};

/// Xorshift, so that every run has the same days.
pub struct Random(u64);

impl Random {
    pub fn new(seed: u64) -> Random {
        Random(seed.wrapping_mul(0x9E37_79B9_7F4A_7C15) | 1)
    }

    pub fn below(&mut self, bound: u32) -> u32 {
        self.0 ^= self.0 << 13;
        self.0 ^= self.0 >> 7;
        self.0 ^= self.0 << 17;
        (((self.0 >> 32) * u64::from(bound)) >> 32) as u32
    }

    fn key(&mut self, keys: u32) -> u16 {
        self.below(keys) as u16
    }
}

/// How many transactions a day has, and how many calls each of them makes.
pub const TRANSACTIONS: u32 = 64;
pub const STEPS: usize = 8;
pub const PER_DAY: usize = TRANSACTIONS as usize * STEPS;

/// What one transaction does: two reads, two prewrites (of a cell that it read and of another one), and what settles them.
pub fn errand(random: &mut Random, transaction: u32, keys: u32) -> [Call; STEPS] {
    let call = |kind, key, value| Call::new(kind, transaction, key, value);
    let [first, second, third] = [(); 3].map(|()| random.key(keys));
    [
        call(Kind::Begin, 0, 0),
        call(Kind::Read, first, 0),
        call(Kind::Read, second, 0),
        call(Kind::Prewrite, first, random.below(1000) as i16),
        call(Kind::Prewrite, third, -(random.below(1000) as i16)),
        call(Kind::Validate, 0, 0),
        call(Kind::Decide, 0, 0),
        call(Kind::Settle, 0, 0),
    ]
}

/// A day of 64 transactions, so many side by side, on so many of the cells.
pub fn day(random: &mut Random, side_by_side: u32, keys: u32) -> Vec<Call> {
    let mut calls = Vec::with_capacity(PER_DAY);
    for group in 0..TRANSACTIONS / side_by_side {
        let numbers = group * side_by_side + 1..=(group + 1) * side_by_side;
        let errands: Vec<_> = numbers.map(|number| errand(random, number, keys)).collect();
        calls.extend((0..STEPS).flat_map(|step| errands.iter().map(move |errand| errand[step])));
    }
    calls
}

/// A day of any calls, mostly ones that are accepted, on few keys and now and then one that the store does not have.
pub fn any_day(random: &mut Random, calls: usize) -> Vec<Call> {
    let keys = [2, 8, 40][random.below(3) as usize];
    let mut begun = 0;
    let mut last = 0;
    let mut any = || {
        let kind = match random.below(32) {
            0..=2 => Kind::Begin,
            3..=12 => Kind::Read,
            13..=20 => Kind::Prewrite,
            21..=24 => Kind::Validate,
            25..=27 => Kind::Decide,
            28 => Kind::Withdraw,
            _ => Kind::Settle,
        };
        if kind == Kind::Begin && begun < TRANSACTIONS && random.below(8) > 0 {
            begun += 1;
            last += 1 + random.below(2);
            return Call::new(kind, last, 0, 0);
        }
        let transaction = (last + random.below(2)).saturating_sub(random.below(8));
        let is_access = matches!(kind, Kind::Read | Kind::Prewrite);
        let key = match (is_access, random.below(40)) {
            (true, 0) => 1024 + random.key(60_000),
            (true, _) => random.key(keys),
            (false, 0) => random.key(10),
            (false, _) => 0,
        };
        Call::new(kind, transaction, key, random.key(2000) as i16 - 1000)
    };
    (0..calls).map(|_| any()).collect()
}
