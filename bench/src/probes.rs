//! What is counted in instructions: whole days, single calls in the middle of a day, and calls where many meet.

use crate::call::{Answer, Call, Contender, Kind, Kind::*};
use crate::callgrind::counted;
use crate::days::{PER_DAY, Random, errand};
use crate::times::{KINDS, days};

/// Calls, and after how many of them books are made fresh.
type Days = (Vec<Call>, usize);

/// What the second days take more than the first ones, for each of so many calls. A single call is the last one of the second day.
pub struct Probe {
    pub name: String,
    less: Days,
    more: Days,
    pub calls: usize,
    // The refusal by which the last call is answered, or 0.
    refusal: u32,
}

pub struct Table {
    pub title: &'static str,
    pub probes: Vec<Probe>,
}

fn call(kind: Kind, transaction: u32, key: u16) -> Call {
    Call::new(kind, transaction, key, 7)
}

// The last of some calls on one transaction.
fn last_of(name: &str, refusal: u32, before: &[Call], transaction: u32, steps: &[(Kind, u16)]) -> Probe {
    let mut more = before.to_vec();
    more.extend(steps.iter().map(|&(kind, key)| call(kind, transaction, key)));
    let less = more[..more.len() - 1].to_vec();
    let per_day = more.len();
    Probe { name: name.into(), less: (less, per_day), more: (more, per_day), calls: 1, refusal }
}

fn whole_days() -> Vec<Probe> {
    let by_kind = KINDS.map(|(name, side_by_side, keys)| Probe {
        name: format!("a call of a day, {name}"),
        less: (days(side_by_side, keys, 1), PER_DAY),
        more: (days(side_by_side, keys, 2), PER_DAY),
        calls: PER_DAY,
        refusal: 0,
    });
    // One call a day beside all in one day; the books are as good as empty in both.
    let refused = vec![call(Decide, 1, 0); 101];
    let fresh =
        Probe { name: "fresh books".into(), less: (refused.clone(), 101), more: (refused, 1), calls: 100, refusal: 3 };
    by_kind.into_iter().chain([fresh]).collect()
}

// 64 transactions that fill the book of notes on the keys 1 and 2. The last seventeen have prewritten nothing.
fn full_of_notes() -> Vec<Call> {
    let all = 1..=64;
    let begun = all.clone().map(|number| call(Begin, number, 0));
    let readers = all.map(|number| call(Read, number, 1)).chain((48..=64).map(|number| call(Read, number, 2)));
    let writers =
        (1..=47).map(|number| call(Prewrite, number, 1)).chain((1..=3).map(|number| call(Prewrite, number, 2)));
    begun.chain(readers).chain(writers).collect()
}

fn single_calls() -> Vec<Probe> {
    let mut random = Random::new(3);
    let morning: Vec<Call> = (1..=32).flat_map(|number| errand(&mut random, number, 1024)).collect();
    let full = full_of_notes();
    let with_lock: Vec<Call> = full.iter().copied().chain([call(Prewrite, 5, 3)]).collect();
    let at = |name, refusal, steps: &[(Kind, u16)]| last_of(name, refusal, &morning, 33, steps);
    let of = |name, refusal, transaction, step| last_of(name, refusal, &morning, transaction, &[step]);
    const BEGIN: (Kind, u16) = (Begin, 0);
    const READ: (Kind, u16) = (Read, 5);
    const WRITE: (Kind, u16) = (Prewrite, 5);
    const VALIDATE: (Kind, u16) = (Validate, 0);
    const DECIDE: (Kind, u16) = (Decide, 0);
    const WITHDRAW: (Kind, u16) = (Withdraw, 0);
    const SETTLE: (Kind, u16) = (Settle, 0);
    let errand = [BEGIN, READ, (Read, 6), WRITE, (Prewrite, 7), VALIDATE, DECIDE, SETTLE, SETTLE];
    vec![
        at("begin", 0, &[BEGIN]),
        at("read, the first at its ground", 0, &[BEGIN, READ]),
        at("read, another cell", 0, &[BEGIN, READ, (Read, 6)]),
        at("read, once more", 0, &[BEGIN, READ, READ]),
        at("prewrite, the first at its ground", 0, &[BEGIN, WRITE]),
        at("prewrite, another cell", 0, &[BEGIN, WRITE, (Prewrite, 6)]),
        at("prewrite, once more", 0, &[BEGIN, WRITE, WRITE]),
        at("validate, two reads and two prewrites", 0, &errand[..6]),
        at("decide", 0, &errand[..7]),
        at("withdraw", 0, &[BEGIN, READ, WITHDRAW]),
        at("settle, two reads and two prewrites", 0, &errand[..8]),
        at("settle, withdrawn", 0, &[BEGIN, READ, WITHDRAW, SETTLE]),
        of("begin, refused with 1", 1, 5, BEGIN),
        last_of("begin, refused with 2", 2, &full, 65, &[BEGIN]),
        of("read, refused with 3", 3, 40, READ),
        of("read, refused with 4", 4, 9, READ),
        at("read, refused with 11", 11, &[BEGIN, (Read, 2000)]),
        at("read, refused with 5", 5, &[BEGIN, READ, VALIDATE, READ]),
        at("read, refused with 7", 7, &[BEGIN, WRITE, READ]),
        last_of("read, refused with 2", 2, &with_lock, 64, &[(Read, 3)]),
        of("prewrite, refused with 3", 3, 40, WRITE),
        of("prewrite, refused with 4", 4, 9, WRITE),
        at("prewrite, refused with 11", 11, &[BEGIN, (Prewrite, 2000)]),
        at("prewrite, refused with 5", 5, &[BEGIN, READ, VALIDATE, WRITE]),
        last_of("prewrite, refused with 2", 2, &full, 64, &[(Prewrite, 1)]),
        of("validate, refused with 3", 3, 40, VALIDATE),
        of("validate, refused with 4", 4, 9, VALIDATE),
        at("validate, refused with 6", 6, &[BEGIN, VALIDATE]),
        at("validate, refused with 5", 5, &[BEGIN, READ, VALIDATE, VALIDATE]),
        of("decide, refused with 3", 3, 40, DECIDE),
        of("decide, refused with 4", 4, 9, DECIDE),
        at("decide, refused with 8", 8, &[BEGIN, READ, DECIDE]),
        of("withdraw, refused with 3", 3, 40, WITHDRAW),
        of("withdraw, refused with 4", 4, 9, WITHDRAW),
        of("settle, refused with 3", 3, 40, SETTLE),
        at("settle, refused with 9", 9, &[BEGIN, READ, SETTLE]),
        at("settle, refused with 6", 6, &[BEGIN, WITHDRAW, SETTLE]),
        at("settle, refused with 10", 10, &errand),
    ]
}

fn growth() -> Vec<Probe> {
    // The others do one call each on the key, then the last transaction does its steps.
    let crowded = |name: &str, others: Kind, steps: &[(Kind, u16)]| {
        [1, 8, 32, 64].map(|many| {
            let begun = (1..many).map(|number| call(Begin, number, 0));
            let before: Vec<_> = begun.chain((1..many).map(|number| call(others, number, 1))).collect();
            last_of(&format!("{name}, {many} on the key"), 0, &before, many, steps)
        })
    };
    let full = full_of_notes();
    let noted = |name, step| [last_of(name, 0, &full, 63, &[step])];
    let reads = crowded("read", Prewrite, &[(Begin, 0), (Read, 1)]);
    let prewrites = crowded("prewrite", Read, &[(Begin, 0), (Prewrite, 1)]);
    let validations = crowded("validate", Read, &[(Begin, 0), (Prewrite, 1), (Validate, 0)]);
    let reads = reads.into_iter().chain(noted("read, 4,096 notes", (Read, 4)));
    let prewrites = prewrites.into_iter().chain(noted("prewrite, 4,096 notes", (Prewrite, 4)));
    let validations = validations.into_iter().chain(noted("validate, 4,096 notes", (Validate, 0)));
    reads.chain(prewrites).chain(validations).collect()
}

pub fn tables() -> [Table; 3] {
    [
        Table { title: "Whole days", probes: whole_days() },
        Table { title: "Each call, after 32 transactions of a day", probes: single_calls() },
        Table { title: "Where many meet", probes: growth() },
    ]
}

/// The names under which a probe's two runs are counted.
pub fn names(probe: &Probe, contender: &dyn Contender) -> [String; 2] {
    ["less", "more"].map(|which| format!("{}: {}, {which}", contender.name(), probe.name))
}

fn answers_to(days: &Days) -> Vec<Answer> {
    vec![Answer::default(); days.0.len()]
}

// Each run is made once before it is counted, so that nothing is done in it for the first time.
fn count_run(contender: &mut dyn Contender, days: &Days, name: &str) {
    let mut answers = answers_to(days);
    contender.clear();
    contender.days(&days.0, days.1, &mut answers);
    contender.clear();
    counted(name, || contender.days(&days.0, days.1, &mut answers));
}

// Counts both days, or a single call by itself where the contender can be asked so.
fn count_probe(contender: &mut dyn Contender, probe: &Probe) {
    let [less, more] = names(probe, contender);
    let mut answers = answers_to(&probe.more);
    contender.clear();
    contender.days(&probe.more.0, probe.more.1, &mut answers);
    assert_eq!(answers.last().map(|answer| answer.refusal), Some(probe.refusal), "{more}");
    let last = probe.more.0.last().filter(|_| probe.calls == 1);
    contender.days(&probe.less.0, probe.less.1, &mut answers);
    if last.is_some_and(|call| contender.one_more(call).is_some()) {
        contender.days(&probe.less.0, probe.less.1, &mut answers);
        counted(&more, || last.and_then(|call| contender.one_more(call)));
    } else {
        count_run(contender, &probe.less, &less);
        count_run(contender, &probe.more, &more);
    }
}

/// Has every probe counted by callgrind.
pub fn count(contenders: &mut [Box<dyn Contender>]) {
    for probe in tables().iter().flat_map(|table| &table.probes) {
        contenders.iter_mut().for_each(|contender| count_probe(&mut **contender, probe));
    }
}
