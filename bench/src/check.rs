//! Holds the contenders against each other.

use crate::call::{Answer, Contender};
use crate::days::{Random, any_day};

/// Has all of them answer random days, and stops at the first difference.
pub fn check(contenders: &mut [Box<dyn Contender>]) {
    let mut seen = [0u64; 12];
    for seed in 1..=2000 {
        let mut random = Random::new(seed);
        let many = 100 + random.below(1900) as usize;
        let calls = any_day(&mut random, many);
        // Now and then books are made fresh within a day.
        let per_day = if seed % 4 == 0 { calls.len() / 2 } else { calls.len() };
        let mut first = None;
        for contender in contenders.iter_mut() {
            contender.clear();
            let mut answers = vec![Answer::default(); calls.len()];
            contender.days(&calls, per_day, &mut answers);
            let outcome = (answers, contender.cells());
            let (answers, cells) = first.get_or_insert_with(|| outcome.clone());
            let differs = answers.iter().zip(&outcome.0).position(|(one, other)| one != other);
            if let Some(at) = differs {
                panic!(
                    "seed {seed}: {:?} is answered {:?}, and {} says {:?}",
                    calls[at],
                    answers[at],
                    contender.name(),
                    outcome.0[at]
                );
            }
            assert!(*cells == outcome.1, "seed {seed}: the cells of {} differ", contender.name());
        }
        first.into_iter().flat_map(|it| it.0).for_each(|answer| seen[answer.refusal as usize] += 1);
    }
    println!("2,000 random days: the same answers and cells. Accepted calls, and refusals 1 to 11: {seen:?}");
}
