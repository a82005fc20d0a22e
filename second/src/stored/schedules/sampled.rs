//! Stored schedules that are made at random from a fixed seed.

use super::schedule::Schedule;
use crate::making::random::Random;
use crate::making::scheduling::schedule;

const SEED: u64 = 40;
/// So many are stored of each share.
const EACH: usize = 6;
/// So many are made, which is enough to fill every share.
const TRIES: usize = 200;
/// The longest input of a random schedule that is stored.
const LONGEST: usize = 1_500;

/// What is wanted of the exchanges a schedule needs at its end.
const SHARES: [std::ops::Range<usize>; 4] = [0..1, 1..2, 2..4, 4..100];

pub fn schedules() -> Vec<Schedule> {
    let mut random = Random::new(SEED);
    let mut left = [EACH; SHARES.len()];
    let mut schedules = Vec::new();
    for _ in 0..TRIES {
        let made = schedule(&mut random).expect("a random schedule comes to rest");
        let input = made.input();
        let share = SHARES
            .iter()
            .position(|share| share.contains(&made.exchanges));
        let Some(share) = share.filter(|&share| left[share] > 0) else {
            continue;
        };
        if (LONGEST / 3..LONGEST).contains(&input.len()) {
            left[share] -= 1;
            let name = format!("sampled-{}", schedules.len());
            schedules.push(Schedule { name, input });
        }
    }
    assert_eq!(left, [0; SHARES.len()], "every share is filled");
    schedules
}
