//! A question as it is made, the places lent for it, and requests at a limit.

use super::random::Random;
use crate::decision::entries::ENTRIES;
use crate::decision::{Places, Request, CHAIN_PLACES};

/// What is asked about a file, and with which places.
pub struct Question {
    pub file: Vec<u8>,
    pub request: Request,
    pub places: Places,
    /// How many steps the best chain takes, where the file was made for it.
    pub known: Option<u32>,
}

/// One or two parts of the request go to a limit or past it.
pub fn bend(request: &mut Request, random: &mut Random) {
    for _ in 0..random.within(1, 2) {
        match random.below(4) {
            0 => request.owner = random.one_of(&[0, 15, 16, 17, 255]),
            1 => request.asker = random.one_of(&[0, 15, 16, 17, 255]),
            2 => request.rights = random.one_of(&[0, 0, 15, 16, 16, 17, 18, 31, 255]),
            _ => request.at = random.one_of(&[0, 0, 1, u32::MAX]),
        }
    }
}

/// Mostly enough places; else one kind short, or more than needed.
pub fn places(random: &mut Random) -> Places {
    let mut places = Places::ENOUGH;
    if random.once_in(3) {
        places.minutes = random.one_of(&[ENTRIES, ENTRIES + 8]);
        places.steps = random.one_of(&[ENTRIES, ENTRIES + 8]);
        places.chain = random.one_of(&[CHAIN_PLACES, CHAIN_PLACES + 10]);
    }
    if random.once_in(20) {
        match random.below(4) {
            0 => places.minutes = ENTRIES - 1,
            1 => places.steps = ENTRIES - 1,
            2 => places.chain = CHAIN_PLACES - 1,
            _ => places = any_places(random),
        }
    }
    places
}

fn any_places(random: &mut Random) -> Places {
    Places {
        minutes: random.one_of(&[0, 1, ENTRIES - 1, ENTRIES]),
        steps: random.one_of(&[0, 1, ENTRIES - 1, ENTRIES]),
        chain: random.one_of(&[0, 1, CHAIN_PLACES - 1, CHAIN_PLACES]),
    }
}
