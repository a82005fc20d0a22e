//! Places lent to a proved call, with a margin on both sides, and what they
//! must hold afterwards.

use std::fmt::LowerHex;

/// Places kept before and after each lent place.
const MARGIN: usize = 32;

pub struct Lending<T> {
    before: Vec<T>,
    whole: Vec<T>,
}

impl<T: Copy + PartialEq + LowerHex> Lending<T> {
    /// Lends these places; the margins hold `fill`.
    pub fn of(held: &[T], fill: T) -> Lending<T> {
        let margin = [fill; MARGIN];
        let before = [&margin, held, &margin].concat();
        let whole = before.clone();
        Lending { before, whole }
    }

    pub fn lent(&mut self) -> &mut [T] {
        let end = self.whole.len() - MARGIN;
        &mut self.whole[MARGIN..end]
    }

    /// Passes if the first places hold `first` and all others are as before.
    pub fn holds(&self, name: &str, first: &[T]) -> Result<(), String> {
        let mut expected = self.before.clone();
        expected[MARGIN..MARGIN + first.len()].copy_from_slice(first);
        if expected == self.whole {
            return Ok(());
        }
        let mut told = String::new();
        let pairs = expected.iter().zip(&self.whole).enumerate();
        for (place, (one, other)) in pairs.filter(|(_, (one, other))| one != other).take(8) {
            let place = place as i64 - MARGIN as i64;
            told += &format!("\n  {name} place {place}: second {one:#x}, proved {other:#x}");
        }
        Err(told)
    }
}

/// What 32-bit places hold before a call.
pub fn pattern(places: usize) -> Vec<u32> {
    (0..places as u32)
        .map(|place| 0xA5A5_5A5A ^ place)
        .collect()
}

/// What the chain's places hold before a call: no certificate's number.
pub fn chain_pattern(places: usize) -> Vec<u8> {
    (0..places).map(|place| 128 | place as u8).collect()
}
