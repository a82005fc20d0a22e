//! A chain judged as a chain: configurations rewritten from the owner with
//! the list [10] to the asker with the list [10] or [11].

use super::entries::{ACCESS_ONLY, MAY_DELEGATE};
use super::request::Request;
use super::rules::Rule;

/// A key and a list of symbols, the first of them last in the vector.
#[derive(Clone, PartialEq, Eq, Hash, Debug)]
pub struct Configuration {
    pub key: usize,
    symbols: Vec<usize>,
}

impl Configuration {
    /// A key with a list of one symbol.
    pub fn of(key: usize, symbol: usize) -> Configuration {
        let symbols = vec![symbol];
        Configuration { key, symbols }
    }

    /// What the rule makes of it, if it applies.
    pub fn applied(mut self, rule: &Rule) -> Option<Configuration> {
        if self.key != rule.from || self.symbols.pop() != Some(rule.reads) {
            return None;
        }
        self.key = rule.to;
        self.symbols.extend(rule.writes.iter().rev());
        Some(self)
    }

    pub fn is_asker(&self, asker: u8) -> bool {
        let at_asker = self.key == usize::from(asker);
        at_asker && (self.symbols == [MAY_DELEGATE] || self.symbols == [ACCESS_ONLY])
    }

    /// How many symbols are still to be read.
    pub fn length(&self) -> usize {
        self.symbols.len()
    }
}

/// The minute of the chain, or what keeps it from being one. `rules` are
/// the usable certificates.
pub fn minute(rules: &[Rule], request: Request, chain: &[u8]) -> Result<u32, String> {
    let mut minute = u32::MAX;
    let mut here = Configuration::of(usize::from(request.owner), MAY_DELEGATE);
    for (place, &number) in chain.iter().enumerate() {
        let rule = rules.iter().find(|rule| rule.number == usize::from(number));
        let rule = rule.ok_or(format!("place {place}: certificate {number} is not usable"))?;
        here = here.applied(rule).ok_or(format!(
            "place {place}: certificate {number} does not apply"
        ))?;
        minute = minute.min(rule.not_after);
    }
    match here.is_asker(request.asker) {
        true => Ok(minute),
        false => Err(format!("the chain ends at {here:?}")),
    }
}
