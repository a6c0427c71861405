//! Images that break rules behind number 6, one or several at a time.

use super::RULES;
use crate::breaches::broken_rule;
use crate::cases::LARGEST;
use crate::damage::{self, Damage};
use crate::good;
use crate::numbers::OTHER_RULE;
use crate::rng::Rng;

/// How many damaged images there are of the largest tables.
const LARGE: usize = 3;

/// The damages that give number 6.
pub struct Damages {
    all: Vec<Damage>,
    /// The same by rule, from rule 1 on.
    by_rule: Vec<Vec<Damage>>,
}

impl Damages {
    /// All of them. A damage is one of the rule that it breaks first in some
    /// image, and each rule has one.
    pub fn named() -> Damages {
        let mut rng = Rng::new(0);
        let mut by_rule: Vec<Vec<Damage>> = (0..RULES).map(|_| Vec::new()).collect();
        for damage in damage::of_number(OTHER_RULE) {
            let [_, rule, ..] = broken_rule(&damage.applied(&mut rng));
            by_rule[usize::from(rule) - 1].push(damage);
        }
        assert!(by_rule.iter().all(|damages| !damages.is_empty()));
        Damages { all: damage::of_number(OTHER_RULE), by_rule }
    }

    /// A damage of any rule, each as often as another.
    fn of_any_rule(&self, rng: &mut Rng) -> &Damage {
        let damages = rng.pick(&self.by_rule);
        rng.pick(damages)
    }

    /// Images in most of which a rule is broken: by one damage, by the same
    /// damage again, by several, by words changed at random; and a good one.
    pub fn family(&self, rng: &mut Rng) -> Vec<Vec<u16>> {
        let kernel = good::kernel(rng);
        let [one, other, again] = [(); 3].map(|()| self.of_any_rule(rng));
        vec![
            kernel.encode(),
            one.applied(rng),
            other.applied(rng),
            damage::repeated(rng, again),
            damage::repeated(rng, one),
            damage::several(rng, &kernel, &self.all),
            damage::scattered(rng, &kernel),
            damage::scattered(rng, &kernel),
            damage::guess(rng, &kernel),
        ]
    }

    /// Images of the largest tables in which rules are broken.
    pub fn large(&self, rng: &mut Rng) -> Vec<Vec<u16>> {
        let widest = good::framed(rng, LARGEST);
        (0..LARGE).map(|_| damage::several(rng, &widest, &self.all)).collect()
    }
}
