//! Choices by weight. Each has a name, "group: choice", so that a run can tell how often it was made.
use crate::rng::Rng;
use std::collections::BTreeSet;

/// Weight, name and what is chosen.
pub type Choice<A> = (u64, &'static str, A);

/// Makes cases of trees.
pub struct Maker {
    pub rng: Rng,
    /// The names of all choices that were ever on offer.
    pub offered: BTreeSet<&'static str>,
    /// Those that were made for the case in hand.
    pub chosen: BTreeSet<&'static str>,
    /// How heavy regions and ranges weigh in this tree that fit well, against those at edges. Few ways lead through
    /// several buses otherwise.
    pub fitting: u64,
}

impl Maker {
    pub fn new(seed: u64) -> Self {
        Self { rng: Rng::new(seed), offered: BTreeSet::new(), chosen: BTreeSet::new(), fitting: 0 }
    }

    pub fn note(&mut self, name: &'static str) {
        self.offered.insert(name);
        self.chosen.insert(name);
    }

    /// One of these, by weight. Its name is for the caller to note.
    pub fn draw<A: Copy>(&mut self, from: &[Choice<A>]) -> (&'static str, A) {
        self.offered.extend(from.iter().map(|(_, name, _)| name));
        let mut left = self.rng.below(from.iter().map(|(weight, ..)| weight).sum());
        for (weight, name, chosen) in from {
            if left < *weight {
                return (name, *chosen);
            }
            left -= weight;
        }
        unreachable!("what is left is below the sum of the weights")
    }

    pub fn choose<A: Copy>(&mut self, from: &[Choice<A>]) -> A {
        let (name, chosen) = self.draw(from);
        self.note(name);
        chosen
    }

    /// Whether to do it, once in so many times.
    pub fn maybe(&mut self, name: &'static str, one_in: u64) -> bool {
        self.offered.insert(name);
        let chosen = self.rng.one_in(one_in);
        if chosen {
            self.note(name);
        }
        chosen
    }

    /// A place among so many, which are not none.
    pub fn place(&mut self, len: usize) -> usize {
        self.rng.below(len as u64) as usize
    }
}
