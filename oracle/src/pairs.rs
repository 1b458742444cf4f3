//! What document 02's paper 11 says of the pairs that a cast tries, and how often each sort of cast was met.

use crate::rows::Cast;

/// Casts by the pair that fits.
#[derive(Clone, Copy, Debug, Default, PartialEq, Eq)]
pub struct Casts {
    /// Neither type has a distinct alias at its top, so there is one pair.
    pub single: usize,
    /// Of several pairs the first fits, the last of all, one between.
    pub first: usize,
    pub last: usize,
    pub between: usize,
    /// Of several pairs none fits.
    pub none: usize,
    /// The most pairs tried.
    pub most: u64,
}

impl Casts {
    /// Counts a cast between types with so many distinct aliases at their tops; or what of paper 11 is not so.
    pub fn count(&mut self, source: usize, target: usize, cast: Cast) -> Result<(), String> {
        let Cast { castable, pairs } = cast;
        let all = (source as u64 + 1) * (target as u64 + 1);
        if pairs == 0 || pairs > all || !castable && pairs < all {
            return Err(format!("castable {castable} after {pairs} of {all} pairs"));
        }
        *match (castable, pairs) {
            _ if all == 1 => &mut self.single,
            (false, _) => &mut self.none,
            (true, 1) => &mut self.first,
            (true, pairs) if pairs == all => &mut self.last,
            (true, _) => &mut self.between,
        } += 1;
        self.most = self.most.max(pairs);
        Ok(())
    }

    pub fn add(&mut self, other: Casts) {
        self.single += other.single;
        self.first += other.first;
        self.last += other.last;
        self.between += other.between;
        self.none += other.none;
        self.most = self.most.max(other.most);
    }

    pub fn text(&self) -> String {
        let Casts { single, first, last, between, none, most } = self;
        let all = single + first + last + between + none;
        format!(
            "casts {all}: of one pair {single}; of several the first fits {first}, the last of all {last}, \
             one between {between}, none {none}; most pairs {most}\n"
        )
    }
}
