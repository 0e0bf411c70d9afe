//! Lists of jumps to try, and what comes of them with the whole buffer of places.

use crate::ffi::{self, TOUCHED};
use crate::model::{self, Answer};
use crate::random::Random;

#[derive(Debug)]
pub struct List {
    pub ranks: Vec<u64>,
    /// How many places are lent.
    pub places: usize,
}

impl List {
    /// Neighbours, spread or repeated ranks below N; now and then with ranks from N on, a fall, or too few places.
    pub fn random(random: &Random, n: u64) -> List {
        let count = random.pick(&[0, 1, 2, 2, 3, 5, 8, 40, 63, 64, 65, 66, 100 + random.below(300)]);
        let from = random.below(n.saturating_sub(count).saturating_add(1));
        let shape = random.below(6);
        let often = 1 + random.below(4);
        let few = [random.below(n), random.below(n), from];
        let mut ranks: Vec<u64> = (0..count)
            .map(|i| match shape {
                0 => from + i,
                1 => (i as u128 * n as u128 / count as u128) as u64,
                2 => random.below(n),
                3 => from + i / often,
                4 => random.pick(&few),
                _ => from.saturating_add(random.below(4 * count)),
            })
            .map(|rank| rank.min(n.saturating_sub(1)))
            .collect();
        ranks.sort();

        // The first, one in the middle, the last, the first after 64 others, or any.
        let place =
            || random.pick(&[0, count / 2, count, 64, random.below(count)]).min(count.saturating_sub(1)) as usize;
        if random.one_in(8) {
            let past = n.saturating_add(random.pick(&[0, 0, 1, random.next()]));
            ranks[place()..].fill(past);
        }
        if random.one_in(8) && count > 1 {
            let at = place().max(1);
            ranks.swap(at - 1, at);
        }
        let places = match random.below(16) {
            0 => random.below(count),
            1 => count.saturating_sub(1),
            _ => count + random.below(4),
        };
        List { ranks, places: places as usize }
    }

    /// The buffer before a call: longer than the list and than what is lent, each place another number, none a position.
    fn blank(&self) -> Vec<u64> {
        (0..self.ranks.len().max(self.places) as u64 + 3).map(|i| !i).collect()
    }

    /// The library's buffer after the call and the words read. As in ffi, a refusal that altered a place is `TOUCHED`.
    pub fn ours(&self, index: &ffi::Index) -> Answer<(Vec<u64>, u64)> {
        let mut buffer = self.blank();
        match index.list(&self.ranks, &mut buffer[..self.places]) {
            Ok(words) => Ok((buffer, words)),
            Err(refusal) if buffer == self.blank() => Err(refusal),
            Err(refusal) => Err(TOUCHED + refusal),
        }
    }

    /// The same by the model.
    pub fn expected(&self, index: &model::Index) -> Answer<(Vec<u64>, u64)> {
        let (positions, words) = index.list(&self.ranks, self.places)?;
        let mut buffer = self.blank();
        buffer[..positions.len()].copy_from_slice(&positions);
        Ok((buffer, words))
    }
}
