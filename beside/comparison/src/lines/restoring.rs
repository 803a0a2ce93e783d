//! Draws snapshots to restore: of the ledger as it stands or as it once stood, many of them with something changed.

use super::Maker;
use crate::damage::{aim, alter, fill, tear};
use crate::image::snapshot_of;

impl Maker<'_> {
    pub(super) fn snapshot(&mut self) -> Vec<u64> {
        let earlier = !self.kept.is_empty() && self.random.percent(30);
        let words = if earlier {
            let place = self.random.below(self.kept.len() as u64) as usize;
            self.kept[place].clone()
        } else {
            snapshot_of(self.book)
        };
        let over = std::mem::take(&mut self.over);
        match self.random.below(100) {
            _ if over => fill(self.random, &words),
            0..38 => words,
            38..48 => alter(self.random, &words),
            48..80 => aim(self.random, &words),
            80..87 => fill(self.random, &words),
            _ => self.torn(words),
        }
    }

    fn torn(&mut self, mut words: Vec<u64>) -> Vec<u64> {
        // Now and then something that would be refused too if the form were whole.
        if self.random.percent(25) {
            words = aim(self.random, &words);
        }
        tear(self.random, &mut words);
        words
    }
}
