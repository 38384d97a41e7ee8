//! Types.

use super::{Maker, INTS};

impl Maker<'_> {
    pub fn ty(&mut self, measure: usize) {
        if self.rng.once_in(6) {
            self.put(&["Quorum"]);
        } else {
            self.name();
        }
        let most = if measure > 0 { 2 } else { self.rng.below(3) };
        if most == 0 {
            return;
        }
        let count = self.rng.between(1, most);
        let deepest = self.rng.below(count);
        self.put(&["<"]);
        for i in 0..count {
            if i > 0 {
                self.put(&[","]);
            }
            if i == deepest && measure > 0 {
                self.ty(measure - 1);
            } else if measure > 0 && self.rng.once_in(2) {
                let beside = self.small(measure - 1);
                self.ty(beside);
            } else {
                self.flat_argument();
            }
        }
        self.put(&[">"]);
    }

    fn flat_argument(&mut self) {
        self.pick(&INTS);
        if self.rng.once_in(2) {
            self.put(&["of"]);
            self.pick(&INTS);
        }
    }
}
