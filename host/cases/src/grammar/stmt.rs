//! Statements.

use super::Maker;

impl Maker<'_> {
    pub(super) fn stmt(&mut self, measure: usize) {
        if measure == 0 {
            self.put(&["emit"]);
            self.name();
            return self.put(&["(", ")", ";"]);
        }
        match self.rng.below(5) {
            0 => {
                self.put(&["guard"]);
                self.expr(measure);
            }
            1 => {
                self.put(&["let"]);
                self.name();
                self.put(&["="]);
                self.expr(measure);
            }
            2 => {
                self.put(&["emit"]);
                self.name();
                self.arguments(measure);
            }
            3 => self.assignment(measure),
            _ => self.expr(measure),
        }
        self.put(&[";"]);
    }

    fn assignment(&mut self, measure: usize) {
        if self.rng.once_in(4) && measure > 1 {
            self.put(&["("]);
            self.name();
            self.put(&[")"]);
        } else {
            self.name();
            for _ in 0..self.small(measure - 1) {
                self.put(&["."]);
                self.name();
            }
        }
        self.pick(&["=", "+=", "-="]);
        self.expr(measure);
    }
}
