//! Expressions.

use super::{Maker, Shape, INTS, STRINGS};

/// The operators of each binary level, loosest first.
pub const LEVELS: [&[&str]; 7] = [
    &["||"],
    &["&&"],
    &["==", "!="],
    &["<", ">", "<=", ">="],
    &[">>"],
    &["+", "-"],
    &["*", "/", "%"],
];

const DATES: [&str; 3] = ["@2024-01-31", "@0000-00-00", "@9999-99-99"];

impl Maker<'_> {
    // Arguments with their parentheses, the greatest of measure `measure`.
    pub(super) fn arguments(&mut self, measure: usize) {
        self.put(&["("]);
        let count = self.rng.between(1, 3);
        for (i, m) in self.spread(count, measure).into_iter().enumerate() {
            if i > 0 {
                self.put(&[","]);
            }
            self.expr(m.max(1));
        }
        self.put(&[")"]);
    }

    pub fn expr(&mut self, measure: usize) {
        self.level(0, measure - 1);
    }

    fn level(&mut self, level: usize, measure: usize) {
        if level == LEVELS.len() {
            return self.unary(measure);
        }
        let links = self.links(level, measure);
        let deepest = self.rng.below(links + 1);
        for i in 0..=links {
            if i > 0 {
                self.pick(LEVELS[level]);
            }
            let operand = if i == deepest {
                measure - i
            } else {
                self.small(measure - i)
            };
            self.level(level + 1, operand);
        }
    }

    fn links(&mut self, level: usize, measure: usize) -> usize {
        match self.shape {
            Shape::Level(own) if own == level => measure,
            Shape::Mixed if self.rng.once_in(30) => measure,
            Shape::Mixed if self.rng.once_in(6) => measure.min(self.rng.between(1, 3)),
            _ => 0,
        }
    }

    fn unary(&mut self, measure: usize) {
        let prefix = match self.shape {
            Shape::Prefix => true,
            Shape::Mixed => self.rng.once_in(5),
            _ => false,
        };
        if measure > 0 && prefix {
            self.pick(&["!", "-"]);
            return self.unary(measure - 1);
        }
        self.postfix(measure);
    }

    fn postfix(&mut self, measure: usize) {
        match self.shape {
            Shape::Field | Shape::Link => {
                self.primary(0);
                for _ in 0..measure {
                    self.link();
                }
            }
            Shape::Argument if measure > 1 => {
                self.primary(0);
                self.arguments(measure - 1);
            }
            Shape::Mixed if measure > 0 && self.rng.once_in(3) => self.chain(measure),
            Shape::Argument if measure == 1 => {
                self.primary(0);
                self.put(&["(", ")"]);
            }
            _ => self.primary(measure),
        }
    }

    // A primary with links: the link `deepest` carries the measure, by its place or by its arguments.
    fn chain(&mut self, measure: usize) {
        let deepest = match self.rng.below(10) {
            0 => measure,
            1 | 2 => self.rng.between(1, measure),
            _ => measure.min(self.rng.between(1, 3)),
        };
        let primary = self.small(measure);
        self.primary(primary);
        for _ in 1..deepest {
            self.link();
        }
        if deepest < measure {
            self.arguments(measure - deepest);
        } else {
            self.link();
        }
        if deepest < measure && self.rng.once_in(3) {
            self.link();
        }
    }

    // A link that needs no more than its place.
    fn link(&mut self) {
        if self.shape == Shape::Field || (self.shape != Shape::Link && self.rng.once_in(2)) {
            self.put(&["."]);
            self.name();
        } else {
            self.put(&["(", ")"]);
        }
    }

    fn primary(&mut self, measure: usize) {
        if measure == 0 {
            return self.leaf();
        }
        match self.shape {
            Shape::Parentheses => {}
            Shape::Checked => self.put(&["checked"]),
            Shape::Wrapping => self.put(&["wrapping"]),
            _ if self.rng.once_in(2) => self.pick(&["checked", "wrapping"]),
            _ => {}
        }
        self.put(&["("]);
        self.expr(measure);
        self.put(&[")"]);
    }

    fn leaf(&mut self) {
        match self.rng.below(8) {
            0 => self.pick(&STRINGS),
            1 => self.pick(&DATES),
            2 => self.pick(&["caller", "in_asset", "native", "now"]),
            3 | 4 => self.pick(&INTS),
            _ => self.name(),
        }
    }
}
