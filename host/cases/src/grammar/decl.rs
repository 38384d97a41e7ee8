//! Programs, contracts, items and clauses.

use super::{Maker, INTS, STRINGS};

#[rustfmt::skip]
const UNITS: [&str; 7] = ["seconds", "minutes", "hours", "days", "weeks", "months", "years"];

impl Maker<'_> {
    pub(super) fn program(&mut self, measure: usize) {
        for _ in 0..self.rng.below(3) {
            self.import();
        }
        let count = self.length(measure);
        for m in self.spread(count, measure) {
            self.contract(m);
        }
    }

    fn import(&mut self) {
        self.put(&["import", "{"]);
        for i in 0..self.rng.between(1, 3) {
            if i > 0 {
                self.put(&[","]);
            }
            if self.rng.once_in(4) {
                self.put(&["Quorum"]);
            } else {
                self.name();
            }
        }
        self.put(&["}", "from"]);
        self.pick(&STRINGS);
        self.put(&[";"]);
    }

    fn contract(&mut self, measure: usize) {
        self.put(&["contract"]);
        self.name();
        self.put(&["{"]);
        let count = self.length(measure);
        for m in self.spread(count, measure) {
            self.item(m);
        }
        self.put(&["}"]);
    }

    pub(super) fn item(&mut self, measure: usize) {
        match self.rng.below(7) {
            0 if measure == 0 => self.asset(),
            1 if measure > 0 => self.invariant(measure),
            2 => self.state(measure),
            3 => self.genesis(measure),
            4 => self.event(measure),
            _ => self.entry(measure),
        }
    }

    fn asset(&mut self) {
        self.put(&["asset"]);
        self.name();
        self.put(&[";"]);
    }

    fn invariant(&mut self, measure: usize) {
        self.put(&["invariant"]);
        self.expr(measure);
        self.put(&[";"]);
    }

    fn state(&mut self, measure: usize) {
        self.put(&["state", "{"]);
        let count = self.length(measure);
        for m in self.spread(count, measure) {
            self.field(m);
        }
        self.put(&["}"]);
    }

    fn field(&mut self, measure: usize) {
        if self.rng.once_in(3) {
            self.put(&["meta"]);
        }
        self.name();
        self.put(&[":"]);
        let with_default = measure > 0 && self.rng.once_in(2);
        let in_type = !with_default || self.rng.once_in(2);
        let type_measure = if in_type {
            measure
        } else {
            self.small(measure)
        };
        self.ty(type_measure);
        if with_default {
            self.put(&["="]);
            let default = if in_type {
                self.small(measure).max(1)
            } else {
                measure
            };
            self.expr(default);
        }
        self.put(&[";"]);
    }

    fn genesis(&mut self, measure: usize) {
        self.put(&["genesis"]);
        let count = self.length(measure);
        let measures = self.spread(count, measure);
        self.block(&measures);
    }

    fn block(&mut self, measures: &[usize]) {
        self.put(&["{"]);
        for m in measures {
            self.stmt(*m);
        }
        self.put(&["}"]);
    }

    fn event(&mut self, measure: usize) {
        self.put(&["event"]);
        self.name();
        let count = self.length(measure);
        let measures = self.spread(count, measure);
        self.params(&measures);
        self.put(&[";"]);
    }

    fn entry(&mut self, measure: usize) {
        self.put(&["entry"]);
        self.name();
        let params = self.rng.below(self.list + 1);
        let clauses = self.rng.below(self.list + 2);
        let stmts = self.length(measure);
        let measures = self.spread(params + clauses + stmts, measure);
        self.params(&measures[..params]);
        for m in &measures[params..params + clauses] {
            self.clause(*m);
        }
        self.block(&measures[params + clauses..]);
    }

    fn params(&mut self, measures: &[usize]) {
        self.put(&["("]);
        for (i, m) in measures.iter().enumerate() {
            if i > 0 {
                self.put(&[","]);
            }
            self.name();
            self.put(&[":"]);
            if self.rng.once_in(3) {
                self.put(&["sealed"]);
            }
            self.ty(*m);
            if self.rng.once_in(3) {
                self.put(&["signed", "by"]);
                self.name();
            }
        }
        self.put(&[")"]);
    }

    fn clause(&mut self, measure: usize) {
        if measure > 0 {
            return self.deep_clause(measure);
        }
        match self.rng.below(6) {
            0 => self.name_list("writes"),
            1 => self.name_list("reads"),
            2 => self.duration(),
            _ => {
                self.pick(&["conserves", "mints", "burns"]);
                self.name();
            }
        }
    }

    fn name_list(&mut self, keyword: &'static str) {
        self.put(&[keyword, "("]);
        self.name();
        for _ in 0..self.rng.below(3) {
            self.put(&[","]);
            self.name();
        }
        self.put(&[")"]);
    }

    fn duration(&mut self) {
        self.put(&["after"]);
        self.pick(&INTS);
        self.pick(&UNITS);
    }

    fn deep_clause(&mut self, measure: usize) {
        match self.rng.below(5) {
            0 => self.put(&["limits"]),
            1 => self.put(&["denies"]),
            2 => self.put(&["after"]),
            3 => {
                self.duration();
                self.put(&["from"]);
            }
            _ => {
                self.put(&["after"]);
                let target = self.small(measure).max(1);
                self.expr(target);
                self.put(&["from"]);
            }
        }
        self.expr(measure);
    }
}
