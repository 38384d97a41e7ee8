//! A typical program: contracts as people write them, from a seed.

use cases::rng::Rng;

#[rustfmt::skip]
const NAMES: [&str; 40] = [
    "buyer", "seller", "held", "opened", "paid", "judges", "owner", "amount", "fee", "rate", "total", "cap", "to",
    "order", "price", "share", "stake", "bid", "vote", "ends", "open", "n", "i", "x", "debt", "pool", "unit", "left",
    "count", "last", "next", "sum", "round", "vault", "reserve", "deadline", "highest_bid", "a", "b", "c",
];
const FIELDS: [&str; 8] = [
    "amount", "owner", "price", "disputed", "id", "kind", "start", "end",
];
const TYPES: [&str; 8] = [
    "Address", "Amount", "Date", "Text", "Order", "Bool", "Id", "Rate",
];
const CONTRACTS: [&str; 6] = ["Escrow", "Vault", "Auction", "Pool", "Ballot", "Lease"];
const ENTRIES: [&str; 8] = [
    "release", "refund", "deposit", "close", "bid", "settle", "claim", "pay_out",
];
const EVENTS: [&str; 6] = ["Released", "Paid", "Opened", "Closed", "Raised", "Moved"];
const OPERATORS: [&str; 12] = [
    "+", "-", "*", "/", "==", "!=", "<", "<=", ">=", "&&", "||", "%",
];
const NOTES: [&str; 4] = [
    "// what is held is never less than what is owed",
    "// paid once",
    "// the fee is rounded down",
    "// see the note above",
];

/// Whole contracts up to this many bytes.
pub fn program(longest: usize) -> String {
    let mut writer = Writer {
        rng: Rng::new(42),
        out: "import { Clock, Quorum } from \"std/time\";\n\n".to_string(),
    };
    loop {
        let before = writer.out.len();
        writer.contract();
        if writer.out.len() > longest {
            writer.out.truncate(before);
            return writer.out;
        }
    }
}

/// Whole statements up to this many bytes, between a front and a back.
pub fn statements(front: &str, back: &str, longest: usize) -> String {
    repeated(front, back, longest, |writer| {
        writer.put("        ");
        writer.statement();
        writer.put("\n");
    })
}

/// Whole expressions, each behind a comma and a blank, up to this many bytes, between a front and a back.
pub fn expressions(front: &str, back: &str, longest: usize) -> String {
    repeated(front, back, longest, |writer| {
        writer.put(", ");
        writer.expression(3);
    })
}

/// Types likewise.
pub fn types(front: &str, back: &str, longest: usize) -> String {
    repeated(front, back, longest, |writer| {
        writer.put(", ");
        writer.ty();
    })
}

fn repeated(front: &str, back: &str, longest: usize, part: fn(&mut Writer)) -> String {
    let mut writer = Writer {
        rng: Rng::new(43),
        out: front.to_string(),
    };
    loop {
        let before = writer.out.len();
        part(&mut writer);
        if writer.out.len() + back.len() > longest {
            writer.out.truncate(before);
            return writer.out + back;
        }
    }
}

struct Writer {
    rng: Rng,
    out: String,
}

impl Writer {
    fn put(&mut self, text: &str) {
        self.out.push_str(text);
    }

    fn pick(&mut self, from: &[&'static str]) -> &'static str {
        self.rng.pick::<&str>(from)
    }

    fn name(&mut self) {
        let name = self.pick(&NAMES);
        self.put(name);
    }

    fn contract(&mut self) {
        let name = self.pick(&CONTRACTS);
        self.put(&format!(
            "contract {name} {{\n    asset Coin;\n\n    state {{\n"
        ));
        self.put("        meta title: Text = \"Treuhänder // 第三者\";\n");
        for _ in 0..self.rng.between(4, 9) {
            self.field();
        }
        self.put("    }\n\n    genesis {\n");
        self.statements(3);
        self.put("    }\n\n    invariant ");
        self.expression(3);
        self.put(";\n\n");
        self.event();
        for _ in 0..self.rng.between(2, 5) {
            self.entry();
        }
        self.put("}\n\n");
    }

    fn field(&mut self) {
        self.put("        ");
        self.name();
        self.put(": ");
        self.ty();
        if self.rng.once_in(2) {
            self.put(" = ");
            self.operand();
        }
        self.put(";\n");
    }

    fn ty(&mut self) {
        let (first, second) = (self.pick(&TYPES), self.pick(&TYPES));
        match self.rng.below(6) {
            0 => self.put(&format!("Map<{first}, {second}>")),
            1 => self.put(&format!("Set<{first}>")),
            2 => self.put("Quorum<2 of 3, Address>"),
            _ => self.put(first),
        }
    }

    fn event(&mut self) {
        let name = self.pick(&EVENTS);
        self.put(&format!("    event {name}("));
        self.parameters();
        self.put(");\n\n");
    }

    fn parameters(&mut self) {
        for place in 0..self.rng.between(1, 3) {
            if place > 0 {
                self.put(", ");
            }
            self.name();
            self.put(": ");
            self.ty();
        }
    }

    fn entry(&mut self) {
        let name = self.pick(&ENTRIES);
        self.put(&format!("    entry {name}("));
        self.parameters();
        self.put(")\n        writes(held, paid)\n");
        if self.rng.once_in(2) {
            self.put("        reads(seller, opened)\n        conserves Coin\n        limits ");
            self.expression(2);
            self.put("\n");
        }
        if self.rng.once_in(2) {
            self.put("        after 14 days from opened + 1\n");
        }
        self.put("    {\n");
        self.statements(6);
        self.put("    }\n\n");
    }

    fn statements(&mut self, most: usize) {
        for _ in 0..self.rng.between(1, most) {
            self.put("        ");
            self.statement();
            self.put("\n");
        }
    }

    fn statement(&mut self) {
        match self.rng.below(11) {
            0 | 1 => {
                self.put("guard ");
                self.expression(4);
            }
            2 | 3 => {
                self.put("let ");
                self.name();
                self.put(" = ");
                self.expression(3);
            }
            4..=6 => {
                self.name();
                let sign = self.pick(&[" = ", " += ", " -= "]);
                self.put(sign);
                self.expression(3);
            }
            7 => {
                let event = self.pick(&EVENTS);
                self.put(&format!("emit {event}("));
                self.arguments();
                self.put(")");
            }
            8 => {
                self.put("Coin.send(");
                self.arguments();
                self.put(")");
            }
            _ => return self.note(),
        }
        self.put(";");
    }

    fn note(&mut self) {
        let note = self.pick(&NOTES);
        self.put(note);
    }

    fn arguments(&mut self) {
        self.expression(1);
        self.put(", ");
        self.expression(2);
    }

    fn expression(&mut self, most: usize) {
        for place in 0..self.rng.between(1, most) {
            if place > 0 {
                let operator = self.pick(&OPERATORS);
                self.put(&format!(" {operator} "));
            }
            self.operand();
        }
    }

    fn operand(&mut self) {
        match self.rng.below(20) {
            0..=7 => self.name(),
            8..=10 => {
                self.name();
                let field = self.pick(&FIELDS);
                self.put(&format!(".{field}"));
            }
            11..=13 => {
                let number = self.pick(&["0", "1", "2", "3", "10", "200", "1_000_000"]);
                self.put(number);
            }
            14 => self.around("(", 3),
            15 => self.around("-", 1),
            16 => self.around("checked(", 2),
            17 => self.put("caller"),
            18 => self.put("@2026-01-31"),
            _ => self.put("\"ok\""),
        }
    }

    fn around(&mut self, front: &str, most: usize) {
        self.put(front);
        self.expression(most);
        if front.ends_with('(') {
            self.put(")");
        }
    }
}
