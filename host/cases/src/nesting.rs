//! Texts of exact measures around 64: every construct that counts, at every place where it can stand.

use crate::grammar::{Maker, Shape, LEVELS};
use crate::rng::Rng;
use oracle::{Call, Case};

/// The measures.
pub const MEASURES: std::ops::RangeInclusive<usize> = 62..=66;

// Texts for each place, construct and measure; they differ in names, operators and in what mixtures mix.
const SEEDS: u64 = 3;
const MIXTURES: u64 = 12;

/// What stands in the hole of a place.
#[derive(Clone, Copy, PartialEq, Eq)]
enum Hole {
    Expr,
    Type,
}

/// Places in statements: the tokens before the hole and behind it; `@` is what stands in the hole once more.
const IN_STATEMENTS: [(&str, Hole, &str); 9] = [
    ("guard", Hole::Expr, ";"),
    ("let a =", Hole::Expr, ";"),
    ("emit A (", Hole::Expr, ") ;"),
    ("emit A ( 1 ,", Hole::Expr, ") ;"),
    ("a =", Hole::Expr, ";"),
    ("( a . b ) +=", Hole::Expr, ";"),
    ("", Hole::Expr, ";"),
    ("", Hole::Expr, "-= 1 ;"),
    ("emit A (", Hole::Expr, ", @ , @ ) ;"),
];

/// Places in items, other than in statements.
const IN_ITEMS: [(&str, Hole, &str); 19] = [
    ("invariant", Hole::Expr, ";"),
    ("genesis { a =", Hole::Expr, "; @ ; guard @ ; }"),
    (
        "entry e ( ) limits",
        Hole::Expr,
        "denies @ after @ from @ { a = @ ; @ ; }",
    ),
    ("state { a :", Hole::Type, "; b : @ = 1 ; c : @ ; }"),
    ("state { a : A =", Hole::Expr, "; }"),
    (
        "state { a : A ; meta b : B < 1 of 2 > =",
        Hole::Expr,
        "; c : A ; }",
    ),
    ("entry e ( ) limits", Hole::Expr, "{ }"),
    ("entry e ( ) denies", Hole::Expr, "{ }"),
    ("entry e ( ) after", Hole::Expr, "{ }"),
    ("entry e ( ) after", Hole::Expr, "from a { }"),
    ("entry e ( ) after a from", Hole::Expr, "{ }"),
    (
        "entry e ( ) after 1 days from",
        Hole::Expr,
        "writes ( a ) { }",
    ),
    ("state { a :", Hole::Type, "; }"),
    ("state { a :", Hole::Type, "= 1 ; }"),
    ("event A ( a :", Hole::Type, ") ;"),
    (
        "event A ( a : A , b : sealed",
        Hole::Type,
        "signed by c ) ;",
    ),
    ("entry e ( a :", Hole::Type, ") { }"),
    ("entry e ( a : sealed", Hole::Type, ", b : B ) burns A { }"),
    ("entry e ( a : A signed by b , c :", Hole::Type, ") { }"),
];

/// What an item stands in, and what a statement stands in.
const AROUND_ITEMS: [(&str, &str); 2] = [
    ("contract C {", "}"),
    (
        "import { a } from \"p\" ; contract A { } contract C { asset A ;",
        "} contract B { }",
    ),
];
const AROUND_STATEMENTS: [(&str, &str); 2] = [("genesis {", "}"), ("entry e ( ) { a ;", "a ; }")];

/// A place in a text for a call.
struct Place {
    call: Call,
    front: String,
    hole: Hole,
    back: String,
}

impl Place {
    fn new(call: Call, front: &str, hole: Hole, back: &str) -> Place {
        Place {
            call,
            front: front.to_string(),
            hole,
            back: back.to_string(),
        }
    }

    fn around(&self, call: Call, (front, back): (&str, &str)) -> Place {
        Place {
            call,
            front: format!("{front} {}", self.front),
            hole: self.hole,
            back: format!("{} {back}", self.back),
        }
    }
}

fn places() -> Vec<Place> {
    let mut places = vec![
        Place::new(Call::Expr, "", Hole::Expr, ""),
        Place::new(Call::Type, "", Hole::Type, ""),
    ];
    let mut items = Vec::new();
    for (front, hole, back) in IN_ITEMS {
        items.push(Place::new(Call::Item, front, hole, back));
    }
    for (front, hole, back) in IN_STATEMENTS {
        let place = Place::new(Call::Stmt, front, hole, back);
        items.extend(AROUND_STATEMENTS.map(|around| place.around(Call::Item, around)));
        places.push(place);
    }
    for item in items {
        places.extend(AROUND_ITEMS.map(|around| item.around(Call::Program, around)));
        places.push(item);
    }
    places
}

// The constructs, each with the number of its texts.
fn shapes(hole: Hole) -> Vec<(Shape, u64)> {
    if hole == Hole::Type {
        return vec![(Shape::Mixed, MIXTURES)];
    }
    let plain = [
        Shape::Parentheses,
        Shape::Checked,
        Shape::Wrapping,
        Shape::Prefix,
        Shape::Field,
        Shape::Link,
        Shape::Argument,
    ];
    let levels = (0..LEVELS.len()).map(Shape::Level);
    let mut shapes: Vec<_> = plain
        .into_iter()
        .chain(levels)
        .map(|shape| (shape, SEEDS))
        .collect();
    shapes.push((Shape::Mixed, MIXTURES));
    shapes
}

/// A case with the measure of what stands in its hole.
pub struct Nested {
    pub case: Case,
    pub measure: usize,
    /// Whether the text is assigned to, which only some constructs can be.
    pub is_target: bool,
}

/// The cases of all places, constructs and measures.
pub fn all() -> impl Iterator<Item = Nested> {
    places().into_iter().flat_map(|place| {
        let mut cases = Vec::new();
        for (number, (shape, seeds)) in shapes(place.hole).into_iter().enumerate() {
            for measure in MEASURES {
                for seed in 0..seeds {
                    let seed = seed + 1000 * number as u64 + 100_000 * measure as u64;
                    cases.push(nested(&place, shape, measure, &mut Rng::new(seed)));
                }
            }
        }
        cases
    })
}

fn nested(place: &Place, shape: Shape, measure: usize, rng: &mut Rng) -> Nested {
    let mut maker = Maker {
        loose: if shape == Shape::Mixed { 3 } else { 1 },
        rng,
        shape,
        list: 1,
        out: Vec::new(),
    };
    match place.hole {
        Hole::Expr => maker.expr(measure),
        Hole::Type => maker.ty(measure),
    }
    let deep = maker.out.join(" ");
    let text = format!("{} {deep} {}", place.front, place.back.replace('@', &deep));
    Nested {
        case: Case::ample(place.call, text.trim().into(), Vec::new()),
        measure,
        is_target: place.back.starts_with("-="),
    }
}
