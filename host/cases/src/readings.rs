//! The list of readings that the Rattle program `readings` replays, so that it needs no Rust.
//!
//! A line is one reading. Its fields are parted by one blank, and a LF ends it:
//!
//! ```text
//! EDITION CALL TABLE SOURCE TOKEN_WORDS TREE_WORDS number start end wanted found need tokens records TOKENS TREE
//! ```
//!
//! - EDITION is any u32; 1 and 2 are known.
//! - CALL is 0 for program, 1 item, 2 stmt, 3 expr, 4 type.
//! - TABLE and SOURCE are bytes, two lower-case hexadecimal digits each; `-` is none. `HEX*N` is those bytes N times.
//! - TOKEN_WORDS and TREE_WORDS are the lengths of the lent buffers, in u32.
//! - The eight numbers are the answer; tokens and records are 0 on a refusal.
//! - TOKENS and TREE are the sums of all words of each buffer after the call. A sum s starts at 1, and each word w makes it
//!   (65,599 s + w) mod 4,294,967,291, so that it fits 64 bits on the way; zeros and the length count.
//!
//! Numbers are decimal. Lines with `*` stand last; in all others a source or table has at most [`LONGEST`] bytes and a buffer at
//! most [`LONGEST_BUFFER`] words. Every refusal number stands there for each call that can give it. The list is made, in the host
//! folder, by `cargo run --release --offline -p cases -- --readings > cases/tests/readings.txt`.

use crate::stored;
use oracle::{table, Answer, Call, Case, MAX_SOURCE};
use std::fmt::Write;

/// The most bytes of a source or table that is written whole.
pub const LONGEST: usize = 180;
/// The most words of a lent buffer.
pub const LONGEST_BUFFER: usize = 1100;

// Generated cases with longer sources or tables are left out.
const SHORT: usize = 100;

/// Texts for each call, accepted or refused; `~` stands for a part that nests too deeply. Of each call the third is accepted.
#[rustfmt::skip]
const TEXTS: [(Call, &[&str]); 5] = [
    (Call::Program, &[
        "", " ", "contract C { }", "contract C { } ", "import {Quorum} from \"q\";", "contract C {} contract D {}",
        "contract C { asset A; }", "contract C{entry e() after 3 day {}}", "contract C {", "contract C { 1", "import {a,} from \"b\";",
        "import {a} from b;", "contract 1 {}", "contract C { state { a: Q<1 of x>; } }", "contract C { invariant ; }",
        "contract C { state { a: 1; } }", "contract C { invariant ~; }", "contract C { genesis { a + b = 1; } }", "asset A;",
        "contract C { } import {a} from \"b\";", "import {a} from \"b\"", "import {a b} from \"b\";", "contract C { entry e(a) {} }",
        "contract C { entry e( {} }", "contract C { event E(a: A b: B); }", "contract C { state { a: A = 1 } }",
    ]),
    (Call::Item, &[
        "asset A;", "state { }", "state { meta a: A = 1; b: B; }", "genesis { a; }", "invariant a == b;", "event E(a: sealed A signed by b);",
        "entry e() limits (a) {}", "entry e() after 3 days from a {}", "entry e() after a {}", "entry e() writes(a, b) reads(c) {}",
        "entry e() conserves A mints B burns C denies d {}", "entry e() after 3 days.x {}", "entry e() after 3 from 4 days {}",
        "entry e() x {}", "state {", "state { 1", "genesis {", "genesis { )", "entry e() writes() {}", "state { a: Set<A>= 1; }",
        "state { a: Q<1 of x>; }", "event E(a: 1);", "invariant ~;", "genesis { f() = 1; }", "asset A; asset B;", "guard a;", "asset 1;",
        "event E(a: A signed b);", "entry e() after 3 days from {}", "entry e(a: A) writes a {}", "state { meta a = 1; }", "event E(a: A)",
    ]),
    (Call::Stmt, &[
        "(a) = 1;", "a;", "guard a;", "let a = 1;", "emit E(1, a);", "a.b += c;", "a -= -1;", "f(1)(2).c;", "a + b = 1;", "(a+b) = )",
        "-(a) = 1;", "a b", "a", ";", "let 1 = 2;", "let a 1;", "guard ;", "emit E;", "emit E(1;", "~;", "a = ~;", "a; b", "a.1;", "1 = 2;",
        "a = = b;", "emit (a);", "let a = 1",
    ]),
    (Call::Expr, &[
        "0", "1_", "@2024-99-99", "\"\\\"", "a", "caller", "in_asset", "native", "now", "checked(a)", "wrapping(1 + 2)", "!-a",
        "a || b && c == d != e < f > g <= h >= i >> j + k - l * m / n % o", "f(a, b)(c).d", "((a))", "a # b", ")", "a.", "a.1", "a +", "(a", "f(a",
        "f(,)", "checked a", "checked(a", "a b", "a = b", "~", "0_1", "00", "2024-01-01", "2024-01-011", "12024-10-10", "a-2024-10-10",
        "2024-01-01x", "0024-01-01", "@2024-01-011", "\u{FEFF}1", "1\u{FEFF}", ") #", "\"a\r\n", "a & b", "a | b", "@", "a\0", "\"\0\u{1b}\" // \0",
        "a\rb", "a \u{AD}", "\"open", "\"第三者\" // ö", "a\r\n+\tb", "//", "Quorum", "of",
    ]),
    (Call::Type, &[
        "A", "Quorum", "Map<A, Map<B, C> >", "Map<A, Map<B, C>>", "Q<1 of 2>", "Q<1 of 2, 3, A>", "Q<1 x>", "Q<1 of x>", "Q<A B", "Q<", "Q<>",
        "1", "", "A<B,>", "A B", "A<1 of>", "of", "Q<~>", "A>", "A<contract>",
    ]),
];

/// Texts that each call refuses in the lexer.
#[rustfmt::skip]
const LEXICAL: [&[u8]; 12] = [
    b"\x80", b"a\xC3", b"\xC3\xA4\xE2\x82", b"\"\xED\xA0\x80\"", b"a\rb", b"a \xE2\x80\x8B", b"msg", b"a 2024-01-01", b"007", b"\"a\nb\"", b"a #",
    b"\xEF\xBB\xBFa",
];

/// Tables that each call refuses.
#[rustfmt::skip]
const BAD_TABLES: [&[u8]; 6] = [b"F", b"FW\0", b"FX\x01a", b"FW\x01aFW\x02b", b"FW\x011", b"FW\x01bFW\x02\xC3\xA4"];

/// Texts that tell the editions apart, or that only look so.
#[rustfmt::skip]
const BY_EDITION: [(Call, &[&str]); 5] = [
    (Call::Program, &[
        "contract C{state{a:A<B<C>>;}entry e(a:A<B<C>>){}}", "contract C{state{a:A<B>>;}}", "contract C{invariant a<@2024-06-31;}",
        "contract C{invariant a<@2024-06-30;}",
    ]),
    (Call::Item, &[
        "state{a:A<B<C>>=1;}", "state{a:A<B<C>>;b:A<B<1 of 2>>=c>>d;}", "state{a:A>>;}", "state{a:A<B>>;}", "state{a:A<B>>=1;}",
        "state{a:A<B<C<D>>>=1;}", "state{a:Set<A>= 1;}", "event E(a:A<B<C>>);", "event E(a:A<B<C>>signed by b,c:sealed A<B<C<D>>>);",
        "event E(a:A<B>>);", "event E(a:A>>);", "entry e(a:A<B>>){}", "entry e()limits a<b>>c{}", "state{a:A=@2023-02-29;}",
    ]),
    (Call::Stmt, &["a = @2024-04-31;", "a = @2024-04-30;", "a = b < c >> d;"]),
    (Call::Expr, &[
        "@2024-02-29", "@2024-02-30", "@2023-02-29", "@1900-02-29", "@1600-02-29", "@0000-02-29", "@0000-00-00", "@0000-01-00", "@0000-13-01",
        "@9999-12-31", "@9999-12-32", "2024-02-30", "@2024-02-301", "@2024-02-30x", "00 @2024-02-30", "@2024-02-30 00", ") @2024-02-30",
        "@2024-02-30 \r", "@2024-02-30 \u{AD}", "@2024-02-30#", "# @2024-02-30", "@2024-02-30 \"a", "\"@2024-02-30\" //@2024-02-30",
        "f(@2024-02-29, @2024-02-30)", "@2024-02-30 msg", "a<b>>c",
    ]),
    (Call::Type, &[
        "A<B<C>>", "A<B<1>>", "A<B<1 of 2>>", "A<B<C<D<E>>>>", "A<B<C<D> >>", "A<B<C>,D<E>>", "A<1>>", "A<1 of 2>>", "A<>>", "A<B,>>", "A<1 of>>",
        "A>>", "A<B>>", "A<B>>>", "A<B>> x", "A<B<C>>>", "A<B<C>>>>", "A<@2024-04-31>", "A<B<C>>@2024-04-31",
    ]),
];

/// A day, to be repeated.
const DATE: &[u8] = b"@2024-02-29";

/// Editions that there are not.
const UNKNOWN: [u32; 5] = [0, 3, 256, 2_147_483_650, 4_294_967_295];

/// The list.
pub fn list() -> String {
    cases().iter().map(line).collect()
}

/// A case and how its table and source are written.
struct Written {
    case: Case,
    table: String,
    source: String,
}

impl Written {
    fn whole(case: Case) -> Written {
        Written {
            table: hex(&case.words),
            source: hex(&case.source),
            case,
        }
    }

    // A source of the same bytes so many times, and a table likewise.
    fn repeated(call: Call, source: (&[u8], usize), words: (&[u8], usize)) -> Written {
        let write = |(bytes, times): (&[u8], usize)| match times {
            1 => hex(bytes),
            _ => format!("{}*{times}", hex(bytes)),
        };
        Written {
            case: Case {
                edition: 1,
                call,
                source: source.0.repeat(source.1),
                words: words.0.repeat(words.1),
                token_words: 8,
                tree_words: 13,
            },
            table: write(words),
            source: write(source),
        }
    }
}

fn cases() -> Vec<Written> {
    let mut list = Vec::new();
    for (call, texts) in TEXTS {
        let deep = match call {
            Call::Type => "A<".repeat(64),
            _ => "-".repeat(64),
        };
        for text in texts {
            let source = text.replace('~', &format!("{deep}a")).into_bytes();
            list.push(Case::ample(call, source, Vec::new()));
        }
        for text in LEXICAL {
            list.push(Case::ample(call, text.to_vec(), table::encode(["msg"])));
        }
        for words in BAD_TABLES {
            list.push(Case::ample(call, b"a".to_vec(), words.to_vec()));
        }
        list.extend(with_rooms(Case::ample(call, texts[2].into(), Vec::new())));
    }
    let generated = stored::chosen().into_iter().map(|(case, _)| case);
    list.extend(generated.filter(|case| case.source.len() <= SHORT && case.words.len() <= SHORT));
    list.extend(by_edition());
    let mut written: Vec<_> = list.into_iter().map(Written::whole).collect();
    for call in Call::ALL {
        written.push(Written::repeated(call, (b" ", MAX_SOURCE + 1), (b"", 1)));
        written.push(Written::repeated(call, (b" ", MAX_SOURCE), (b"", 1)));
        written.push(Written::repeated(
            call,
            (b"a", 1),
            (b"F", table::MAX_TABLE + 1),
        ));
        written.push(Written::repeated(
            call,
            (b"a", 1),
            (b"FW\x01b", table::MAX_TABLE / 4),
        ));
        let dates = MAX_SOURCE / DATE.len();
        let in_edition_2 = [
            (&b" "[..], MAX_SOURCE + 1),
            (b" ", MAX_SOURCE),
            (DATE, dates),
        ];
        for source in in_edition_2 {
            let mut repeated = Written::repeated(call, source, (b"", 1));
            repeated.case.edition = 2;
            written.push(repeated);
        }
    }
    written
}

// Both editions, and unknown ones: of a text that is accepted, and before the refusal of a table.
fn by_edition() -> Vec<Case> {
    let mut list = Vec::new();
    for (call, texts) in BY_EDITION {
        for text in texts {
            let case = Case::ample(call, text.as_bytes().to_vec(), Vec::new());
            list.extend([case.clone(), case.in_edition(2)]);
        }
        let accepted = Case::ample(call, texts[0].into(), Vec::new());
        for edition in UNKNOWN {
            list.push(accepted.clone().in_edition(edition));
        }
        list.push(Case::ample(call, b"a".to_vec(), b"F".to_vec()).in_edition(0));
    }
    let deep = "A<".repeat(65) + ">>";
    let deep = Case::ample(Call::Type, deep.into_bytes(), Vec::new());
    list.extend([deep.clone(), deep.in_edition(2)]);
    let parted = Case::ample(Call::Type, b"A<B<C>>".to_vec(), Vec::new());
    list.extend(with_rooms(parted.in_edition(2)));
    list
}

// Rooms for none, one word too few, exactly and one word more, in both buffers.
fn with_rooms(case: Case) -> Vec<Case> {
    let Answer::Accepted { tokens, records } = oracle::read(&case).answer else {
        panic!("rooms are tried on what is accepted");
    };
    let (tokens, tree) = (3 * tokens as usize, 6 * records as usize);
    let rooms = [
        (0, tree),
        (tokens - 1, tree),
        (tokens, 0),
        (tokens, tree - 1),
        (tokens, tree),
        (tokens + 1, tree + 7),
    ];
    rooms
        .map(|(token_words, tree_words)| Case {
            token_words,
            tree_words,
            ..case.clone()
        })
        .to_vec()
}

fn line(written: &Written) -> String {
    let Written {
        case,
        table,
        source,
    } = written;
    let outcome = oracle::read(case);
    let numbers = match outcome.answer {
        Answer::Accepted { tokens, records } => [0, 0, 0, 0, 0, 0, tokens, records],
        Answer::Refused(r) => [r.number, r.start, r.end, r.wanted, r.found, r.need, 0, 0],
    };
    let mut out = format!("{} {} {table} {source} ", case.edition, case.call as usize);
    write!(out, "{} {}", case.token_words, case.tree_words).expect("a String takes every write");
    let sums = [sum(&outcome.tokens), sum(&outcome.tree)];
    for number in numbers.into_iter().chain(sums) {
        write!(out, " {number}").expect("a String takes every write");
    }
    out + "\n"
}

/// The sum of a buffer's words.
pub fn sum(words: &[u32]) -> u32 {
    let step = |sum: u64, word: &u32| (65_599 * sum + u64::from(*word)) % 4_294_967_291;
    words.iter().fold(1, step) as u32
}

fn hex(bytes: &[u8]) -> String {
    if bytes.is_empty() {
        return "-".to_string();
    }
    bytes.iter().map(|byte| format!("{byte:02x}")).collect()
}
