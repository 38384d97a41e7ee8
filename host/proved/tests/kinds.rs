//! The crate `quanta` names kinds as the original does.

use oracle::kinds::{described_number, Node};

#[test]
fn tokens() {
    for kind in quanta::TokenKind::ALL {
        let expected = kind.is_fixed().then_some(kind.number());
        let expected = expected.or((*kind == quanta::TokenKind::Eof).then_some(62));
        assert_eq!(described_number(&kind.to_string()), expected, "{kind}");
    }
}

#[test]
fn nodes() {
    const NODES: [(Node, quanta::Node); 8] = [
        (Node::Program, quanta::Node::Program),
        (Node::Field, quanta::Node::Field),
        (Node::After, quanta::Node::After),
        (Node::MofN, quanta::Node::MofN),
        (Node::ExprStmt, quanta::Node::ExprStmt),
        (Node::Str, quanta::Node::Str),
        (Node::Wrapping, quanta::Node::Wrapping),
        (Node::Call, quanta::Node::Call),
    ];
    for (original, proved) in NODES {
        assert_eq!(original as u32, proved.number());
        assert_eq!(format!("{original:?}"), format!("{proved:?}"));
    }
}
