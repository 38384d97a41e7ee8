//! Every input of the kept corpus, and how inputs are read.

use oracle::{Call, Case};

#[test]
fn the_corpus_agrees() {
    let folder = concat!(env!("CARGO_MANIFEST_DIR"), "/corpus");
    let mut count = 0;
    for entry in std::fs::read_dir(folder).unwrap() {
        let path = entry.unwrap().path();
        let input = std::fs::read(&path).unwrap();
        if let Err(said) = fuzz::compare(&input) {
            panic!("{}: {said}", path.display());
        }
        count += 1;
    }
    assert!(count > 100, "only {count} inputs");
}

#[test]
fn inputs_are_cases() {
    assert_eq!(
        fuzz::case(b""),
        Case::ample(Call::Program, Vec::new(), Vec::new())
    );
    for edition in [1, 2] {
        let input = fuzz::input(edition, Call::Stmt, b"a;", b"FW\x01b").unwrap();
        let same = Case::ample(Call::Stmt, b"a;".to_vec(), b"FW\x01b".to_vec());
        assert_eq!(fuzz::case(&input), same.in_edition(u32::from(edition)));
    }
    let editions = [0, 1, 2, 253, 254, 255].map(|byte| fuzz::case(&[byte]).edition);
    assert_eq!(editions, [1, 2, 1, 2, 0, u32::MAX]);
    let short = fuzz::case(b"\0\x08\0\x83\x8Ca+b");
    assert_eq!(
        (short.call, short.token_words, short.tree_words),
        (Call::Expr, 3, 12)
    );
    assert_eq!(short.source, b"a+b");
}
