//! Links the proved lexer.

fn main() {
    archive::link_lexer();
}
