//! Links the five proved calls: the desk's archive or, with the feature `terminal`, the signing terminal's.

fn main() {
    if std::env::var_os("CARGO_FEATURE_TERMINAL").is_some() {
        archive::link_terminal();
    } else {
        archive::link_calls();
    }
}
