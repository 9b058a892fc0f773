//! Cuts the version payload out of aerodb's row.rs, so that this variant reads
//! and writes payloads by the original's own lines and replaces `RowData` alone.
use std::path::Path;
use std::{env, fs};

const SOURCE: &str = "../upstream/src/storage/row.rs";

/// The text from `from` up to the first `to` after it.
fn part<'a>(text: &'a str, from: &str, to: &str) -> &'a str {
    let (_, rest) = text.split_once(from).expect(from);
    let (body, _) = rest.split_once(to).expect(to);
    let start = text.len() - rest.len() - from.len();
    &text[start..start + from.len() + body.len()]
}

fn main() {
    println!("cargo::rerun-if-changed={SOURCE}");
    let text = fs::read_to_string(SOURCE).expect(SOURCE);
    let constants = part(
        &text,
        "/// Transaction id assigned to rows",
        "impl RowData {",
    );
    let payload = part(
        &text,
        "#[derive(Debug, Clone, Copy, PartialEq, Eq)]\npub struct RowVersionRef",
        "impl ColumnValue {",
    );
    let out = env::var("OUT_DIR").expect("OUT_DIR");
    fs::write(
        Path::new(&out).join("payload.rs"),
        [constants, payload].concat(),
    )
    .expect("payload.rs");
}
