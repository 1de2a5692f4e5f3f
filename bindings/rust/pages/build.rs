//! Takes the Rust code out of README.md and docs/GUIDE.md, for the tests that run it. What the guide has on data channels
//! stands in a file of its own.
use std::path::{Path, PathBuf};
use std::{env, fs};

fn text_of(page: &Path) -> String {
    println!("cargo:rerun-if-changed={}", page.display());
    fs::read_to_string(page).unwrap_or_else(|error| panic!("{}: {error}", page.display()))
}

/// The blocks of Rust code of a text, one after another.
fn code_of(text: &str) -> String {
    let blocks = text.split("```rust\n").skip(1).filter_map(|block| block.split("```").next());
    blocks.collect::<Vec<_>>().join("\n")
}

fn main() {
    let root = Path::new(env!("CARGO_MANIFEST_DIR")).join("../../..");
    let out = PathBuf::from(env::var_os("OUT_DIR").expect("cargo names it"));
    let write = |file, code: String| fs::write(out.join(file), code).expect("cargo made the folder");
    write("readme.rs", code_of(&text_of(&root.join("README.md"))).replace("fn main()", "pub fn main()"));
    let guide = text_of(&root.join("docs/GUIDE.md"));
    let (channels, others): (Vec<&str>, Vec<&str>) =
        guide.split("\n## ").partition(|section| section.starts_with("Data channels\n"));
    write("channels.rs", code_of(&channels.concat()));
    write("guide.rs", code_of(&others.concat()));
}
