//! Finds the archive to link with: the file that `SCTP_ASSOC_ARCHIVE` names, else what `./library` built in the
//! checkout in which this crate lies, or what lies in the same release. With the feature `channels` it is the one of
//! `SCTP_CHANNELS_ARCHIVE` and of `./library channels`. On docs.rs, where nothing is linked, there need be none.
use std::path::{Path, PathBuf};
use std::{env, process};

/// Where the archive is: in `out/` of a checkout, or in `lib/` of a release.
fn lies_in(root: &Path, file: &str) -> PathBuf {
    let (built, released) = (root.join("out").join(file), root.join("lib").join(file));
    if released.exists() && !built.exists() {
        released
    } else {
        built
    }
}

fn main() {
    let root = Path::new(env!("CARGO_MANIFEST_DIR")).join("../../..");
    let (variable, file, command) = if env::var_os("CARGO_FEATURE_CHANNELS").is_some() {
        ("SCTP_CHANNELS_ARCHIVE", "libsctp_channels.a", "./library channels")
    } else {
        ("SCTP_ASSOC_ARCHIVE", "libsctp_assoc.a", "./library")
    };
    println!("cargo:rerun-if-env-changed={variable}");
    println!("cargo:rerun-if-env-changed=DOCS_RS");
    if env::var_os("DOCS_RS").is_some() {
        return;
    }
    let archive = match env::var_os(variable) {
        Some(named) => PathBuf::from(named),
        None => lies_in(&root, file),
    };
    println!("cargo:rerun-if-changed={}", archive.display());
    let name = archive.file_stem().and_then(|stem| stem.to_str()).and_then(|stem| stem.strip_prefix("lib"));
    let (Ok(path), Some(name)) = (archive.canonicalize(), name) else {
        eprintln!(
            "no archive at {}: run {command} in a checkout of sctp_assoc, and let {variable} name the file that it \
             prints; to build the documentation alone, set DOCS_RS",
            archive.display()
        );
        process::exit(1);
    };
    let folder = path.parent().unwrap_or(Path::new("/"));
    println!("cargo:rustc-link-search=native={}", folder.display());
    println!("cargo:rustc-link-lib=static={name}");
}
