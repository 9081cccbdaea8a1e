//! Finds the proved library's archive, has it built where it is missing or older than its sources, and links it.
//! The archive of inner rules, which only a test links, is built beside it.

mod archive;
mod identity;
mod teller;

use std::path::Path;

fn main() {
    let manifest = std::env::var("CARGO_MANIFEST_DIR").expect("cargo gives the package's folder");
    let repository = Path::new(&manifest).parent().expect("the package stands in the repository");
    println!("cargo::rerun-if-changed=build");
    println!("cargo::rerun-if-changed=src");
    let sources = archive::sources(repository);
    for source in &sources {
        println!("cargo::rerun-if-changed={}", source.display());
    }
    let folder = repository.join("target/staticlib");
    for name in ["stephylax", "inner_rules"] {
        archive::fresh(repository, &sources, &folder, name);
    }
    println!("cargo::rustc-link-search=native={}", folder.display());
    println!("cargo::rustc-link-lib=static=stephylax");
    identity::of_build(repository);
}
