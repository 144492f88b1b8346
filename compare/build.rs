//! Finds the libraries of the proved board, which `run.sh` makes.

use std::env;

fn main() {
    println!("cargo::rerun-if-env-changed=PROVED_BOARD");
    if let Ok(folder) = env::var("PROVED_BOARD") {
        println!("cargo::rustc-link-search=native={folder}");
    }
}
