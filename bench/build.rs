//! Links the crate `timing`, whose archive or object TIMING_LIB names: `bench/run` makes it. The reader itself comes with the crate
//! `owlgantry`.
use std::{env, path::Path};

fn main() {
    println!("cargo:rerun-if-env-changed=TIMING_LIB");
    let timing = env::var("TIMING_LIB").expect("TIMING_LIB names the archive or the object of `timing`");
    println!("cargo:rerun-if-changed={timing}");
    assert!(Path::new(&timing).is_file(), "{timing} is missing");
    println!("cargo:rustc-link-arg={timing}");
}
