//! Links the libraries that `bench/run` built. RS_BENCH_LINK holds the linker's arguments, and RS_BENCH_LINKED the names of the
//! builds and other libraries that they contain.
use std::env::var;

const NAMES: [&str; 5] = ["plain", "v3", "plain_before", "v3_before", "isal"];

fn main() {
    println!("cargo:rerun-if-env-changed=RS_BENCH_LINK");
    println!("cargo:rerun-if-env-changed=RS_BENCH_LINKED");
    for name in NAMES {
        println!("cargo:rustc-check-cfg=cfg({name})");
    }
    for argument in var("RS_BENCH_LINK").unwrap_or_default().split_whitespace() {
        println!("cargo:rustc-link-arg={argument}");
        if !argument.starts_with('-') {
            println!("cargo:rerun-if-changed={argument}");
        }
    }
    for name in var("RS_BENCH_LINKED").unwrap_or_default().split_whitespace() {
        println!("cargo:rustc-cfg={name}");
    }
}
