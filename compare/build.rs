//! Links the archive of exported functions, named by GF_LIB, and finds out
//! which functions it has: each is a cfg of its own name.

use std::env;
use std::process::Command;

fn main() {
    println!("cargo::rerun-if-env-changed=GF_LIB");
    // The archive's sum: its date may be older than the last build.
    println!("cargo::rerun-if-env-changed=GF_LIB_SUM");
    println!("cargo::rerun-if-env-changed=PLACEMENT");
    println!("cargo::rerun-if-changed=build.rs");
    if let Ok(seed) = env::var("PLACEMENT") {
        println!("cargo::rustc-link-arg=-Wl,--shuffle-sections=.text*={seed}");
    }
    let mut exported = Vec::new();
    if env::var_os("CARGO_FEATURE_OURS").is_some() {
        let archive = env::var("GF_LIB").expect("GF_LIB names the archive");
        println!("cargo::rerun-if-changed={archive}");
        println!("cargo::rustc-link-arg={archive}");
        exported = functions(&archive);
    }
    for name in &exported {
        println!("cargo::rustc-cfg={name}");
    }
    println!("cargo::rustc-env=GF_EXPORTED={}", exported.join(" "));
}

/// The names of the archive's functions that begin as ours do.
fn functions(archive: &str) -> Vec<String> {
    let listed = Command::new("nm").args(["--extern-only", "--defined-only", archive]).output().expect("nm runs");
    assert!(listed.status.success(), "nm reads {archive}: {}", String::from_utf8_lossy(&listed.stderr));
    let lines = String::from_utf8_lossy(&listed.stdout);
    let names = lines.lines().filter_map(|line| line.split_whitespace().nth(2));
    names.filter(|name| name.starts_with("gf_")).map(String::from).collect()
}
