//! Builds what is in C++: Boost's edge colouring, the requests to callgrind, threads with a given stack, and BENCH_PLACE bytes before the
//! port.

use std::path::Path;
use std::process::Command;

fn run(command: &mut Command) {
    let status = command
        .status()
        .unwrap_or_else(|why| panic!("{command:?} does not start: {why}"));
    assert!(status.success(), "{command:?} failed");
}

fn main() {
    println!("cargo:rerun-if-changed=src/native.cpp");
    println!("cargo:rerun-if-env-changed=BENCH_PLACE");
    let place = std::env::var("BENCH_PLACE").unwrap_or("0".to_string());
    let folder = std::env::var("OUT_DIR").unwrap();
    let object = Path::new(&folder).join("native.o");
    // -O3 and no assertions, as cargo's release has it.
    run(Command::new("g++")
        .args([
            "-std=c++17",
            "-O3",
            "-DNDEBUG",
            &format!("-DPLACE={place}"),
            "-c",
            "src/native.cpp",
            "-o",
        ])
        .arg(&object));
    run(Command::new("ar")
        .arg("rcs")
        .arg(Path::new(&folder).join("libnative.a"))
        .arg(&object));
    println!("cargo:rustc-link-search=native={folder}");
    println!("cargo:rustc-link-lib=static=native");
    println!("cargo:rustc-link-lib=stdc++");
}
