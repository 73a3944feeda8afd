//! Links all_years beside the library, which host/rust links, the plain loops of the bench, and QuantLib if the bench is to have it.

use std::path::Path;
use std::process::Command;

fn main() {
    let folder = Path::new(env!("CARGO_MANIFEST_DIR")).join("../target/staticlib");
    println!("cargo:rustc-link-search=native={}", folder.display());
    println!("cargo:rustc-link-lib=static=all_years");
    // oracle/run sets it to the sum of both archives, so that they are linked anew when they change, whatever their times are.
    println!("cargo:rerun-if-env-changed=ORACLE_ARCHIVES");
    // oracle/run sets it to the version of QuantLib, or to nothing.
    println!("cargo:rerun-if-env-changed=ORACLE_QUANTLIB");
    println!("cargo:rerun-if-changed=build.rs");
    println!("cargo:rustc-check-cfg=cfg(quantlib)");
    link("fill_o2", "src/bench/fill.c", &["cc", "-O2", "-DLEVEL=2"]);
    link("fill_o3", "src/bench/fill.c", &["cc", "-O3", "-DLEVEL=3"]);
    link(
        "common_day",
        "src/bench/common_day.c",
        &["cc", "-O3", "-I../include"],
    );
    println!("cargo:rerun-if-changed=../include/trading_calendar.h");
    if std::env::var("ORACLE_QUANTLIB").is_ok_and(|version| !version.is_empty()) {
        link_quantlib();
    }
}

fn link_quantlib() {
    link("quantlib", "src/bench/quantlib.cpp", &["g++", "-O3"]);
    println!("cargo:rustc-link-lib=dylib=QuantLib");
    println!("cargo:rustc-link-lib=dylib=stdc++");
    println!("cargo:rustc-cfg=quantlib");
}

/// Compiles the source by this command.
fn link(name: &str, source: &str, compiler: &[&str]) {
    let folder = std::env::var("OUT_DIR").expect("a folder");
    let object = format!("{folder}/bench_{name}.o");
    let archive = format!("{folder}/libbench_{name}.a");
    let words = [&compiler[1..], &["-c", source, "-o", &object]].concat();
    run(Command::new(compiler[0]).args(words));
    run(Command::new("ar").args(["rcs", &archive, &object]));
    println!("cargo:rerun-if-changed={source}");
    println!("cargo:rustc-link-search=native={folder}");
    println!("cargo:rustc-link-lib=static=bench_{name}");
}

fn run(command: &mut Command) {
    let status = command.status();
    assert!(status.is_ok_and(|it| it.success()), "failed: {command:?}");
}
