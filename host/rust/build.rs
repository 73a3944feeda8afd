//! Links the static library of the calendar, from the first place that has it.

use std::env;
use std::path::{Path, PathBuf};
use std::process::{exit, Command};

const ARCHIVE: &str = "libtrading_calendar.a";

fn main() {
    println!("cargo:rerun-if-env-changed=TRADING_CALENDAR_LIB_DIR");
    println!("cargo:rerun-if-env-changed=PKG_CONFIG_PATH");
    // oracle/run sets it to a sum of the archive, so that a changed one is linked anew, whatever its time is.
    println!("cargo:rerun-if-env-changed=ORACLE_ARCHIVES");
    let folder = folder().unwrap_or_else(|message| {
        eprintln!("trading-calendar: {message}");
        exit(1)
    });
    println!("cargo:rerun-if-changed={}", folder.join(ARCHIVE).display());
    println!("cargo:rustc-link-search=native={}", folder.display());
    println!("cargo:rustc-link-lib=static=trading_calendar");
}

/// TRADING_CALENDAR_LIB_DIR alone if it is set; else that of this repository, or of an installation that pkg-config knows.
fn folder() -> Result<PathBuf, String> {
    if let Some(given) = env::var_os("TRADING_CALENDAR_LIB_DIR") {
        let given = PathBuf::from(given);
        let message = format!(
            "TRADING_CALENDAR_LIB_DIR is {}, which has no {ARCHIVE}",
            given.display()
        );
        return with_archive(given).ok_or(message);
    }
    let built = Path::new(env!("CARGO_MANIFEST_DIR")).join("../../target/staticlib");
    let message = format!(
        "{} has no {ARCHIVE}: make it by `host/build library`, or set TRADING_CALENDAR_LIB_DIR to a folder that has it",
        built.display()
    );
    with_archive(built)
        .or_else(|| installed().and_then(with_archive))
        .ok_or(message)
}

fn with_archive(folder: PathBuf) -> Option<PathBuf> {
    let folder = folder.canonicalize().ok()?;
    folder.join(ARCHIVE).is_file().then_some(folder)
}

fn installed() -> Option<PathBuf> {
    let words = ["--variable=libdir", "trading_calendar"];
    let output = Command::new("pkg-config").args(words).output().ok()?;
    let folder = String::from_utf8(output.stdout).ok()?;
    output.status.success().then(|| folder.trim().into())
}
