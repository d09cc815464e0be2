//! Writes a lexer of a file of rules, in a build script, by the program `tokens`.
//!
//! ```no_run
//! // build.rs
//! bajofeki_build::lexer("mine.rules")?;
//! # Ok::<(), std::io::Error>(())
//! ```
//!
//! ```ignore
//! // src/main.rs
//! mod mine {
//!     include!(concat!(env!("OUT_DIR"), "/mine.rs"));
//! }
//! ```

#![forbid(unsafe_code)]
#![deny(missing_docs)]

use std::io::{Error, ErrorKind, Result};
use std::path::{Path, PathBuf};
use std::process::Command;
use std::{env, fs};

/// Writes the lexer of `NAME.rules` to the file `NAME.rs` in `OUT_DIR`, whose path it gives, and again when the rules change. The program
/// is `tokens`, or what `BAJOFEKI_TOKENS` names.
///
/// # Errors
///
/// What `tokens` says of the rules, or why it or a file can't be used.
pub fn lexer(rules: impl AsRef<Path>) -> Result<PathBuf> {
    let rules = rules.as_ref();
    println!("cargo:rerun-if-changed={}", rules.display());
    println!("cargo:rerun-if-env-changed=BAJOFEKI_TOKENS");
    let program = env::var_os("BAJOFEKI_TOKENS").unwrap_or_else(|| "tokens".into());
    let done = Command::new(&program)
        .args(["--emit", "rust", "--"])
        .arg(rules)
        .output()
        .map_err(|error| {
            Error::new(
                error.kind(),
                format!("{}: {error}", program.to_string_lossy()),
            )
        })?;
    if !done.status.success() {
        return Err(Error::new(
            ErrorKind::InvalidData,
            String::from_utf8_lossy(&done.stderr),
        ));
    }
    let folder = env::var_os("OUT_DIR").ok_or_else(|| {
        Error::new(
            ErrorKind::NotFound,
            "OUT_DIR isn't set: this is for a build script",
        )
    })?;
    let name = rules
        .file_stem()
        .ok_or_else(|| Error::new(ErrorKind::InvalidInput, "the rules are no file"))?;
    let path = Path::new(&folder).join(name).with_extension("rs");
    fs::write(&path, done.stdout)?;
    Ok(path)
}
