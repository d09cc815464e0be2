use crate::{ffi, had, is_of_this_version, OutOfMemory};
use std::error::Error;
use std::fmt;

/// What a check of rules came to, a comparison or a drawing.
#[derive(Clone, Copy, Debug, PartialEq, Eq)]
pub enum Outcome {
    /// Nothing is wrong, or differs.
    Clean,
    /// Something was found, the file means something else than it seems to, or something differs.
    Found,
    /// Rules clash, or one can't be compiled.
    Refused,
    /// A line is wrong, or a rule's text doesn't parse.
    Unread,
}

/// What a check of rules found, a comparison or a drawing.
#[derive(Clone, Debug, PartialEq, Eq)]
pub struct Checked {
    /// What it came to.
    pub outcome: Outcome,
    /// A line for each thing that was found, and for each automaton; what differs; or the pictures.
    pub findings: String,
    /// Why the rules can't be read or compiled; the warnings, unless lines are JSON.
    pub message: String,
}

/// Checks a file of rules of this name, as `tokens --check` does. Memory is as for [`Lexer::pieces`](crate::Lexer::pieces).
///
/// # Panics
///
/// If the library that was linked isn't of this crate's version. So do the other calls that give no [`CheckError`].
///
/// ```
/// use bajofeki::{check, Outcome};
///
/// let checked = check("IF = 0 'if'\nNAME = 1 /[a-z]+/\n", "my.rules");
/// assert_eq!(checked.outcome, Outcome::Found);
/// let line = checked.findings.lines().next();
/// assert_eq!(line, Some(r#"my.rules:1:9: IF never wins: NAME wins "if""#));
/// ```
pub fn check(rules: impl AsRef<[u8]>, name: &str) -> Checked {
    checked(try_check(rules, name))
}

/// The same, as `tokens --check --json` does: each line is an object of JSON, and warnings are among them.
///
/// ```
/// let found = bajofeki::check_json("A = 'a'\nB = 'a'\n", "f").findings;
/// assert!(found.starts_with(r#"{"file":"f","line":2,"column":6,"kind":"clash","#));
/// ```
pub fn check_json(rules: impl AsRef<[u8]>, name: &str) -> Checked {
    checked(try_check_json(rules, name))
}

/// Compares two files of rules of these names, as `tokens --diff` does: for each mode it tells the least text that they cut into
/// different tokens.
///
/// ```
/// use bajofeki::{diff, Outcome};
///
/// let differs = diff("A = 'a'\n", "old", "B = 'a'\n", "new");
/// assert_eq!(differs.outcome, Outcome::Found);
/// assert_eq!(differs.findings, "\"a\" is A in old, and B in new\n");
/// ```
pub fn diff(
    rules: impl AsRef<[u8]>,
    name: &str,
    other: impl AsRef<[u8]>,
    other_name: &str,
) -> Checked {
    checked(try_diff(rules, name, other, other_name))
}

/// Why nothing is drawn: no rule has the name. It shows what `tokens --dot` says.
#[derive(Clone, Debug, PartialEq, Eq)]
pub struct NoRule {
    message: String,
}

impl fmt::Display for NoRule {
    fn fmt(&self, f: &mut fmt::Formatter<'_>) -> fmt::Result {
        f.write_str(self.message.trim_end())
    }
}

impl Error for NoRule {}

/// Draws for Graphviz the automata of the modes of a file of rules, as `tokens --dot` does; or, if a name is given that isn't empty, of
/// the rules that have it.
///
/// # Errors
///
/// [`NoRule`] if no rule has the name.
///
/// ```
/// let rules = "A = 'a'\n";
/// assert!(bajofeki::dot(rules, "f", Some("A"))?.findings.starts_with("digraph {\n"));
/// assert!(bajofeki::dot(rules, "f", Some("B")).is_err());
/// # Ok::<(), bajofeki::NoRule>(())
/// ```
pub fn dot(rules: impl AsRef<[u8]>, name: &str, rule: Option<&str>) -> Result<Checked, NoRule> {
    match try_dot(rules, name, rule) {
        Err(CheckError::NoRule(error)) => Err(error),
        found => Ok(checked(found)),
    }
}

/// Why rules aren't checked, compared or drawn.
#[derive(Clone, Debug, PartialEq, Eq)]
#[non_exhaustive]
pub enum CheckError {
    /// No rule has the name.
    NoRule(NoRule),
    /// A request for memory was refused.
    OutOfMemory,
    /// The library that was linked isn't of this crate's version.
    OtherVersion,
}

impl fmt::Display for CheckError {
    fn fmt(&self, f: &mut fmt::Formatter<'_>) -> fmt::Result {
        match self {
            CheckError::NoRule(error) => error.fmt(f),
            CheckError::OutOfMemory => OutOfMemory.fmt(f),
            CheckError::OtherVersion => f.write_str("the linked library has another version"),
        }
    }
}

impl Error for CheckError {}

/// As [`check`], where refused memory and a library of another version are errors.
///
/// # Errors
///
/// [`CheckError::OutOfMemory`] or [`CheckError::OtherVersion`].
pub fn try_check(rules: impl AsRef<[u8]>, name: &str) -> Result<Checked, CheckError> {
    told(|| ffi::check(name, rules.as_ref(), false))
}

/// As [`check_json`], with the errors of [`try_check`].
///
/// # Errors
///
/// As for [`try_check`].
pub fn try_check_json(rules: impl AsRef<[u8]>, name: &str) -> Result<Checked, CheckError> {
    told(|| ffi::check(name, rules.as_ref(), true))
}

/// As [`diff`], with the errors of [`try_check`].
///
/// # Errors
///
/// As for [`try_check`].
pub fn try_diff(
    rules: impl AsRef<[u8]>,
    name: &str,
    other: impl AsRef<[u8]>,
    other_name: &str,
) -> Result<Checked, CheckError> {
    told(|| ffi::diff(name, rules.as_ref(), other_name, other.as_ref()))
}

/// As [`dot`], with the errors of [`try_check`].
///
/// # Errors
///
/// As for [`try_check`], and [`CheckError::NoRule`] if no rule has the name.
pub fn try_dot(
    rules: impl AsRef<[u8]>,
    name: &str,
    rule: Option<&str>,
) -> Result<Checked, CheckError> {
    told(|| ffi::dot(name, rules.as_ref(), rule.unwrap_or("")))
}

fn told(call: impl FnOnce() -> ffi::Answer) -> Result<Checked, CheckError> {
    if !is_of_this_version() {
        return Err(CheckError::OtherVersion);
    }
    let (code, findings, message) = call().map_err(|_| CheckError::OutOfMemory)?;
    let outcome = match code {
        0 => Outcome::Clean,
        1 => Outcome::Found,
        2 => Outcome::Refused,
        3 => Outcome::Unread,
        ffi::NO_RULE => return Err(CheckError::NoRule(NoRule { message })),
        _ => return Err(CheckError::OutOfMemory),
    };
    Ok(Checked {
        outcome,
        findings,
        message,
    })
}

fn checked(found: Result<Checked, CheckError>) -> Checked {
    match found {
        Err(CheckError::OutOfMemory) => had(Err(OutOfMemory)),
        Err(error) => panic!("bajofeki: {error}"),
        Ok(checked) => checked,
    }
}
