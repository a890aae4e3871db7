//! Lists of what has to hold.

/// Checks that all of these hold. `Err` has the name of the first that does not, behind what it is of.
pub fn all_hold(what: &str, parts: &[(bool, &str)]) -> Result<(), String> {
    match parts.iter().find(|(holds, _)| !holds) {
        Some((_, name)) => Err(format!("{what}: {name}")),
        None => Ok(()),
    }
}
