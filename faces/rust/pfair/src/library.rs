use crate::desk::text;
use crate::Error;
use pfair_sys as sys;

/// The version of the library.
pub fn version() -> String {
    text(sys::version).expect("it takes no memory")
}

/// The name of a status or a reason in the table of refusals; none where neither has this number.
///
/// ```
/// assert_eq!(pfair::name(16).as_deref(), Some("JoinTwice"));
/// assert_eq!(pfair::name(5), None);
/// ```
pub fn name(number: u32) -> Option<String> {
    told(|room, count| sys::name(number, room, count))
}

/// What a status or a reason says, for people to read; none where neither has this number.
///
/// ```
/// assert_eq!(pfair::sentence(16).as_deref(), Some("another event joins the task"));
/// ```
pub fn sentence(number: u32) -> Option<String> {
    told(|room, count| sys::sentence(number, room, count))
}

/// The text of a number, where it has one.
fn told(mut call: impl FnMut(&mut [u8], &mut usize) -> u32) -> Option<String> {
    let known = call(&mut [], &mut 0) != sys::PFAIR_UNKNOWN_KIND;
    known.then(|| text(call).expect("it takes no memory"))
}

/// What the program's `check` tells of the bad records of a script of any version: a line for each, where it is and why it is
/// none.
///
/// # Errors
///
/// `NoMemory`.
///
/// ```
/// let script = "settings,65,4,4,64\nsettings,1,4,4,64\nstep,none\n";
/// let lines = [
///     "line 1, record 1, field 2: 65 is not within 1 to 64",
///     "line 3, record 3, field 2: \"none\" is no number of 1 to 15 digits",
/// ];
/// assert_eq!(pfair::script_faults(script)?, lines);
/// # Ok::<(), pfair::Error>(())
/// ```
pub fn script_faults(script: &str) -> Result<Vec<String>, Error> {
    lines(|room, count| sys::script_faults(script.as_bytes(), room, count))
}

/// The same of records, as they stand behind the settings in a script of version 2.
///
/// # Errors
///
/// `NoMemory`.
pub fn record_faults(records: &str) -> Result<Vec<String>, Error> {
    lines(|room, count| sys::record_faults(records.as_bytes(), room, count))
}

fn lines(call: impl FnMut(&mut [u8], &mut usize) -> u32) -> Result<Vec<String>, Error> {
    Ok(text(call)?.lines().map(str::to_string).collect())
}
