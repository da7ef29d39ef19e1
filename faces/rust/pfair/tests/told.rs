//! The cases of the program, crates/pfair/cases, of which a desk gives the same bytes: `run`, and `run -f FORMAT`, of a picture with
//! its look and its slots; and those of `check`, of which it finds the same faults.
use pfair::{Desk, Error, Look, Style, Text};
use std::collections::HashMap;
use std::fs;
use std::path::{Path, PathBuf};

/// The folders that have such cases.
const FOLDERS: [&str; 3] = ["check", "pictures", "run"];

const FORMATS: [(&str, Text); 16] = [
    ("schedule", Text::Schedule),
    ("lags", Text::Lags),
    ("misses", Text::Misses),
    ("denials", Text::Denials),
    ("events", Text::Events),
    ("script", Text::Script),
    ("report", Text::Json),
    ("processors", Text::Processors),
    ("stats", Text::Stats),
    ("chart", Text::Chart),
    ("windows", Text::Windows),
    ("jobs", Text::Jobs),
    ("load", Text::Load),
    ("quanta", Text::Quanta),
    ("c", Text::C),
    ("trace", Text::Trace),
];

/// The tables behind the replies.
fn tables(desk: &Desk) -> Result<String, Error> {
    Ok(format!("ready\n{}{}", desk.replies(0)?, desk.text(Text::Tables)?))
}

/// The picture that these words ask for.
fn picture(desk: &Desk, words: &[&str]) -> Option<Result<String, Error>> {
    let (mut look, mut slots) = (Look::default(), 0..desk.now());
    for pair in words.chunks(2) {
        match *pair {
            ["--style", "stairs"] => look.style = Style::Stairs,
            ["--wrap", wrap] => look.wrap = wrap.parse().ok()?,
            ["--cell", cell] => look.cell = cell.parse().ok()?,
            ["--from", from] => slots.start = from.parse().ok()?,
            ["--to", to] => slots.end = to.parse().ok()?,
            _ => return None,
        }
    }
    Some(desk.svg(slots, look))
}

/// What a desk writes that ran a script, where the program is run with these words behind `run`.
fn written(words: &[&str], desk: &Desk) -> Option<Result<String, Error>> {
    match words {
        [] | ["-f" | "--format", "tables"] => Some(tables(desk)),
        ["-f" | "--format", "svg", look @ ..] => picture(desk, look),
        ["-f" | "--format", format] => {
            let (_, text) = *FORMATS.iter().find(|(name, _)| name == format)?;
            Some(desk.text(text))
        }
        _ => None,
    }
}

/// What lacks settings is told once by a check, and of each record and the end by the library.
const UNSET: &str = "settings are expected";

/// The line and the text of each message of a check, without those that lack settings.
fn messages(out: &str) -> Vec<(&str, &str)> {
    let places = out.lines().filter_map(|it| it.strip_prefix("-:")?.split_once(": "));
    let told = places.map(|(place, text)| (place.split(':').next().expect("a line"), text));
    told.filter(|(_, text)| !text.starts_with(UNSET)).collect()
}

/// The same of the library's lines.
fn faults(lines: &[String]) -> Vec<(&str, &str)> {
    let told =
        lines.iter().map(|it| it.strip_prefix("line ").and_then(|it| it.split_once(": ")).expect("a line of a fault"));
    told.map(|(place, text)| (place.split(',').next().expect("a line"), text))
        .filter(|(_, text)| *text != UNSET)
        .collect()
}

/// Whether a message and a text of the library tell the same fault: of the number of fields, or of a text of the script.
fn is_same(message: &str, text: &str) -> bool {
    if message.contains(" is missing: ") || message.starts_with("a field too much: ") {
        return text.ends_with(" fields are expected") || text.starts_with("\"\" is no ");
    }
    let end = if text.starts_with('"') { text[1..].find('"').map(|it| it + 2) } else { text.find(' ') };
    message.contains(&text[..end.expect("what is shown ends")])
}

/// That the library finds the faults of a script which a check finds; of a file that is no script, some fault.
fn compare_faults(file: &Path, script: &str, out: &str) {
    let lines = pfair::script_faults(script).unwrap();
    assert_eq!(lines.is_empty(), out.ends_with(" 0 faults\n"), "{file:?}");
    if !out.starts_with("-:1:1: it ") {
        let (told, found) = (messages(out), faults(&lines));
        let are_same = told.iter().zip(&found).all(|(told, found)| told.0 == found.0 && is_same(told.1, found.1));
        assert!(are_same && told.len() == found.len(), "{file:?}: {found:?}");
    }
}

/// The name of the part that a line begins, and whether it is escaped.
fn heading(line: &str) -> Option<(&str, bool)> {
    let name = line.strip_prefix("-- ")?.strip_suffix(" --\n")?;
    let (name, is_escaped) = name.strip_suffix(", escaped").map_or((name, false), |name| (name, true));
    name.bytes().all(|byte| matches!(byte, b'a'..=b'z' | b'0'..=b'9' | b'.' | b'-')).then_some((name, is_escaped))
}

/// The text that stands escaped so, where it is one.
fn unescaped(part: &str) -> Option<String> {
    let (mut bytes, mut rest) = (Vec::new(), part);
    while let Some((front, escape)) = rest.split_once('\\') {
        bytes.extend(front.bytes());
        let length = if escape.starts_with('x') { 3 } else { 1 };
        match &escape[..length] {
            "\\" => bytes.push(b'\\'),
            "\n" => {}
            byte => bytes.push(u8::from_str_radix(&byte[1..], 16).expect("two digits")),
        }
        rest = &escape[length..];
    }
    bytes.extend(rest.bytes());
    String::from_utf8(bytes).ok()
}

/// The parts of a case (crates/pfair/cases/README.md) that are texts, by their names.
fn parts(case: &str) -> HashMap<&str, String> {
    let mut parts: Vec<(&str, bool, String)> = Vec::new();
    for line in case.split_inclusive('\n') {
        match heading(line) {
            Some((name, is_escaped)) => parts.push((name, is_escaped, String::new())),
            None => parts.last_mut().expect("a heading comes first").2 += line,
        }
    }
    let text = |is_escaped, part: String| if is_escaped { unescaped(&part) } else { Some(part) };
    parts.into_iter().filter_map(|(name, is_escaped, part)| Some((name, text(is_escaped, part)?))).collect()
}

/// Whether a case has a desk's text and was compared.
fn compared(file: &Path) -> bool {
    let case = fs::read_to_string(file).unwrap();
    let parts = parts(&case);
    let words: Vec<&str> = parts["words"].split_whitespace().collect();
    let (Some(script), Some(out)) = (parts.get("csv"), parts.get("out")) else { return false };
    if words == ["check"] {
        compare_faults(file, script, out);
        return true;
    }
    let ["run", words @ ..] = words.as_slice() else { return false };
    match Desk::open_script(script) {
        Ok(desk) => {
            let Some(text) = written(words, &desk) else { return false };
            assert_eq!(text.unwrap(), *out, "{file:?}");
        }
        Err(Error::BadRecord(bad)) if words.is_empty() => {
            assert_eq!(parts["err"].trim_end(), format!("bad record {}", bad.number), "{file:?}");
        }
        Err(_) => return false,
    }
    true
}

#[test]
fn desks_write_what_the_program_does() {
    let cases = Path::new(env!("CARGO_MANIFEST_DIR")).join("../../../crates/pfair/cases");
    let files = FOLDERS.iter().flat_map(|it| fs::read_dir(cases.join(it)).unwrap()).map(|file| file.unwrap().path());
    let done: Vec<PathBuf> = files.filter(|it| compared(it)).collect();
    let third = done.iter().filter(|it| it.file_name().unwrap().to_str().unwrap().starts_with("v3-"));
    assert!(third.count() > 40, "{done:?}");
    assert!(done.len() > 100, "{done:?}");
}

#[test]
fn bad_records_have_lines() {
    let faults = pfair::script_faults("settings,1,2,2,64\nstep,x\n").unwrap();
    assert_eq!(faults, ["line 2, record 2, field 2: \"x\" is no number of 1 to 15 digits"]);
}
