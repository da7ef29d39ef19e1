use crate::ParseError;
use pfair_sys as sys;
use std::fmt;
use std::str::FromStr;

/// A text that a desk has of itself: what the program pfair writes in a format (`docs/TABLES.md`), without reply lines. Its name is
/// that of the number in `pfair.h`, as `schedule` and `json`.
///
/// ```
/// # use pfair::Text;
/// assert_eq!("quanta".parse(), Ok(Text::Quanta));
/// assert_eq!(Text::Quanta.to_string(), "quanta");
/// assert!("replies".parse::<Text>().is_err());
/// ```
#[derive(Clone, Copy, Debug, PartialEq, Eq, Hash)]
#[non_exhaustive]
pub enum Text {
    /// CSV: the slots stepped, with a column for each processor.
    Schedule,
    /// CSV: how far each task inside is from its fair share.
    Lags,
    /// CSV: the missed windows.
    Misses,
    /// CSV: the denials.
    Denials,
    /// CSV: the events held.
    Events,
    /// A script that opens a desk as this one stands, for the program `pfair`.
    Script,
    /// The report as a line of JSON, one object.
    Json,
    /// CSV: how the processors were used.
    Processors,
    /// CSV: the figures of each task.
    Stats,
    /// The schedule as a chart in characters, at most 80 wide.
    Chart,
    /// CSV: the windows of each task.
    Windows,
    /// CSV: the jobs of each task.
    Jobs,
    /// CSV: load and room, where they change.
    Load,
    /// CSV: the schedule with a line for each quantum.
    Quanta,
    /// JSON: the run as trace events, for Perfetto and chrome://tracing.
    Trace,
    /// The schedule as a C header.
    C,
    /// The report with settings, events, figures and refused commands, as a line of JSON. A refused command is told by its
    /// number among those that the desk has answered, from 1 on.
    Full,
    /// A page to look around in, one file, of at most 65,536 slots.
    Html,
    /// The tables schedule, lags, misses and denials, each behind a line with its name.
    Tables,
}

/// The number and the name of each text.
const TEXTS: [(Text, u32, &str); 19] = [
    (Text::Schedule, sys::PFAIR_SCHEDULE, "schedule"),
    (Text::Lags, sys::PFAIR_LAGS, "lags"),
    (Text::Misses, sys::PFAIR_MISSES, "misses"),
    (Text::Denials, sys::PFAIR_DENIALS, "denials"),
    (Text::Events, sys::PFAIR_EVENTS, "events"),
    (Text::Script, sys::PFAIR_SCRIPT, "script"),
    (Text::Json, sys::PFAIR_JSON, "json"),
    (Text::Processors, sys::PFAIR_PROCESSORS, "processors"),
    (Text::Stats, sys::PFAIR_STATS, "stats"),
    (Text::Chart, sys::PFAIR_CHART, "chart"),
    (Text::Windows, sys::PFAIR_WINDOWS, "windows"),
    (Text::Jobs, sys::PFAIR_JOBS, "jobs"),
    (Text::Load, sys::PFAIR_LOAD, "load"),
    (Text::Quanta, sys::PFAIR_QUANTA, "quanta"),
    (Text::Trace, sys::PFAIR_TRACE, "trace"),
    (Text::C, sys::PFAIR_C, "c"),
    (Text::Full, sys::PFAIR_FULL, "full"),
    (Text::Html, sys::PFAIR_HTML, "html"),
    (Text::Tables, sys::PFAIR_TABLES, "tables"),
];

impl Text {
    fn told(self) -> (Text, u32, &'static str) {
        *TEXTS.iter().find(|it| it.0 == self).expect("each text is told")
    }

    pub(crate) fn number(self) -> u64 {
        self.told().1.into()
    }
}

impl FromStr for Text {
    type Err = ParseError;

    fn from_str(name: &str) -> Result<Self, ParseError> {
        let found = TEXTS.iter().find(|it| it.2 == name);
        found.map(|it| it.0).ok_or_else(|| ParseError::new(name, "text"))
    }
}

impl fmt::Display for Text {
    fn fmt(&self, f: &mut fmt::Formatter<'_>) -> fmt::Result {
        f.write_str(self.told().2)
    }
}

/// A text of slots, of which a part can be had. Its name is that of the text.
#[derive(Clone, Copy, Debug, PartialEq, Eq, Hash)]
#[non_exhaustive]
pub enum Part {
    /// As [`Text::Schedule`].
    Schedule,
    /// As [`Text::Chart`].
    Chart,
    /// As [`Text::Windows`]: the windows that lie in the slots.
    Windows,
    /// As [`Text::Load`].
    Load,
    /// As [`Text::Quanta`].
    Quanta,
}

/// Each part.
const PARTS: [Part; 5] = [Part::Schedule, Part::Chart, Part::Windows, Part::Load, Part::Quanta];

/// The whole text.
impl From<Part> for Text {
    fn from(part: Part) -> Text {
        match part {
            Part::Schedule => Text::Schedule,
            Part::Chart => Text::Chart,
            Part::Windows => Text::Windows,
            Part::Load => Text::Load,
            Part::Quanta => Text::Quanta,
        }
    }
}

impl Part {
    pub(crate) fn number(self) -> u64 {
        Text::from(self).number()
    }
}

impl FromStr for Part {
    type Err = ParseError;

    fn from_str(name: &str) -> Result<Self, ParseError> {
        let found = PARTS.into_iter().find(|it| Text::from(*it).told().2 == name);
        found.ok_or_else(|| ParseError::new(name, "text of slots"))
    }
}

impl fmt::Display for Part {
    fn fmt(&self, f: &mut fmt::Formatter<'_>) -> fmt::Result {
        Text::from(*self).fmt(f)
    }
}
