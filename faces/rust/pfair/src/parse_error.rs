use std::fmt;

/// A text that is no value of the kind that was asked for.
#[derive(Clone, Debug, PartialEq, Eq, Hash)]
pub struct ParseError {
    text: String,
    kind: &'static str,
}

impl ParseError {
    pub(crate) fn new(text: &str, kind: &'static str) -> Self {
        ParseError { text: text.to_string(), kind }
    }
}

impl fmt::Display for ParseError {
    fn fmt(&self, f: &mut fmt::Formatter<'_>) -> fmt::Result {
        write!(f, "{:?} is no {}", self.text, self.kind)
    }
}

impl std::error::Error for ParseError {}
