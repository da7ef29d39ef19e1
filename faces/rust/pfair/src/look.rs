use crate::ParseError;
use pfair_sys as sys;
use pfair_sys::raw::pfair_picture_look;
use std::fmt;
use std::str::FromStr;

/// How the tasks of a picture are drawn. As a text it is the word of the program's `--style`.
#[derive(Clone, Copy, Debug, Default, PartialEq, Eq, Hash)]
#[non_exhaustive]
pub enum Style {
    /// A task's windows in two rows in turn, over a strip of its lag.
    #[default]
    Strips,
    /// A task's windows one below the other.
    Stairs,
}

impl FromStr for Style {
    type Err = ParseError;

    fn from_str(name: &str) -> Result<Self, ParseError> {
        match name {
            "strips" => Ok(Style::Strips),
            "stairs" => Ok(Style::Stairs),
            _ => Err(ParseError::new(name, "style")),
        }
    }
}

impl fmt::Display for Style {
    fn fmt(&self, f: &mut fmt::Formatter<'_>) -> fmt::Result {
        f.write_str(match self {
            Style::Strips => "strips",
            Style::Stairs => "stairs",
        })
    }
}

/// How a picture looks.
///
/// ```
/// let look = pfair::Look { wrap: 50, ..pfair::Look::default() };
/// assert_eq!(look.cell, 20);
/// ```
#[derive(Clone, Copy, Debug, PartialEq, Eq, Hash)]
pub struct Look {
    /// How wide each slot is, 6 to 40.
    pub cell: u64,
    /// How many slots stand side by side, 1 to 4,096.
    pub wrap: u64,
    /// How the tasks are drawn.
    pub style: Style,
}

/// Slots 20 wide, all side by side, and strips.
impl Default for Look {
    fn default() -> Self {
        Look { cell: 20, wrap: 4_096, style: Style::Strips }
    }
}

impl From<Look> for pfair_picture_look {
    fn from(look: Look) -> Self {
        let style = match look.style {
            Style::Strips => sys::PFAIR_STRIPS,
            Style::Stairs => sys::PFAIR_STAIRS,
        };
        pfair_picture_look { cell: look.cell, wrap: look.wrap, style: style.into() }
    }
}
