//! Why a text is no TOML.
use core::ops::Range;
use heap::string::{String, ToString};

#[derive(Debug)]
pub struct Error {
    /// None where memory ran out.
    at: Option<(usize, String)>,
}

impl Error {
    pub(crate) fn new(text: &str, error: &real::de::Error) -> Error {
        let mut message = error.to_string();
        let start = match error.line_col() {
            Some((line, column)) => {
                // It ends with the place, which is said apart.
                message.truncate(message.rfind(" at line ").unwrap_or(message.len()));
                place(text, line, column)
            }
            None => text.len(),
        };
        Error { at: Some((start, message)) }
    }

    pub(crate) fn too_deep(place: usize) -> Error {
        Error { at: Some((place, "cannot recurse further; max recursion depth met".to_string())) }
    }

    pub(crate) fn no_value() -> Error {
        Error { at: Some((0, "no value".to_string())) }
    }

    pub(crate) fn memory() -> Error {
        Error { at: None }
    }

    pub fn is_memory(&self) -> bool {
        self.at.is_none()
    }

    pub fn message(&self) -> &str {
        self.at.as_ref().map_or("out of memory", |(_, message)| message)
    }

    pub fn span(&self) -> Option<Range<usize>> {
        self.at.as_ref().map(|(start, _)| *start..*start)
    }
}

/// The place of a line and a column, both from 0 on, which counts octets.
fn place(text: &str, line: usize, column: usize) -> usize {
    let start: usize = text.split_inclusive('\n').take(line).map(str::len).sum();
    (start + column).min(text.len())
}
