//! Why something was not read: a text, with the texts of those who passed it up before it.
use std::fmt::{Display, Formatter};

#[derive(Debug)]
pub struct DecodeError(String);

impl DecodeError {
    pub fn buffer_too_small(has: usize, needs: usize) -> Self {
        Self(format!("record of {has} bytes is shorter than {needs}"))
    }
}

impl Display for DecodeError {
    fn fmt(&self, f: &mut Formatter<'_>) -> std::fmt::Result {
        f.write_str(&self.0)
    }
}

impl std::error::Error for DecodeError {}

impl From<String> for DecodeError {
    fn from(text: String) -> Self {
        Self(text)
    }
}

impl From<&str> for DecodeError {
    fn from(text: &str) -> Self {
        Self(text.to_string())
    }
}

pub trait ErrorContext<Text> {
    fn context(self, text: Text) -> Self;
}

impl<Text: Display> ErrorContext<Text> for DecodeError {
    fn context(self, text: Text) -> Self {
        Self(format!("{text}: {self}"))
    }
}

impl<Value, Text: Display> ErrorContext<Text> for Result<Value, DecodeError> {
    fn context(self, text: Text) -> Self {
        self.map_err(|error| error.context(text))
    }
}
