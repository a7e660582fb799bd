//! Stand-in for anyhow: an error that is a text.
use std::fmt::Display;

#[derive(Debug)]
pub struct Error(pub String);

pub trait Context<Value> {
    fn context(self, text: &str) -> Result<Value, Error>;
}

impl<Value, Inner: Display> Context<Value> for Result<Value, Inner> {
    fn context(self, text: &str) -> Result<Value, Error> {
        self.map_err(|error| Error(format!("{text}: {error}")))
    }
}
