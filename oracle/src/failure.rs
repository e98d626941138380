//! Why a command did not end well, and the exit status that tells.
use std::fmt;

#[derive(Debug, PartialEq, Eq)]
pub enum Failure {
    /// A difference, or something that the command needs is missing.
    Wrong(String),
    /// No difference, but among so few cases not each number was met.
    TooFew(String),
}

impl Failure {
    pub fn status(&self) -> i32 {
        match self {
            Failure::Wrong(_) => 1,
            Failure::TooFew(_) => 3,
        }
    }
}

impl fmt::Display for Failure {
    fn fmt(&self, to: &mut fmt::Formatter) -> fmt::Result {
        match self {
            Failure::Wrong(message) | Failure::TooFew(message) => to.write_str(message),
        }
    }
}

impl From<String> for Failure {
    fn from(message: String) -> Failure {
        Failure::Wrong(message)
    }
}

impl From<&str> for Failure {
    fn from(message: &str) -> Failure {
        Failure::Wrong(message.to_string())
    }
}

impl From<std::io::Error> for Failure {
    fn from(error: std::io::Error) -> Failure {
        Failure::Wrong(error.to_string())
    }
}
