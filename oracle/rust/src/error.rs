//! Stands in for the Rust's error module, which is not in the folder.

/// The kinds of error that the functions make or match.
#[derive(Debug)]
pub enum Error {
    Unsupported(String),
    Corrupt(String),
    NotFound(String),
}

pub type Result<T> = std::result::Result<T, Error>;

impl Error {
    /// The error's text.
    pub fn text(self) -> String {
        match self {
            Error::Unsupported(s) | Error::Corrupt(s) | Error::NotFound(s) => s,
        }
    }
}
