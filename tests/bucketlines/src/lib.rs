//! What the program bucketlines is to print, made without its code, and its examples.

pub mod due;
pub mod examples;
pub mod hex_text;
pub mod lines;
pub mod program;
pub mod stored;
