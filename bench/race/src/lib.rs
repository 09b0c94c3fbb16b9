//! What the race and its tests share: a whole record as the library reads it, and the day over which it is raced.
#![deny(missing_docs, unsafe_code)]

pub mod day;
pub mod library;
