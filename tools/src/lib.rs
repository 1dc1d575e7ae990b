//! What the tools for people have in common: the files of an archive, names and characters made visible, texts
//! in a page, and progress on a terminal.
#![deny(missing_docs)]

pub mod files;
pub mod markup;
pub mod progress;
pub mod visible;
