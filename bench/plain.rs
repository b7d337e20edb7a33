// The same calls in Rust: the same checks, answers and bytes. Where good Rust can be written in more than one way, there is
// more than one, and the fastest counts. Each call passes one boundary that is not inlined, as the proved ones do.
pub mod edits;
pub mod fields;
pub mod labels;
pub mod registers;
pub mod tables;
