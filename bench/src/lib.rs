//! The libraries measured against plain Rust.

pub mod plain;
pub mod stack;
pub mod subject;
pub mod work;
pub mod xive;
