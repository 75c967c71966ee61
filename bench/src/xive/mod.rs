//! The sources of POWER9's controller, measured like the other one.

pub mod plain;
pub mod subject;
pub mod work;
