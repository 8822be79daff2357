//! Holds the proved cache pre-emption analysis against an independent one, and times it.

pub mod checks;
pub mod classes;
pub mod damage;
pub mod entry;
pub mod figures;
pub mod generate;
pub mod groups;
pub mod library;
pub mod model;
pub mod options;
pub mod plain;
pub mod random;
pub mod shrink;
pub mod values;
