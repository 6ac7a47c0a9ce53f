//! The landing index's second program: the paper (docs/RULES.md) on plain `Vec`s.
//!
//! It shares nothing with the proved implementation and is meant to be obviously right,
//! not fast. Read the modules in this order.

pub mod geometry;
pub mod slot;
pub mod variant;

pub mod layout;
pub mod tree;
pub mod writing;

pub mod fault;
pub mod form;
pub mod reading;
pub mod sound;
pub mod walk;

pub mod calls;
pub mod script;
pub mod sheet;
pub mod why;

pub mod call;
pub mod cases;
pub mod sheet_vectors;
pub mod vectors;

pub mod beside;
pub mod chips;
pub mod damage;
pub mod digest;
pub mod generate;
pub mod pairs;
pub mod plan;
pub mod random;
pub mod replay;
pub mod sheets;
pub mod whys;

#[cfg(feature = "library")]
pub mod library;
