//! The landing index beside its peers, in one run, as ratios: nothing here is a timed test.
//!
//! Read `index` and `trace` (what is run), `peer` and `bplus` (beside what), `clock`, `calls`,
//! `merges`, `pages`, `stack`, `size` (what is measured), `table`, `plot` and `report` (how it is told).

pub mod index;
pub mod trace;

pub mod bplus;
pub mod peer;

pub mod calls;
pub mod clock;
pub mod merges;
pub mod pages;
pub mod size;
pub mod stack;

pub mod plot;
pub mod report;
pub mod table;
