//! What several tests use.
#![allow(dead_code)]

use std::path::{Path, PathBuf};

use second::geometry::Geometry;
use second::variant::Variant;
use second::{sheet_vectors, vectors};

/// The geometries that long sequences must cover.
pub const GEOMETRIES: [&str; 7] = [
    "1,2,2", "1,2,4", "4,2,3", "21,2,2", "10,4,3", "16,4,3", "64,8,4",
];

/// The builds that the vectors do not find, since no store of theirs has 256 pages in a level, and none
/// is full when a held pair is put. Replays find both.
pub const NOT_IN_VECTORS: [Variant; 2] = [Variant::PageByte, Variant::FullBeforeHeld];

/// The geometry of this text.
pub fn geometry(text: &str) -> Geometry {
    text.parse().expect("a geometry")
}

/// The texts of the vector files that hold cases.
pub fn vector_texts() -> Vec<String> {
    vectors::texts(&vector_folder()).unwrap_or_else(|message| panic!("{message}"))
}

/// The text of the vector file that holds sheets.
pub fn sheet_text() -> String {
    sheet_vectors::text(&vector_folder()).unwrap_or_else(|message| panic!("{message}"))
}

/// The folder of the vector files.
fn vector_folder() -> PathBuf {
    Path::new(env!("CARGO_MANIFEST_DIR")).join("vectors")
}
