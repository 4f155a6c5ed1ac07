//! The rules for triangles, their corners, pair decisions, footprint files, leak lists, the writing of files,
//! well-known text and files that arrive in pieces, written once more and apart from the proved crates, with
//! inputs to compare the two by.

pub mod arrival;
pub mod boxes;
pub mod case;
pub mod classes;
pub mod corners;
pub mod coverage;
pub mod decision;
pub mod drafts;
pub mod exact;
pub mod files;
pub mod footprint;
pub mod leaks;
pub mod lent;
pub mod library;
pub mod lists;
pub mod pages;
pub mod random;
pub mod runs;
pub mod table;
pub mod tally;
pub mod texts;
pub mod triangles;
pub mod wkt;
pub mod workloads;
pub mod writer;
