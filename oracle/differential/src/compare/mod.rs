//! One comparison of each call.

use crate::Comparison;

pub mod build;
pub mod column_text;
pub mod edit;
pub mod fresh;
pub mod layout;
pub mod null_flag;
pub mod printed;
pub mod read;
pub mod rows;
pub mod same_content;
pub mod text;
pub mod value;
pub mod wide;

pub const ALL: [Comparison; 13] = [
    ("text", text::compare),
    ("schema and layout", layout::compare),
    ("null flag", null_flag::compare),
    ("value stored", value::store),
    ("slot read", value::slot),
    ("read", read::compare),
    ("read of every subset", read::every_subset),
    ("column text", column_text::compare),
    ("same content", same_content::compare),
    ("fresh", fresh::compare),
    ("build", build::compare),
    ("edit", edit::compare),
    ("printed list", printed::compare),
];
