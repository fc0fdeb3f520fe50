//! RookDB's row codec, commit 4401c3aafd (Apache-2.0): backend/error.rs and six
//! files of backend/types/, byte for byte as published (see SHA256SUMS). This
//! file gives them the module paths they name; `stand_ins` gives them the few
//! items of other RookDB modules that they lean on.

// The files are not ours to change, so no lint and no formatting of them.
#[allow(warnings, clippy::all)]
#[rustfmt::skip]
pub mod backend {
    pub mod error;
    pub mod types {
        pub mod bit_utils;
        pub mod datatype;
        pub mod null_bitmap;
        pub mod row;
        pub mod row_layout;
        pub mod value;

        pub use crate::stand_ins::{comparison, functions, validation};
    }
}

mod stand_ins;

pub use backend::types;

/// The crate whose dates and times `DataValue` holds.
pub use chrono;
