//! The crate's version, and the library's.
use rook_row::{library_version, raw, VERSION};

/// The two are written apart and made together.
#[test]
fn one_version() {
    let (major, minor, patch) = library_version();
    assert_eq!(VERSION, format!("{major}.{minor}.{patch}"));
    assert_eq!(raw::version(), u32::from_be_bytes([0, major, minor, patch]));
}
