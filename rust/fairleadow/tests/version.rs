//! The archive is of the wrapper's version; that header, crates and change log are too, the test `version` of pages says.

use fairleadow::{RELEASE, VERSION};
use proved::Proved;

#[test]
fn archive_and_wrapper_have_one_version() {
    assert_eq!(Proved::version(), VERSION);
    assert_eq!(RELEASE.split('.').nth(1), Some(VERSION.to_string().as_str()));
}
