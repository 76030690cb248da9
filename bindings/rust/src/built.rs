//! What library is linked.
use crate::ffi;
use std::ffi::{c_char, CStr};

/// How the library that is linked was built.
#[derive(Clone, Copy, Debug, PartialEq, Eq, Hash)]
pub struct Built {
    /// As `0.1.0`.
    pub version: &'static str,
    /// The full hash of its sources' commit, or `unknown`.
    pub commit: &'static str,
    /// The kit that compiled it, and the logic that proved it.
    pub kit: &'static str,
    /// Whether it was proved as it was built.
    pub is_proved: bool,
}

/// What a program writes into its log, so that one knows later what it ran on. A wrong answer is
/// reported with it. The call takes no memory.
///
/// ```
/// let tscache::Built { version, commit, kit, is_proved } = tscache::built();
/// let how = if is_proved { "proved" } else { "not proved" };
/// println!("tscache {version} of {commit} by {kit}, {how}");
/// assert_eq!(version, env!("CARGO_PKG_VERSION"));
/// # assert!(!commit.is_empty() && !kit.is_empty());
/// ```
#[must_use = "it only tells what is linked"]
pub fn built() -> Built {
    // SAFETY: the library hands out a constant of its own, whose texts end with a zero byte and
    // stand for as long as the program runs
    unsafe {
        let built = &*ffi::tsc_built();
        Built {
            version: text(built.version),
            commit: text(built.commit),
            kit: text(built.kit),
            is_proved: built.proved,
        }
    }
}

/// A text of the library, which is in ASCII.
///
/// # Safety
///
/// It ends with a zero byte, and nothing changes or frees it.
unsafe fn text(of: *const c_char) -> &'static str {
    CStr::from_ptr(of).to_str().unwrap_or("not a text")
}
