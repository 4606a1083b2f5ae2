//! Which library is linked: its interface, its version, and the versions of the two formats.

use crate::format::{IMAGE_VERSION, MESSAGE_VERSION};
use crate::raw;
use std::fmt;

/// The versions of the two formats that the engine reads and writes.
#[derive(Clone, Copy, Debug, PartialEq, Eq)]
pub struct Versions {
    /// That of images.
    pub image: u8,
    /// That of messages.
    pub message: u8,
}

/// The versions that this crate is written for.
pub const VERSIONS: Versions = Versions { image: IMAGE_VERSION, message: MESSAGE_VERSION };

/// Asks the engine for its versions.
///
/// ```
/// use mulkefi::{versions, Versions, VERSIONS};
///
/// assert_eq!(versions(), VERSIONS);
/// assert_eq!(VERSIONS, Versions { image: 1, message: 2 });
/// ```
pub fn versions() -> Versions {
    // SAFETY: the call takes nothing and only answers a number.
    let [.., image, message] = unsafe { raw::mulkefi_versions() }.to_be_bytes();
    Versions { image, message }
}

/// The number of the engine's interface that this crate is written for: its calls and what they take, which
/// may be others while the formats' versions stay.
///
/// ```
/// assert_eq!(mulkefi::INTERFACE, 2);
/// ```
pub const INTERFACE: u32 = 2;

/// Asks the engine for the number of its interface.
///
/// ```
/// assert_eq!(mulkefi::interface(), mulkefi::INTERFACE);
/// ```
pub fn interface() -> u32 {
    // SAFETY: the call takes nothing and only answers a number.
    unsafe { raw::mulkefi_interface() }
}

/// A version of the library: the number of its interface, then that of the additions to it, then that of
/// the corrections since.
///
/// ```
/// use mulkefi::LibraryVersion;
///
/// let version = LibraryVersion { major: 2, minor: 0, patch: 0 };
/// assert_eq!(version.to_string(), "2.0.0");
/// assert!(version < LibraryVersion { minor: 1, ..version });
/// ```
#[derive(Clone, Copy, Debug, PartialEq, Eq, PartialOrd, Ord, Hash)]
pub struct LibraryVersion {
    /// The number of the interface.
    pub major: u16,
    /// The number of additions to the interface.
    pub minor: u8,
    /// The number of corrections since the last addition.
    pub patch: u8,
}

impl fmt::Display for LibraryVersion {
    fn fmt(&self, f: &mut fmt::Formatter<'_>) -> fmt::Result {
        write!(f, "{}.{}.{}", self.major, self.minor, self.patch)
    }
}

/// The version of the library that this crate is written for, which is this crate's own version too.
///
/// ```
/// assert_eq!(mulkefi::LIBRARY_VERSION.to_string(), "2.0.0");
/// ```
pub const LIBRARY_VERSION: LibraryVersion = LibraryVersion { major: 2, minor: 0, patch: 0 };

/// Asks the engine for the library's version. A desk or a wall that starts compares the interface alone, so
/// that a library with additions and corrections may take this one's place.
///
/// ```
/// use mulkefi::{interface, library_version, LIBRARY_VERSION};
///
/// assert!(library_version() >= LIBRARY_VERSION);
/// assert_eq!(u32::from(library_version().major), interface());
/// ```
pub fn library_version() -> LibraryVersion {
    // SAFETY: the call takes nothing and only answers a number.
    let [high, low, minor, patch] = unsafe { raw::mulkefi_library_version() }.to_be_bytes();
    LibraryVersion { major: u16::from_be_bytes([high, low]), minor, patch }
}

/// # Panics
///
/// If the library has another interface than [`raw`] declares, or other versions than this crate's buffers
/// are made for.
pub fn check_library() {
    let found = interface();
    assert_eq!(
        found, INTERFACE,
        "the library mulkefi has interface {found}, and this crate calls interface {INTERFACE}"
    );
    let found = versions();
    assert_eq!(found, VERSIONS, "the library mulkefi has other formats' versions than this crate");
}

#[cfg(test)]
mod tests {
    use super::*;

    #[test]
    fn the_crate_has_the_version_of_its_library() {
        assert_eq!(LIBRARY_VERSION.to_string(), env!("CARGO_PKG_VERSION"));
        assert_eq!(u32::from(LIBRARY_VERSION.major), INTERFACE);
        assert_eq!(library_version(), LIBRARY_VERSION);
    }
}
