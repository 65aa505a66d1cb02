//! The functions of the library (include/analyser.h) and the lengths that go with them, declared by tools/bindings from their source.
include!(concat!(env!("OUT_DIR"), "/functions.rs"));

// The macro `recorder`: the same functions once more, each by way of the caller's own `recorded`.
include!(concat!(env!("OUT_DIR"), "/recorder.rs"));

/// What a program without the library does where it comes to need it.
#[cfg(feature = "unlinked")]
pub static MISSING: std::sync::OnceLock<fn() -> !> = std::sync::OnceLock::new();

#[cfg(feature = "unlinked")]
fn missing() -> ! {
    MISSING.get().expect("this program was built without the library")()
}
