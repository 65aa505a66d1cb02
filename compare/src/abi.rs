//! The functions of the library, each by way of the recorder.
use crate::corpus::{recorded, Area};
bindings::recorder!();
