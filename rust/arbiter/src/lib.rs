//! The parts of the daemon that its tests use too: the messages, and the calls of the proved library.
pub mod library;
pub mod protocol;
