//! What `check` and `bench` share: the calls of the library, and the texts and
//! programs on which it is compared with the peer.

#![forbid(unsafe_code)]

pub mod before;
pub mod blocks;
pub mod comments;
pub mod library;
pub mod limits;
pub mod names;
pub mod orders;
pub mod places;
pub mod programs;
pub mod random;
pub mod runs;
pub mod texts;
