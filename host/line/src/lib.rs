#![doc = include_str!("../README.md")]
#![forbid(unsafe_code)]

pub mod candidate;
pub mod echoes;
pub mod follower;
pub mod fresh;
pub mod invigilator;
pub mod message;
pub mod pieces;
pub mod places;
pub mod seal;
pub mod sittings;

pub use candidate::Candidate;
pub use follower::Follower;
pub use fresh::{State, Word};
pub use invigilator::{Invigilator, Taken};
pub use message::Question;
pub use seal::{SharedKey, LONGEST};
