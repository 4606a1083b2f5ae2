//! The reference that the engine is compared with: images and messages read by plain Rust, edits
//! made by the upstream source over stand-ins for the two crates that it uses.

pub mod arguments;
pub mod bytes;
pub mod call;
pub mod convert;
pub mod drawing;
pub mod edit;
pub mod examples;
pub mod families;
pub mod family_counts;
pub mod figure;
pub mod generate;
pub mod image;
pub mod kept_messages;
pub mod magnitude;
pub mod message;
pub mod program;
pub mod recording;
pub mod refusal;
pub mod replication;
pub mod roots;
pub mod steps;
pub mod unmet;
pub mod upstream;
pub mod validity;
pub mod window;
