//! A second implementation of document 01 beside the proved engine: see README.md.

pub mod best;
pub mod blind;
pub mod by_hand;
pub mod calls;
pub mod coverage;
pub mod deliveries;
pub mod engine;
pub mod examples;
pub mod layout;
pub mod letters;
pub mod lists;
pub mod model;
pub mod numbers;
pub mod owners;
pub mod record;
pub mod reply;
pub mod rng;
pub mod tuned;
