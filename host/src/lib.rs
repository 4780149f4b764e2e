//! The judge: an independent program, written from document 01 and our readings of it, not from the proved code. It answers what the proved
//! programs answer, and compares them with itself on random and damaged inputs. Requests of document 02 are added as they land.

pub mod boundaries;
pub mod bounded;
pub mod chains;
pub mod compare;
pub mod desk;
pub mod families;
pub mod help;
pub mod month;
pub mod opening;
pub mod plan;
pub mod reading;
pub mod reduce;
pub mod refusal;
pub mod room;
pub mod run;
pub mod server;
pub mod side;
pub mod solution;
pub mod solve;
pub mod table;
pub mod text;
