//! Reference model of the group order protocol: one sequencer numbers every
//! message, members take them in that order, and the history is purged only
//! of what every member has acknowledged. With a resilience degree r a message
//! is offered first, and taken only when r members other than 0 have it.
//!
//! When the sequencer's terminal dies the others make a group without it.
//!
//! The ends ([`sequencer`], [`member`]) and a [`terminal`], which has both,
//! never allocate; [`group`] and [`play`] drive the ends, [`world`] and
//! [`recover`] drive terminals. Nor does the [`journal`] of what was taken;
//! [`listing`] is its text.

pub mod answer;
pub mod group;
pub mod jobs;
pub mod journal;
pub mod limits;
pub mod listing;
pub mod load;
pub mod longest;
pub mod member;
pub mod members;
pub mod packet;
pub mod place;
pub mod plan;
pub mod play;
pub mod recover;
pub mod sequencer;
pub mod terminal;
pub mod world;

pub use answer::{Answer, Refusal};
