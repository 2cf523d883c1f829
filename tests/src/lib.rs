//! A second, plain implementation of the rules, written from the rules document and the change requests
//! alone, and what is needed to set the player against it.

pub mod answer;
pub mod climb;
pub mod compare;
pub mod documents;
pub mod every;
pub mod expression;
pub mod file;
pub mod generate;
pub mod items;
pub mod longest;
pub mod optimised;
pub mod paper;
pub mod papers;
pub mod play;
pub mod player;
pub mod program;
pub mod random;
pub mod reference;
pub mod shown;
pub mod stack;
pub mod statement;
pub mod stopwatch;
pub mod tally;
pub mod workloads;
