//! A second, independent implementation of the colour-space library.
//!
//! It is written from the customer's papers alone and serves as the yardstick: what it answers is compared, bit for bit,
//! with what the proved library answers. It is plain: a function does what a sentence of document 01 says, which stands
//! quoted above it, and nothing is done for speed. The operations take any input whatever and come back with a reply.
//!
//! Document 01's order: [`numbers`], [`block`], [`page`], [`cie`], [`colour`], [`recipe`], [`runner`], [`listing`];
//! document 02's: [`gamma`], [`inks`], [`text`], [`program`].
//! The rest serves tests and texts: [`generate`], [`records`], [`cases`], [`samples`].
#![forbid(unsafe_code)]

pub mod block;
pub mod cases;
pub mod cie;
pub mod colour;
pub mod gamma;
pub mod generate;
pub mod inks;
pub mod listing;
pub mod numbers;
pub mod page;
pub mod passed;
pub mod program;
pub mod recipe;
pub mod records;
pub mod runner;
pub mod samples;
pub mod text;
