//! The crate as its users call it.

mod examples;
mod memory;
mod morning_build;
mod refusals;
mod sheets;
mod worked;
