//! A separate engine for elementary object systems with two levels, as the rack planner uses them.
//!
//! `model`, `marking`, `step`, `weights`, `spread`, `convert` and `listing` read models, fire steps and check weights.
//! `column` and `pattern` say at which byte of its line a text is refused.
//! `own_run` is the firing rule's own run, without limits. `held` and `calls` give the calls of the C header.
//! `generate` makes inputs, `broken` deviations of this engine, and `comparer` sets two engines side by side.

pub mod big;
pub mod broken;
pub mod calls;
pub mod cause;
pub mod column;
pub mod comparer;
pub mod convert;
pub mod engine;
#[cfg(feature = "engine")]
pub mod ffi;
pub mod generate;
pub mod held;
pub mod listing;
pub mod marking;
pub mod model;
pub mod own_run;
pub mod pattern;
pub mod spread;
pub mod step;
pub mod text;
pub mod weights;
