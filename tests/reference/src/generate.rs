//! Made-up inputs, all drawn from a seed: plants, steps, texts and held structs, right ones and damaged ones.

pub mod alone;
pub mod counted;
pub mod damage;
pub mod held_damage;
pub mod limits;
pub mod line_damage;
pub mod maker;
pub mod plant;
pub mod rng;
pub mod special;
pub mod steps;
pub mod texts;
