//! Seeded generators of tables, damaged files and step lists. The same seed
//! gives the same cases on every machine. Beside them the smallest example
//! of each code, found by search.

pub mod aim;
pub mod damage;
pub mod draft;
pub mod example;
mod harmless;
pub mod listing;
pub mod lock_asked;
pub mod lost;
pub mod made_up;
pub mod outside;
pub mod prng;
pub mod small_tables;
pub mod smallest;
pub mod steps;
pub mod tables;
pub mod way_asked;
pub mod ways;
