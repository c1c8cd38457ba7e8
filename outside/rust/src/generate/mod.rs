//! Seeded generators of models, instances, members and walks, sound and damaged.

pub mod cases;
pub mod damage_exact;
pub mod damage_instance;
pub mod damage_members;
pub mod damage_model;
pub mod damage_raw;
pub mod describe;
pub mod fixed;
pub mod instances;
pub mod members;
pub mod members_cases;
pub mod models;
pub mod random;
pub mod raw;
pub mod report;
