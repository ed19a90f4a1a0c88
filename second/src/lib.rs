//! A second scheduler, written from the published rules alone. It keeps the whole history and tests rings over all of it.

pub mod cases;
pub mod history;
pub mod rules;
pub mod steps;
pub mod text;
