//! What the driver does for each command. `Ok(false)` is a comparison that failed, `Err` a command that could not be done.

pub mod archives;
pub mod kinds;
pub mod questions;

pub type Done = Result<bool, String>;
