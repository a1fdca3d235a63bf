//! The command, through the built program.

mod answers;
mod desk;
mod troubles;
