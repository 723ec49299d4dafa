//! `stow`: one program for planners, with the proved library inside.

#![warn(clippy::all, clippy::undocumented_unsafe_blocks)]
#![deny(unsafe_code)]

mod arguments;
pub mod cli;
mod commands;
pub mod day_file;
pub mod explain;
pub mod follow;
pub mod frame;
pub mod language;
pub mod look;
pub mod picture;
pub mod player;
pub mod refusal;
pub mod run;
pub mod say;
pub mod show;
#[allow(unsafe_code)]
mod system;
pub mod terminal;
pub mod ticket;
pub mod trouble;
pub mod waits;
