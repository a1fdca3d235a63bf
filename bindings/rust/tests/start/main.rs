//! The script `nitrasovy` at the repository's root, in small repositories of its own, where `rt` and
//! `cargo` are scripts that note their calls and make what the real ones would.

#[path = "../apart/mod.rs"]
mod apart;
mod building;
mod package;
mod passing;
mod trial;
mod troubles;
