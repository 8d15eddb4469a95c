//! Disks that drive emulators take, from raw sectors and back. The library `ism` decides what is a sector; this program
//! knows containers and geometry.
//!
//! A container (`hfe`, `mfm`, `dmk`) becomes a [`disk::Disk`], for each track and side the half cells of one turn, and
//! back. `track` shows a turn to the library, `make` makes one from sectors; `assemble` puts sectors in their places in
//! a raw image.

#![forbid(unsafe_code)]

pub mod arguments;
pub mod assemble;
mod bytes;
pub mod commands;
pub mod disk;
pub mod dmk;
pub mod failure;
pub mod files;
pub mod format;
pub mod geometry;
pub mod hfe;
pub mod list;
pub mod make;
pub mod mfm;
pub mod progress;
pub mod read;
pub mod timing;
pub mod track;
pub mod unread;
