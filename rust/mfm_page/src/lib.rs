//! Page masters for the desk embosser from braille files, and back. The libraries decide: `ism` what is a sector,
//! `ism_page` what is a page; `mfm_disk` knows containers. This program knows braille files, and where pages stand.
//!
//! A braille file (`brf`, `pef`) becomes [`page::Page`]s and back; `pages` turns them into a set of sectors and back;
//! `layout` puts the sectors on the tracks of a disk; `master` gathers them again.

#![forbid(unsafe_code)]

pub mod arguments;
pub mod book;
pub mod brf;
pub mod commands;
pub mod layout;
pub mod list;
pub mod master;
pub mod page;
pub mod pages;
pub mod pef;
pub mod words;
mod xml;
