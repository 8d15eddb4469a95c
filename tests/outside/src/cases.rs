//! The groups of cases.

pub mod best;
pub mod bit_images;
pub mod clearances;
pub mod faults;
pub mod fields;
pub mod fifo;
pub mod held_down;
pub mod indexes;
pub mod limits;
pub mod locks;
pub mod long_lists;
pub mod margins;
pub mod merges;
pub mod old_disks;
pub mod pages;
pub mod pairs;
pub mod profiles;
pub mod reports;
pub mod sectors;
pub mod settled;
pub mod slow_drives;
pub mod stretch;
pub mod strip_texts;
pub mod strips;
pub mod track_sets;

use crate::paper::Eleven;

/// The paper's worked profile, B23 and B34 written twice each.
pub const WORKED: Eleven = [58, 29, 8, 10, 12, 36, 73, 73, 106, 106, 139];

/// The worked drive with the pairs that give it the largest margin, 12.
pub const PAIRED: Eleven = [58, 29, 8, 10, 12, 36, 75, 71, 108, 104, 139];

/// The worked drive with pairs further apart: up to half a window is decided by the cell before.
pub const HALFWAY: Eleven = [58, 29, 8, 10, 12, 36, 84, 60, 113, 98, 139];

/// The same with the larger number of each pair after any other.
pub const REVERSED: Eleven = [58, 29, 8, 10, 12, 36, 62, 84, 98, 114, 139];

/// A drive whose Normal is Late: 95 to 119 half clocks are class 3 after class 2, and 73 to 105 after any other.
pub const APART: Eleven = [58, 29, 0, 5, 5, 36, 95, 73, 120, 106, 139];

/// The same drive with pairs that overlap: 88 to 96 half clocks are class 2 after class 2, and class 4 after any other.
pub const OVERLAP: Eleven = [58, 29, 0, 5, 5, 36, 97, 73, 120, 88, 139];
