//! Links libism.a.

#[path = "../library.rs"]
mod library;

fn main() {
    library::link("ism");
}
