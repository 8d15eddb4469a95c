//! Links libism_page.a.

#[path = "../library.rs"]
mod library;

fn main() {
    library::link("ism_page");
}
