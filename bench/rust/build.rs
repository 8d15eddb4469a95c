//! Links the plain C baseline from the folder ISM_PLAIN_DIR, where bench/run has put libism_plain.a.

fn main() {
    println!("cargo:rerun-if-env-changed=ISM_PLAIN_DIR");
    let folder =
        std::env::var("ISM_PLAIN_DIR").expect("ISM_PLAIN_DIR names the folder of libism_plain.a; use bench/run");
    println!("cargo:rerun-if-changed={folder}/libism_plain.a");
    println!("cargo:rustc-link-search=native={folder}");
    println!("cargo:rustc-link-lib=static=ism_plain");
    println!("cargo:rustc-link-lib=pthread");
}
