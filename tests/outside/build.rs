//! Links the runtimes of the sanitizers that ISM_SANITIZE names, for a libism.a that gcc compiled with them. Linked as
//! libraries of the program they come before the C library, as the address sanitizer asks.

fn main() {
    println!("cargo:rerun-if-env-changed=ISM_SANITIZE");
    for name in std::env::var("ISM_SANITIZE").unwrap_or_default().split(',').filter(|name| !name.is_empty()) {
        let runtime = match name {
            "address" => "asan",
            "undefined" => "ubsan",
            other => panic!("no runtime is known for the sanitizer {other}"),
        };
        println!("cargo:rustc-link-lib=dylib={runtime}");
    }
}
