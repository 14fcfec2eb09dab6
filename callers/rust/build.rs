//! Links the two archives of the library. They are in the folder `CEDAR_LIBRARY_DIR`. If that variable is not set, they
//! are in `../out`, where `callers/run` writes them.
use std::path::Path;

fn main() {
    println!("cargo:rerun-if-env-changed=CEDAR_LIBRARY_DIR");
    let here = std::env::var("CARGO_MANIFEST_DIR").expect("cargo sets it");
    let folder = std::env::var("CEDAR_LIBRARY_DIR").unwrap_or_else(|_| format!("{here}/../out"));
    for archive in ["libcedar_c.a", "liblibc_c.a"] {
        let path = Path::new(&folder).join(archive);
        println!("cargo:rerun-if-changed={}", path.display());
        assert!(
            path.is_file(),
            "there is no {}. Run callers/run in the checkout, which writes both archives to callers/out. Or set \
             CEDAR_LIBRARY_DIR to a folder with libcedar_c.a and liblibc_c.a, for example callers/out/try, to which \
             callers/run-unproved writes them without proofs",
            path.display()
        );
    }
    println!("cargo:rustc-link-search=native={folder}");
    println!("cargo:rustc-link-lib=static=cedar_c");
    println!("cargo:rustc-link-lib=static=libc_c");
}
