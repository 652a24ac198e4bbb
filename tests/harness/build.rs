//! Links `libspace_c.a` from the directory that `SPACE_LIB_DIR` names. Without it the harness is
//! built with nothing linked, and can only test itself, the reference and the console.

fn main() {
    println!("cargo::rustc-check-cfg=cfg(library_linked)");
    println!("cargo::rerun-if-env-changed=SPACE_LIB_DIR");
    println!("cargo::rerun-if-changed=build.rs");
    let Ok(directory) = std::env::var("SPACE_LIB_DIR") else {
        return;
    };
    let archive = std::path::Path::new(&directory).join("libspace_c.a");
    assert!(
        archive.is_absolute() && archive.is_file(),
        "SPACE_LIB_DIR must be the whole path of a directory with libspace_c.a, and is {directory}"
    );
    println!("cargo::rerun-if-changed={}", archive.display());
    println!("cargo::rustc-link-search=native={directory}");
    println!("cargo::rustc-link-lib=static=space_c");
    println!("cargo::rustc-cfg=library_linked");
}
