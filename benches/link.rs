// Links the library that `rt lib` writes in crates/exports, and the kit's C code for memory.
fn main() {
    let exports = std::env::var("MEHALDUB_EXPORTS").expect("MEHALDUB_EXPORTS: the folder of libexports.a");
    println!("cargo:rustc-link-search=native={exports}");
    println!("cargo:rustc-link-lib=static=exports");
    println!("cargo:rerun-if-changed={exports}/libexports.a");
    let kit = std::env::var("RATTLE_KIT").expect("RATTLE_KIT: the kit's folder");
    println!("cargo:rustc-link-search=native={kit}/c");
    println!("cargo:rustc-link-lib=static=libc_c");
}
