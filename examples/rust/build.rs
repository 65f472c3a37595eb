//! Links the proved archive, and examples/heap.c as an archive behind it. scripts/build-c sets both folders.
use std::env;

fn main() {
    let here = env::var("CARGO_MANIFEST_DIR").unwrap();
    let archive = env::var("X86EMU_LIB").unwrap_or(format!("{here}/../../crates/x86emu_c/out"));
    let heap = env::var("X86EMU_HEAP").unwrap_or(format!("{here}/../../build-c"));
    println!("cargo:rustc-link-search=native={archive}");
    println!("cargo:rustc-link-search=native={heap}");
    println!("cargo:rustc-link-lib=static:-bundle=x86emu_c");
    println!("cargo:rustc-link-lib=static:-bundle=x86emu_heap");
    println!("cargo:rerun-if-changed={archive}/libx86emu_c.a");
    println!("cargo:rerun-if-env-changed=X86EMU_LIB");
    println!("cargo:rerun-if-env-changed=X86EMU_HEAP");
}
