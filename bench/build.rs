// The library's functions, as `rt lib` in crates/bench_ffi builds them; BENCH_FFI names another folder, to time another state.
use std::env::var;
use std::process::Command;

fn main() {
    let here = var("CARGO_MANIFEST_DIR").unwrap();
    let folder = var("BENCH_FFI").unwrap_or(format!("{here}/../crates/bench_ffi/out"));
    let out = var("OUT_DIR").unwrap();
    let archive = format!("{folder}/libbench_ffi.a");
    let unaligned = format!("{out}/libbench_ffi.a");
    // Functions stand where they fall, and not at the next place of sixteen bytes: so PAD moves them by any number of bytes.
    let status = Command::new("objcopy").args(["--set-section-alignment", ".text*=1", &archive, &unaligned]).status();
    assert!(status.expect("objcopy").success());
    println!("cargo:rerun-if-env-changed=BENCH_FFI");
    println!("cargo:rerun-if-changed={archive}");
    println!("cargo:rustc-link-search=native={out}");
    println!("cargo:rustc-link-lib=static=bench_ffi");
    println!("cargo:rerun-if-env-changed=PAD");
    println!("cargo:rustc-env=PAD={}", var("PAD").unwrap_or("0".into()));
}
