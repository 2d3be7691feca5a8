// The library is named from this folder, in which cargo runs the compiler, so that a copy links that of its own
// folder.
fn main() {
    println!("cargo:rustc-link-search=native=../../crates/bench/out");
    println!("cargo:rustc-link-lib=static=bench");
    println!("cargo:rerun-if-changed=../../crates/bench/out/libbench.a");
}
