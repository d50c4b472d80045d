// The proved library, as bench/run leaves it.
fn main() {
    println!("cargo:rustc-link-search=native=target");
    println!("cargo:rustc-link-lib=static=api");
    println!("cargo:rerun-if-changed=target/libapi.a");
}
