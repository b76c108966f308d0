//! Tells cargo where 'sh tools/archive' writes the library.

fn main() {
    let tests = std::env::var("CARGO_MANIFEST_DIR").unwrap();
    let built = format!("{tests}/../target/staticlib");
    println!("cargo:rustc-link-search=native={built}");
    println!("cargo:rerun-if-changed={built}/libplanner_c.a");
}
