// Links the archive that tests/native makes.
fn main() {
    let root = concat!(env!("CARGO_MANIFEST_DIR"), "/../..");
    println!("cargo:rustc-link-search=native={}/target/native", root);
    println!("cargo:rustc-link-lib=static=face");
    println!("cargo:rerun-if-changed={}/target/native/libface.a", root);
}
