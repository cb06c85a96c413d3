// Links the archive of inner steps that tests/native makes.
fn main() {
    let root = concat!(env!("CARGO_MANIFEST_DIR"), "/../..");
    println!("cargo:rustc-link-search=native={}/target/native", root);
    println!("cargo:rustc-link-lib=static=bench_steps");
    println!("cargo:rerun-if-changed={}/target/native/libbench_steps.a", root);
}
