// Links the proved static library that `bench/run` has made.
fn main() {
    let folder = std::env::var("SPEED_LIB").expect("run this by bench/run, which sets SPEED_LIB");
    println!("cargo:rustc-link-search=native={folder}");
    println!("cargo:rustc-link-lib=static=speed");
    println!("cargo:rerun-if-env-changed=SPEED_LIB");
    println!("cargo:rerun-if-changed={folder}/libspeed.a");
}
