//! Links the proved loops: `rt lib` writes an archive for each of the five crates.

fn main() {
    let here = std::env::var("CARGO_MANIFEST_DIR").expect("cargo says where the package is");
    let saved = std::env::var_os("CARGO_FEATURE_SAVED").map(|_| "speed_saved");
    for name in ["speed_steps_c", "speed_general_c", "speed_called", "speed_session"].into_iter().chain(saved) {
        let folder = format!("{here}/../crates/{name}/out");
        println!("cargo:rustc-link-search=native={folder}");
        println!("cargo:rustc-link-lib=static={name}");
        println!("cargo:rerun-if-changed={folder}/lib{name}.a");
    }
}
