//! Lets tests and examples of this package find the library where it was linked.
fn main() {
    if let Ok(folder) = std::env::var("DEP_WOKURETI_FOLDER") {
        println!("cargo:rustc-link-arg=-Wl,-rpath,{folder}");
    }
}
