//! Links the proved libraries that `install/native` wrote.

fn main() {
    if std::env::var_os("CARGO_FEATURE_PROVED").is_none() {
        return;
    }
    let archives = format!("{}/../../target/native", env!("CARGO_MANIFEST_DIR"));
    println!("cargo:rustc-link-search=native={archives}");
    for name in ["test_calls", "daemon"] {
        println!("cargo:rustc-link-lib=static={name}");
        println!("cargo:rerun-if-changed={archives}/lib{name}.a");
    }
}
