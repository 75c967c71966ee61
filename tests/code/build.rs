//! Links libflic.a and libxive.a from target/staticlib, or from the folder that FLIC_LIB names.

fn main() {
    let root = std::path::Path::new(env!("CARGO_MANIFEST_DIR")).join("../..");
    let folder = match std::env::var("FLIC_LIB") {
        Ok(folder) => folder.into(),
        Err(_) => root.join("target/staticlib"),
    };
    println!("cargo:rerun-if-env-changed=FLIC_LIB");
    println!("cargo:rustc-link-search=native={}", folder.display());
    for name in ["flic", "xive"] {
        let library = folder.join(format!("lib{name}.a"));
        assert!(library.exists(), "{} is not there: tools/libraries {name}", library.display());
        println!("cargo:rerun-if-changed={}", library.display());
        println!("cargo:rustc-link-lib=static={name}");
    }
}
