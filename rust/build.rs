// Links the static libraries that c/libraries names and `c/build NAME` writes, from the folder that KNOTSADDLE_LIB_DIR
// names, or else from target/staticlib beside this folder: gate_c, and of the others those that are there.
use std::env;
use std::path::PathBuf;

fn main() {
    println!("cargo:rerun-if-env-changed=KNOTSADDLE_LIB_DIR");
    let folder = match env::var_os("KNOTSADDLE_LIB_DIR") {
        Some(folder) => PathBuf::from(folder),
        None => PathBuf::from(env::var_os("CARGO_MANIFEST_DIR").expect("set by cargo"))
            .join("../target/staticlib"),
    };
    println!("cargo:rustc-link-search=native={}", folder.display());
    for name in include_str!("../c/libraries").split_whitespace() {
        if name == "gate_c" || folder.join(format!("lib{name}.a")).exists() {
            println!("cargo:rustc-link-lib=static={name}");
        }
    }
}
