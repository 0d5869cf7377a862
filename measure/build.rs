// Compiles simdjson.cpp where simdjson is installed; without it the columns of simdjson stay empty.
use std::env;
use std::path::{Path, PathBuf};
use std::process::Command;

fn main() {
    println!("cargo:rerun-if-changed=simdjson.cpp");
    if !Path::new("/usr/include/simdjson.h").exists() {
        return;
    }
    let out = PathBuf::from(env::var_os("OUT_DIR").expect("set by cargo"));
    let object = out.join("parse.o");
    let compiled = Command::new("c++")
        .args(["-O3", "-std=c++17", "-fPIC", "-c", "simdjson.cpp", "-o"])
        .arg(&object)
        .status();
    let archived = Command::new("ar").arg("rcs").arg(out.join("libparse.a")).arg(&object).status();
    if matches!((compiled, archived), (Ok(a), Ok(b)) if a.success() && b.success()) {
        println!("cargo:rustc-cfg=simdjson");
        println!("cargo:rustc-link-search=native={}", out.display());
        println!("cargo:rustc-link-lib=static=parse");
        println!("cargo:rustc-link-lib=simdjson");
        println!("cargo:rustc-link-lib=stdc++");
    }
}
