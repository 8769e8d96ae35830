//! Compiles the dense solve, which needs Eigen 3; EIGEN names its folder.
use std::env;
use std::path::PathBuf;
use std::process::Command;

fn main() {
    println!("cargo:rerun-if-changed=dense.cpp");
    println!("cargo:rerun-if-env-changed=EIGEN");
    let to = PathBuf::from(env::var("OUT_DIR").unwrap());
    let eigen = env::var("EIGEN").unwrap_or("/usr/include/eigen3".to_string());
    for (name, machine) in [("dense", "-march=x86-64"), ("dense_wide", "-march=x86-64-v3")] {
        let object = to.join(format!("{name}.o"));
        let call = format!("-DCALL={name}_solve");
        let mut compiler = Command::new("g++");
        compiler.args([
            "-O3",
            "-DNDEBUG",
            "-std=c++17",
            "-fPIC",
            machine,
            &call,
            "-isystem",
            &eigen,
            "-c",
            "dense.cpp",
            "-o",
        ]);
        assert!(compiler.arg(&object).status().unwrap().success());
        println!("cargo:rustc-link-arg={}", object.display());
    }
    println!("cargo:rustc-link-lib=stdc++");
}
