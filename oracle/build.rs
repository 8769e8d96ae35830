//! Reads the original's two files, unchanged, from ORIGINAL (by default ../../shared/docs/src/src beside the repository) and
//! hangs a child module below each, through which this program sees what they keep private.
use std::path::PathBuf;
use std::{env, fs};

fn main() {
    println!("cargo:rerun-if-env-changed=ORIGINAL");
    let here = PathBuf::from(env::var("CARGO_MANIFEST_DIR").unwrap());
    let from = env::var("ORIGINAL").map_or(here.join("../../shared/docs/src/src"), PathBuf::from);
    let to = PathBuf::from(env::var("OUT_DIR").unwrap());
    for name in ["gaussian", "solver"] {
        let path = from.join(format!("{name}.rs"));
        println!("cargo:rerun-if-changed={}", path.display());
        let text = fs::read_to_string(&path).unwrap_or_else(|e| {
            panic!("{}: {e}; set ORIGINAL to the folder of the original's sources", path.display())
        });
        let child = here.join(format!("src/{name}_shown.rs"));
        let hung = format!("{text}\n#[path = {:?}]\npub mod shown;\n", child.display().to_string());
        fs::write(to.join(format!("{name}.rs")), hung).unwrap();
    }
    let modules = ["gaussian", "solver"].map(|name| {
        format!(
            "#[allow(dead_code, unused, clippy::all)]\n#[path = {:?}]\npub mod {name};\n",
            to.join(format!("{name}.rs")).display().to_string()
        )
    });
    fs::write(to.join("original.rs"), modules.concat()).unwrap();
}
