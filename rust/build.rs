use std::env;
use std::path::PathBuf;
use std::process::exit;

fn main() {
    println!("cargo:rerun-if-env-changed=STOERWJOK_LIB_DIR");
    if env::var_os("CARGO_FEATURE_LINKED").is_none() {
        return;
    }
    let folder = match env::var_os("STOERWJOK_LIB_DIR") {
        Some(folder) => PathBuf::from(folder),
        None => {
            PathBuf::from(env::var_os("CARGO_MANIFEST_DIR").unwrap()).join("../crates/export/out")
        }
    };
    let archive = folder.join("libexport.a");
    println!("cargo:rerun-if-changed={}", archive.display());
    if !archive.is_file() {
        eprintln!(
            "{} is not there; in crates/export run: rt lib",
            archive.display()
        );
        exit(1);
    }
    println!("cargo:rustc-link-search=native={}", folder.display());
    println!("cargo:rustc-link-lib=static=export");
}
