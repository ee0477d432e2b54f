// Links the release's archive for the processor that is compiled for. HEIDEKLONK_LIB names another folder.
use std::{env, path::PathBuf, process};

fn main() {
    let target = env::var("TARGET").unwrap();
    let folder = match target.split('-').next().unwrap() {
        "thumbv6m" | "thumbv8m.base" => "thumbv6m",
        "thumbv7m" | "thumbv8m.main" => "thumbv7m",
        "thumbv7em" => "thumbv7em",
        "riscv32imc" | "riscv32imac" => "riscv32imc",
        "x86_64" if target.contains("linux") => "x86_64-linux",
        "aarch64" if target.contains("linux") => "aarch64-linux",
        _ => {
            eprintln!("heideklonk has no archive for {target}");
            process::exit(1);
        }
    };
    let release = PathBuf::from(env::var("CARGO_MANIFEST_DIR").unwrap()).join("..").join("lib").join(folder);
    let library = env::var("HEIDEKLONK_LIB").map(PathBuf::from).unwrap_or(release);
    println!("cargo:rustc-link-search=native={}", library.display());
    println!("cargo:rustc-link-lib=static=heideklonk");
    println!("cargo:rerun-if-env-changed=HEIDEKLONK_LIB");
}
