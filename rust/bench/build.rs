//! Compiles the hand-tuned C, `hand/`, by the compiler that CC names, else by clang, else by
//! cc. Where none of them does it, the package is built without it: `cfg(hand_c)` is not
//! set.

use std::env;
use std::path::{Path, PathBuf};
use std::process::Command;

const PARTS: [&str; 2] = ["hand", "vertex"];
const FLAGS: [&str; 4] = ["-std=gnu11", "-O3", "-march=x86-64", "-fPIC"];

fn main() {
    println!("cargo:rustc-check-cfg=cfg(hand_c)");
    println!("cargo:rerun-if-env-changed=CC");
    println!("cargo:rerun-if-changed=hand");
    let folder = PathBuf::from(env::var_os("OUT_DIR").unwrap_or_default());
    let compiles = |compiler: &String| PARTS.iter().all(|part| compile(compiler, part, &folder));
    match compilers().into_iter().find(compiles) {
        Some(compiler) => {
            println!("cargo:rustc-cfg=hand_c");
            println!("cargo:rustc-env=HAND_COMPILER={compiler}");
            for part in PARTS {
                println!("cargo:rustc-link-arg={}", object(part, &folder).display());
            }
        }
        None => println!(
            "cargo:warning=no C compiler for x86-64: the benchmark leaves the hand-tuned C out"
        ),
    }
}

/// What to try, in this order. CC may have arguments after the compiler's name.
fn compilers() -> Vec<String> {
    if env::var("CARGO_CFG_TARGET_ARCH").as_deref() != Ok("x86_64") {
        return vec![];
    }
    match env::var("CC") {
        Ok(compiler) if !compiler.trim().is_empty() => vec![compiler],
        _ => vec!["clang".into(), "cc".into()],
    }
}

fn object(part: &str, folder: &Path) -> PathBuf {
    folder.join(part).with_extension("o")
}

/// Whether the compiler is there and does it.
fn compile(compiler: &str, part: &str, folder: &Path) -> bool {
    let mut words = compiler.split_whitespace();
    let mut command = Command::new(words.next().unwrap_or_default());
    command.args(words).args(FLAGS);
    command.arg("-c").arg(format!("hand/{part}.c"));
    command.arg("-o").arg(object(part, folder));
    command.status().is_ok_and(|status| status.success())
}
