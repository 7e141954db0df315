//! Finds the proved library and links it: that of the package, or the one that `scripts/callers` of the
//! repository leaves.

use std::path::{Path, PathBuf};
use std::{env, process};

/// A folder, and the static libraries in it that are linked, in this order.
struct Library {
    folder: PathBuf,
    names: &'static [&'static str],
}

/// Where the library is looked for: where `MAQELSUN_LIB_DIR` says, else in the package, else in the
/// repository.
fn library() -> Library {
    let own = Path::new(env!("CARGO_MANIFEST_DIR"));
    let target = env::var("TARGET").expect("cargo says the target");
    let packed = own.join("lib").join(target);
    match env::var_os("MAQELSUN_LIB_DIR") {
        Some(folder) => Library { folder: folder.into(), names: &["mp4_c", "libc_c"] },
        None if own.join("lib").is_dir() => Library { folder: packed, names: &["maqelsun"] },
        None => Library { folder: own.join("../../crates/mp4_c/out"), names: &["mp4_c", "libc_c"] },
    }
}

fn main() {
    println!("cargo:rerun-if-env-changed=MAQELSUN_LIB_DIR");
    let Library { folder, names } = library();
    for name in names {
        let archive = folder.join(format!("lib{name}.a"));
        println!("cargo:rerun-if-changed={}", archive.display());
        if !archive.is_file() {
            eprintln!("error: there is no {}", archive.display());
            eprintln!(
                "The package has the library for Linux on x86_64 and aarch64. In the repository of"
            );
            eprintln!(
                "Maqelsun `scripts/callers build` builds it; MAQELSUN_LIB_DIR names another folder"
            );
            eprintln!("with libmp4_c.a and liblibc_c.a.");
            process::exit(1);
        }
        println!("cargo:rustc-link-lib=static={name}");
    }
    println!("cargo:rustc-link-search=native={}", folder.display());
}
