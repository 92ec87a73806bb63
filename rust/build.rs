//! Links the library's archive, which `tests/driver/archive` writes: the one that `NUOSKELMA_ARCHIVE` names, or `target/staticlib/libexports.a` of the
//! repository. It asks for nothing but the C library's `memset`, which every Rust program has.

use std::path::{Path, PathBuf};
use std::{env, process};

fn main() {
    println!("cargo:rerun-if-env-changed=NUOSKELMA_ARCHIVE");
    match env::var_os("NUOSKELMA_ARCHIVE") {
        Some(named) => link(Path::new(&named)),
        None if env::var("TARGET").is_ok_and(|target| target.starts_with("x86_64-") && target.contains("-linux-")) => link(&of_the_repository()),
        // types can be checked and pages written without an archive
        None => println!("cargo:warning=the archive is for x86-64 Linux: here this crate can be checked and cannot be linked"),
    }
}

fn of_the_repository() -> PathBuf {
    let here = env::var_os("CARGO_MANIFEST_DIR").expect("cargo names the folder of the manifest");
    Path::new(&here).join("../target/staticlib/libexports.a")
}

fn link(archive: &Path) {
    println!("cargo:rerun-if-changed={}", archive.display());
    let Ok(whole) = archive.canonicalize() else {
        eprintln!("there is no archive at {}", archive.display());
        eprintln!("write it with `tests/driver/archive` in the repository, or name another one by NUOSKELMA_ARCHIVE");
        process::exit(1);
    };
    let (Some(folder), Some(name)) = (whole.parent(), whole.file_name()) else {
        eprintln!("{} is no archive", archive.display());
        process::exit(1);
    };
    println!("cargo:rustc-link-search=native={}", folder.display());
    println!("cargo:rustc-link-lib=static:+verbatim={}", Path::new(name).display());
}
