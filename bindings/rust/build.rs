//! Finds the C library, in this order:
//!
//! - `ADF_LIBRARY`, the path of `libadf.a` or `libadf.so` as `install` leaves them, or of `libadf_c.a` with `ADF_LIBC`, the path
//!   of the toolchain's `liblibc_c.a`;
//! - in a clone: `crates/adf_c/out/libadf_c.a`, and the `liblibc_c.a` of the kit that `rt doc` names;
//! - the archive `libadf.a` that pkg-config finds as `adf`, so that a program starts wherever adf was installed. The shared library
//!   is linked if `ADF_LIBRARY` is the path of `libadf.so`, or if no archive is installed.

use std::env;
use std::ffi::OsStr;
use std::path::{Path, PathBuf};
use std::process::Command;

fn main() {
    println!("cargo:rerun-if-env-changed=ADF_LIBRARY");
    println!("cargo:rerun-if-env-changed=ADF_LIBC");
    if let Some(archive) = env::var_os("ADF_LIBRARY") {
        link(Path::new(&archive));
        if let Some(libc) = env::var_os("ADF_LIBC") {
            link(Path::new(&libc));
        }
        return;
    }
    let root = Path::new(env!("CARGO_MANIFEST_DIR")).join("../..");
    match (root.join("crates/adf_c/out/libadf_c.a"), kit()) {
        (archive, Some(kit)) if archive.exists() => {
            link(&archive);
            link(&kit.join("c/liblibc_c.a"));
        }
        _ => link_installed(),
    }
}

/// Links `FOLDER/libNAME.a`, or `FOLDER/libNAME.so`.
fn link(library: &Path) {
    let name = library.file_stem().and_then(|stem| stem.to_str()).and_then(|stem| stem.strip_prefix("lib"));
    let (folder, name) = match (library.parent(), name) {
        (Some(folder), Some(name)) => (folder, name),
        _ => panic!("{}: not the path of a library libNAME.a or libNAME.so", library.display()),
    };
    let kind = if library.extension() == Some(OsStr::new("so")) { "dylib" } else { "static" };
    println!("cargo:rerun-if-changed={}", library.display());
    println!("cargo:rustc-link-search=native={}", folder.display());
    println!("cargo:rustc-link-lib={kind}={name}");
}

/// What a command writes on one line, if it succeeds.
fn answer(command: &mut Command) -> Option<String> {
    let output = command.output().ok().filter(|output| output.status.success())?;
    String::from_utf8(output.stdout).ok().map(|text| text.trim().to_owned())
}

/// The folder of the toolchain.
fn kit() -> Option<PathBuf> {
    answer(Command::new("rt").arg("doc")).and_then(|page| Some(Path::new(&page).parent()?.to_owned()))
}

/// Links the installed archive; without one, what pkg-config says of the installed library.
fn link_installed() {
    let pkg_config = |flag| answer(Command::new("pkg-config").args([flag, "adf"]));
    let flags = pkg_config("--libs").expect(
        "no libadf: set ADF_LIBRARY to the path of libadf.a, run `rt lib` in crates/adf_c of a clone, \
         or have pkg-config find adf.pc (PKG_CONFIG_PATH)",
    );
    for name in ["PKG_CONFIG_PATH", "PKG_CONFIG_LIBDIR", "PKG_CONFIG_SYSROOT_DIR"] {
        println!("cargo:rerun-if-env-changed={name}");
    }
    if let Some(archive) = pkg_config("--variable=libdir").map(|folder| Path::new(&folder).join("libadf.a")) {
        if archive.exists() {
            return link(&archive);
        }
    }
    for flag in flags.split_whitespace() {
        match flag.split_at(flag.len().min(2)) {
            ("-L", folder) => println!("cargo:rustc-link-search=native={folder}"),
            ("-l", name) => println!("cargo:rustc-link-lib={name}"),
            _ => println!("cargo:rustc-link-arg={flag}"),
        }
    }
}
