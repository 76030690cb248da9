//! Says where the library lies, and in which of its two forms it is linked.
//!
//! `TSCACHE_DIR` names the folder; without it `pkg-config` is asked, and then the folders that a
//! linker looks through. `TSCACHE_LINK` is `static` or `dylib`; without it the static library is
//! taken where it is there, and else the shared one. Where none is found, nothing is linked: that
//! does for `cargo check` and `cargo doc`.
use std::env::{self, VarError};
use std::path::{Path, PathBuf};
use std::process::Command;

/// The folders that a linker looks through, of the systems that there are. It may know more.
const KNOWN: [&str; 5] =
    ["/usr/local/lib", "/usr/lib", "/usr/lib64", "/lib", "/usr/lib/x86_64-linux-gnu"];

const ASK: &str = "set TSCACHE_DIR to PREFIX/lib of an installed release, or to the OUT of \
                   scripts/build library";

/// What the answer depends on, beside the library itself.
const ASKED: [&str; 6] = [
    "TSCACHE_DIR",
    "TSCACHE_LINK",
    "DOCS_RS",
    "PKG_CONFIG_PATH",
    "PKG_CONFIG_LIBDIR",
    "PKG_CONFIG_SYSROOT_DIR",
];

/// How a library is linked: the word for that, and the name of its file.
type Form = (&'static str, &'static str);

const STATIC: Form = ("static", "libtscache.a");
const DYLIB: Form = ("dylib", "libtscache.so");

/// The forms that will do, the one that is preferred first.
fn forms() -> Vec<Form> {
    match env::var("TSCACHE_LINK").as_deref() {
        Ok("static") => vec![STATIC],
        Ok("dylib") => vec![DYLIB],
        Err(VarError::NotPresent) => vec![STATIC, DYLIB],
        other => panic!("TSCACHE_LINK is static or dylib, and not {other:?}"),
    }
}

/// The folder that `pkg-config` names, if it is there and finds the library. It names none that a
/// linker looks through.
fn told_by_pkg_config() -> Option<PathBuf> {
    let told = Command::new("pkg-config").args(["--libs-only-L", "tscache"]).output().ok()?;
    let flag = String::from_utf8(told.stdout).ok()?;
    let folder = flag.trim().strip_prefix("-L")?.replace("\\ ", " ");
    told.status.success().then_some(folder.into())
}

/// The first of these forms in which the library is in a folder.
fn library(folder: &Path, forms: &[Form]) -> Option<(PathBuf, Form)> {
    let folder = folder.canonicalize().ok()?;
    let form = forms.iter().find(|(_, name)| folder.join(name).is_file())?;
    Some((folder, *form))
}

fn main() {
    for name in ASKED {
        println!("cargo:rerun-if-env-changed={name}");
    }
    if env::var_os("DOCS_RS").is_some() {
        return;
    }
    let forms = forms();
    let found = match env::var_os("TSCACHE_DIR").map(PathBuf::from) {
        Some(folder) => Some(library(&folder, &forms).unwrap_or_else(|| {
            let names: Vec<_> = forms.iter().map(|(_, name)| *name).collect();
            panic!("there is no {} in {}: {ASK}", names.join(" and no "), folder.display())
        })),
        None => told_by_pkg_config()
            .into_iter()
            .chain(KNOWN.map(PathBuf::from))
            .find_map(|folder| library(&folder, &forms)),
    };
    match found {
        Some((folder, (word, name))) => {
            let folder = folder.display();
            println!("cargo:rustc-link-search=native={folder}");
            println!("cargo:rustc-link-lib={word}=tscache");
            println!("cargo:rerun-if-changed={folder}/{name}");
        }
        None => {
            let (word, name) = forms[0];
            println!("cargo:warning=libtscache is not found, so no program can be linked: {ASK}");
            println!("cargo:rustc-link-lib={word}=tscache");
            // (a file that is missing has cargo look again each time)
            println!("cargo:rerun-if-changed={}/{name}", KNOWN[0]);
        }
    }
}
