//! Finds `libmysql_wire.a`: in the folder that MYSQL_WIRE_LIB_DIR names, by pkg-config, in the release
//! that this crate stands in, or where `make -C bindings/c` left it. One of another version is refused.

use std::env;
use std::fs;
use std::path::{Path, PathBuf};
use std::process::{exit, Command};

const ARCHIVE: &str = "libmysql_wire.a";
/// What stands in the library before its version.
const MARK: &str = "@(#)mysql_wire ";
/// What another answer of `by_pkg_config` hangs on.
const PKG_CONFIG: [&str; 4] =
    ["PKG_CONFIG", "PKG_CONFIG_PATH", "PKG_CONFIG_LIBDIR", "PKG_CONFIG_SYSROOT_DIR"];

/// A folder, and what names it.
type Named = (PathBuf, &'static str);

fn by_variable() -> Option<Named> {
    env::var_os("MYSQL_WIRE_LIB_DIR").map(|folder| (folder.into(), "MYSQL_WIRE_LIB_DIR names"))
}

fn by_pkg_config() -> Option<Named> {
    let program = env::var_os("PKG_CONFIG").unwrap_or_else(|| "pkg-config".into());
    let words = ["--variable=libdir", "mysql_wire"];
    let answer = Command::new(program).args(words).output().ok()?;
    let folder = String::from_utf8(answer.stdout).ok()?.trim().to_owned();
    (answer.status.success() && !folder.is_empty())
        .then(|| (folder.into(), "pkg-config answers"))
}

/// The folder of the release or of the repository, where this crate stands in one.
fn beside() -> Option<Named> {
    let here = PathBuf::from(env::var_os("CARGO_MANIFEST_DIR")?);
    let folders = ["../../../lib", "../../c/out"].map(|folder| here.join(folder));
    folders.into_iter().find(|folder| folder.join(ARCHIVE).exists()).map(|folder| (folder, "found"))
}

/// The version that stands in an archive.
fn version_in(archive: &Path) -> Option<String> {
    let bytes = fs::read(archive).ok()?;
    let at = bytes.windows(MARK.len()).position(|front| front == MARK.as_bytes())? + MARK.len();
    let end = bytes[at..].iter().position(|&byte| byte == 0)?;
    String::from_utf8(bytes[at..at + end].to_vec()).ok()
}

/// A version's first two numbers: what it hangs on whether these calls are the library's.
fn series(version: &str) -> Option<&str> {
    version.rsplit_once('.').map(|(series, _)| series)
}

fn refuse(reason: &str) -> ! {
    println!("cargo:warning={reason}");
    eprintln!(
        "{reason}\nUnpack the release of mysql_wire and set MYSQL_WIRE_LIB_DIR to its folder lib, or \
         install it and have pkg-config find it (PKG_CONFIG_PATH); in the repository run \
         `make -C bindings/c`."
    );
    exit(1);
}

fn main() {
    println!("cargo:rerun-if-changed=build.rs");
    for name in PKG_CONFIG.iter().chain(&["MYSQL_WIRE_LIB_DIR"]) {
        println!("cargo:rerun-if-env-changed={name}");
    }
    let Some((folder, named)) = by_variable().or_else(by_pkg_config).or_else(beside) else {
        refuse(&format!("{ARCHIVE} is not found"));
    };
    let archive = folder.join(ARCHIVE);
    println!("cargo:rerun-if-changed={}", archive.display());
    if !archive.exists() {
        refuse(&format!("{named} {}, which has no {ARCHIVE}", folder.display()));
    }
    let wanted = env!("CARGO_PKG_VERSION");
    match version_in(&archive) {
        None => refuse(&format!("{} is no archive of mysql_wire {wanted}", archive.display())),
        Some(found) if series(&found) != series(wanted) => refuse(&format!(
            "{} is of version {found}, and this crate for {wanted}",
            archive.display()
        )),
        Some(_) => {}
    }
    println!("cargo:rustc-link-search=native={}", folder.display());
    println!("cargo:rustc-link-lib=static=mysql_wire");
}
