//! Links libspindle.a. It looks in the folder that SPINDLE_ARCHIVE names; then where pkg-config finds an installed library of this version
//! or a later one with the same first number; then in the repository that this crate stands in, if the library there is fresh. It proves
//! nothing: that takes minutes, and cargo would be silent about it.
use std::{env, ffi::OsString, path::PathBuf, process::Command};

fn stop(why: String) -> ! {
    eprintln!("spindle: {why}");
    std::process::exit(1)
}

/// What pkg-config prints, if it is there and its status is 0. It writes a blank in a path as `\\ `.
fn pkg_config(words: &[&str]) -> Option<String> {
    let said = Command::new(pkg_config_command()).args(words).output().ok()?;
    said.status.success().then(|| String::from_utf8_lossy(&said.stdout).trim().replace("\\ ", " "))
}

fn pkg_config_command() -> OsString {
    env::var_os("PKG_CONFIG").unwrap_or_else(|| "pkg-config".into())
}

/// The folder of an installed library, or why there is none to take.
fn installed() -> Result<PathBuf, String> {
    let wanted = env!("CARGO_PKG_VERSION");
    let Some(found) = pkg_config(&["--modversion", "spindle"]) else {
        if Command::new(pkg_config_command()).arg("--version").output().is_err() {
            let command = pkg_config_command();
            return Err(format!("the command {} cannot be run, so no installed library is looked for", command.to_string_lossy()));
        }
        return Err("pkg-config finds no spindle (PKG_CONFIG_PATH names the folder of its spindle.pc)".into());
    };
    let later = env!("CARGO_PKG_VERSION_MAJOR").parse::<u32>().unwrap() + 1;
    if pkg_config(&["--exists", &format!("spindle >= {wanted}"), &format!("spindle < {later}")]).is_none() {
        return Err(format!("pkg-config finds spindle {found}, and this crate is {wanted}"));
    }
    let folder = PathBuf::from(pkg_config(&["--variable=libdir", "spindle"]).unwrap_or_default());
    if folder.join("libspindle.a").is_file() {
        Ok(folder)
    } else {
        Err(format!("pkg-config finds spindle {found}, and there is no libspindle.a in its folder {}", folder.display()))
    }
}

/// The library of the repository that this crate stands in, or why there is none to take.
fn repository() -> Result<PathBuf, String> {
    let root = PathBuf::from(env::var_os("CARGO_MANIFEST_DIR").unwrap()).join("../..");
    if !root.join("crates.txt").is_file() || !root.join("build.sh").is_file() {
        return Err("this crate stands in no clone of its repository".into());
    }
    for part in ["crates.txt", "crates", "build.sh", "include", "tools", "target/native"] {
        println!("cargo:rerun-if-changed={}", root.join(part).display());
    }
    if Command::new("sh").arg(root.join("build.sh")).arg("--fresh").status().is_ok_and(|status| status.success()) {
        return Ok(root.join("target/native"));
    }
    let root = root.canonicalize().unwrap_or(root);
    Err(format!(
        "the repository's library is not built, or older than its sources: run sh {}/build.sh --archive (some minutes from nothing)",
        root.display()
    ))
}

fn main() {
    for name in ["SPINDLE_ARCHIVE", "PKG_CONFIG", "PKG_CONFIG_PATH", "PKG_CONFIG_LIBDIR"] {
        println!("cargo:rerun-if-env-changed={name}");
    }
    let folder = match env::var_os("SPINDLE_ARCHIVE") {
        Some(folder) => {
            let folder = PathBuf::from(folder);
            if !folder.join("libspindle.a").is_file() {
                let place = env::current_dir().map(|here| here.join(&folder)).unwrap_or(folder);
                stop(format!("SPINDLE_ARCHIVE names a folder without a libspindle.a: {}", place.display()));
            }
            folder
        }
        None => installed().unwrap_or_else(|first| {
            repository().unwrap_or_else(|second| {
                stop(format!(
                    "there is no library to link:\n  - {first}\n  - {second}\nSPINDLE_ARCHIVE may name the folder of a libspindle.a, too."
                ))
            })
        }),
    };
    // cargo does not look at the archive by itself, and would go on with the one it linked before
    println!("cargo:rerun-if-changed={}", folder.join("libspindle.a").display());
    println!("cargo:rustc-link-search=native={}", folder.display());
    println!("cargo:rustc-link-lib=static=spindle");
}
