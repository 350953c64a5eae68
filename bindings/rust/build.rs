//! Finds the static library `libkulojenta_c.a`: in the folder that `KULOJENTA_LIB` names, from where cargo was called, or else where `rt lib` builds it in
//! this checkout. The C part of the Rattle kit, which the library calls for memory, is looked for beside it, and then in the kit.

use std::env;
use std::path::{Path, PathBuf};
use std::process::{exit, Command};

const LIBRARY: &str = "libkulojenta_c.a";
const C_PART: [&str; 2] = ["libc_c", "os_c"];
const TARGET: &str = "x86_64-unknown-linux-gnu";

fn main() {
    println!("cargo:rerun-if-env-changed=KULOJENTA_LIB");
    let target = env::var("TARGET").unwrap_or_default();
    if target != TARGET {
        stop(&format!("{LIBRARY} is for {TARGET}, and not for {target}"));
    }
    let folder = folder();
    let library = folder.join(LIBRARY);
    if !library.is_file() {
        stop(&format!(
            "there is no {}: make it by `checks/bindings --into FOLDER` of the repository, which wants rt, the command of the Rattle kit, and say in \
             KULOJENTA_LIB where FOLDER is; or have {LIBRARY} and the kit's {} from elsewhere in one folder, and say that",
            library.display(),
            c_part(),
        ));
    }
    link(&folder, "kulojenta_c");
    let part = c_folder(&folder).unwrap_or_else(|| {
        stop(&format!(
            "there are no {} beside {}: put them there, as `checks/bindings --into FOLDER` does, or have rt, the command of the Rattle kit, on the path",
            c_part(),
            library.display(),
        ))
    });
    for it in C_PART {
        link(&part, it);
    }
}

/// Where the library is looked for.
fn folder() -> PathBuf {
    let Some(named) = env::var_os("KULOJENTA_LIB").map(PathBuf::from) else {
        return Path::new(env!("CARGO_MANIFEST_DIR")).join("../../crates/kulojenta_c/out");
    };
    if named.is_absolute() {
        return named;
    }
    // (cargo runs this in the folder of the crate, and leaves PWD as it was)
    println!("cargo:rerun-if-env-changed=PWD");
    env::var_os("PWD")
        .map_or(PathBuf::new(), PathBuf::from)
        .join(named)
}

/// Links a static library of a folder, and anew when it changes.
fn link(folder: &Path, name: &str) {
    println!(
        "cargo:rerun-if-changed={}",
        folder.join(format!("lib{name}.a")).display()
    );
    println!("cargo:rustc-link-search=native={}", folder.display());
    println!("cargo:rustc-link-lib=static={name}");
}

/// The folder of the kit's C part: this one, or the kit's. (`rt doc` prints a page that stands beside it.)
fn c_folder(folder: &Path) -> Option<PathBuf> {
    let has_all = |it: &PathBuf| {
        C_PART
            .iter()
            .all(|name| it.join(format!("lib{name}.a")).is_file())
    };
    let of_kit = || {
        let said = Command::new("rt").arg("doc").output().ok()?;
        let page = String::from_utf8(said.stdout).ok()?;
        Some(Path::new(page.trim()).parent()?.join("c"))
    };
    Some(folder.to_path_buf())
        .filter(has_all)
        .or_else(|| of_kit().filter(has_all))
}

fn c_part() -> String {
    C_PART.map(|it| format!("lib{it}.a")).join(" and ")
}

/// Says why there is no library, and ends the build.
fn stop(why: &str) -> ! {
    eprintln!("kulojenta: {why}");
    exit(1)
}
