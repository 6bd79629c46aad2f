//! Turns the C header into Rust declarations, so that each number, each refusal's words and each struct's layout stands in one
//! place, and links the engine's archive, which host/build writes to target/staticlib.

mod header;
mod rust;
mod tokens;

use std::error::Error;
use std::path::{Path, PathBuf};
use std::{env, fs};

/// The variable that names the archive's folder, where it is not in this checkout.
const FOLDER: &str = "CODWALET_ARCHIVE_FOLDER";

fn main() -> Result<(), Box<dyn Error>> {
    let here = PathBuf::from(env::var("CARGO_MANIFEST_DIR")?);
    let out = PathBuf::from(env::var("OUT_DIR")?);
    declare(&here.join("../include/codwalet.h"), &out.join("declarations.rs"))?;
    link(&archive_folder(&here)?);
    println!("cargo::rerun-if-changed=build");
    Ok(())
}

/// The folder that the variable names, else the one that host/build writes to.
fn archive_folder(here: &Path) -> Result<PathBuf, String> {
    println!("cargo::rerun-if-env-changed={FOLDER}");
    match env::var_os(FOLDER).map(PathBuf::from) {
        // The build runs in another folder than the one that a caller would mean.
        Some(folder) if folder.is_relative() => {
            Err(format!("{FOLDER} is '{}', not an absolute path", folder.display()))
        }
        Some(folder) => Ok(folder),
        None => Ok(here.join("../../target/staticlib")),
    }
}

fn declare(header: &Path, declarations: &Path) -> Result<(), Box<dyn Error>> {
    let name = header.display();
    println!("cargo::rerun-if-changed={name}");
    let text = fs::read_to_string(header).map_err(|why| format!("{name}: {why}"))?;
    let items = header::read(&text)
        .map_err(|unread| format!("{name}:{}: this is not one of the forms that build/header.rs reads", unread.line))?;
    Ok(fs::write(declarations, rust::write(&items))?)
}

fn link(folder: &Path) {
    let archive = folder.join("libabi.a");
    println!("cargo::rerun-if-changed={}", archive.display());
    if !archive.exists() {
        println!("cargo::warning={} is missing; host/build makes it, or {FOLDER} names its folder", archive.display());
    }
    println!("cargo::rustc-link-search=native={}", folder.display());
    println!("cargo::rustc-link-lib=static=abi");
}
