//! Finds the C library and has it linked: in the folder `ELEPHANT_LIB_DIR`, or else in `out` of the repository that this crate is a part
//! of, or else where `pkg-config` knows it. With the feature `file` it compiles `elephant_file.c` too: that of `ELEPHANT_FILE_SOURCE`, or
//! else that of the repository, or else the one that `pkg-config` knows.

use std::env;
use std::ffi::OsStr;
use std::path::{Path, PathBuf};
use std::process::{exit, Command};

const FOLDER: &str = "ELEPHANT_LIB_DIR";
const SOURCE: &str = "ELEPHANT_FILE_SOURCE";
const STATIC: &str = "libelephant.a";
const SHARED: &str = "libelephant.so";

/// Says what is missing, and ends the build.
fn fail(lack: &str) -> ! {
    eprintln!("{lack}");
    exit(1);
}

/// Returns the folder that the variable names. If the library isn't there, the build ends.
fn named() -> Option<PathBuf> {
    let folder = PathBuf::from(env::var_os(FOLDER)?);
    if !folder.join(STATIC).is_file() {
        fail(&format!(
            "there is no {}: build it by `./elephant library`, or set {FOLDER} to the folder that has it",
            folder.join(STATIC).display()
        ));
    }
    Some(folder)
}

/// Returns the top of the repository that this crate is a part of.
fn repository() -> Option<PathBuf> {
    let top = Path::new(&env::var_os("CARGO_MANIFEST_DIR")?).join("../..");
    top.join("crates.txt").is_file().then_some(top)
}

/// Returns the folder in which the repository of this crate builds the library, if it has one there.
fn built() -> Option<PathBuf> {
    let folder = repository()?.join("out");
    folder.join(STATIC).is_file().then_some(folder)
}

/// Returns a path of the library that is installed, in this version or a later one, or why `pkg-config` knows none.
fn installed(variable: &str) -> Result<PathBuf, String> {
    let program = env::var_os("PKG_CONFIG").unwrap_or_else(|| "pkg-config".into());
    let wanted = format!("elephant >= {}", env!("CARGO_PKG_VERSION"));
    let ran = Command::new(program).args(["--print-errors", &format!("--variable={variable}"), &wanted]).output();
    let answer = ran.map_err(|lack| format!("pkg-config doesn't run: {lack}"))?;
    if !answer.status.success() {
        let said = String::from_utf8_lossy(&answer.stderr);
        return Err(said.lines().next().unwrap_or("pkg-config knows none").to_owned());
    }
    Ok(PathBuf::from(String::from_utf8_lossy(&answer.stdout).trim()))
}

/// Returns the source of a store in a file.
fn file_source() -> PathBuf {
    let named = env::var_os(SOURCE).map(PathBuf::from);
    named.or_else(|| Some(repository()?.join("clients/c/src/elephant_file.c"))).unwrap_or_else(|| {
        installed("file").unwrap_or_else(|lack| fail(&format!("elephant_file.c isn't here: {lack}\nset {SOURCE} to its path")))
    })
}

/// Runs a tool of C.
fn run(variable: &str, usual: &str, words: &[&OsStr]) {
    let program = env::var_os(variable).unwrap_or_else(|| usual.into());
    match Command::new(&program).args(words).status() {
        Ok(status) if status.success() => {}
        Ok(status) => fail(&format!("{} failed: {status}", program.to_string_lossy())),
        Err(lack) => fail(&format!("{} doesn't run: {lack}\nthe feature `file` takes a C compiler", program.to_string_lossy())),
    }
}

/// Compiles a store in a file, and has it linked.
fn compile_file(out: &Path) {
    let source = file_source();
    let headers = source.ancestors().map(|it| it.join("include")).find(|it| it.join("elephant_file.h").is_file());
    let headers = headers.unwrap_or_else(|| fail(&format!("above {} there is no include/elephant_file.h", source.display())));
    let (object, archive) = (out.join("elephant_file.o"), out.join("libelephant_file.a"));
    let word = OsStr::new;
    let compiled = ["-std=c11", "-O2", "-fPIC", "-c", "-o"].map(word);
    run("CC", "cc", &[&compiled[..], &[object.as_os_str(), source.as_os_str(), word("-I"), headers.as_os_str()]].concat());
    run("AR", "ar", &[word("crs"), archive.as_os_str(), object.as_os_str()]);
    println!("cargo:rerun-if-changed={}", source.display());
    println!("cargo:rerun-if-changed={}", headers.join("elephant_file.h").display());
    println!("cargo:rustc-link-search=native={}", out.display());
    println!("cargo:rustc-link-lib=static=elephant_file");
}

fn main() {
    println!("cargo:rerun-if-changed=build.rs");
    for variable in [FOLDER, SOURCE, "CC", "AR", "PKG_CONFIG", "PKG_CONFIG_PATH", "PKG_CONFIG_LIBDIR"] {
        println!("cargo:rerun-if-env-changed={variable}");
    }
    let folder = named().or_else(built).unwrap_or_else(|| {
        installed("libdir").unwrap_or_else(|lack| {
            fail(&format!(
                "the C library of Elephant isn't here: {lack}\ninstall Elephant's package, or build the library by `./elephant library` \
                 in its repository, and set {FOLDER} to the folder that has {STATIC}"
            ))
        })
    });
    if env::var_os("CARGO_FEATURE_FILE").is_some() {
        compile_file(Path::new(&env::var_os("OUT_DIR").unwrap_or_default()));
    }
    let is_static = folder.join(STATIC).is_file();
    println!("cargo:rerun-if-changed={}", folder.join(if is_static { STATIC } else { SHARED }).display());
    println!("cargo:rustc-link-search=native={}", folder.display());
    println!("cargo:rustc-link-lib={}=elephant", if is_static { "static" } else { "dylib" });
}
