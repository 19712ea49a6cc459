//! Finds the library: in the folder that PASOLETU_LIB_DIR names, else where pkg-config says, else where Pasoletu's repository keeps
//! it. Documentation and `cargo check` need none, so that none is an error only for the linker.
use std::env;
use std::path::{Path, PathBuf};
use std::process::{exit, Command};

const HOW: &str = "run `install.sh PREFIX` in Pasoletu's repository, then set PASOLETU_LIB_DIR=PREFIX/lib, or \
    PKG_CONFIG_PATH=PREFIX/lib/pkgconfig";

fn stop(what: &str) -> ! {
    eprintln!("pasoletu: {what}");
    exit(1)
}

/// The libraries that may stand in a folder, the first there is taken: the file, and what the linker is told.
const LIBRARIES: [(&str, &str); 2] = [("libpasoletu.a", "static=pasoletu"), ("libpasoletu.so", "dylib=pasoletu")];

struct Library {
    dir: PathBuf,
    file: &'static str,
    link: &'static str,
}

fn library_in(dir: &Path) -> Option<Library> {
    let (file, link) = LIBRARIES.into_iter().find(|(file, _)| dir.join(file).is_file())?;
    let dir = dir.canonicalize().unwrap_or_else(|_| dir.to_path_buf());
    Some(Library { dir, file, link })
}

fn named() -> Option<Library> {
    let dir = PathBuf::from(env::var_os("PASOLETU_LIB_DIR")?);
    let library = library_in(&dir);
    let nothing = || stop(&format!("PASOLETU_LIB_DIR is {}, where no libpasoletu.a or libpasoletu.so is: {HOW}", dir.display()));
    Some(library.unwrap_or_else(nothing))
}

/// What a command writes on one line, if it ends well.
fn told(command: &mut Command) -> Option<PathBuf> {
    let output = command.output().ok().filter(|output| output.status.success())?;
    Some(PathBuf::from(String::from_utf8(output.stdout).ok()?.trim()))
}

/// By pkg-config, of this crate's version.
fn installed() -> Option<Library> {
    let tool = env::var_os("PKG_CONFIG").unwrap_or_else(|| "pkg-config".into());
    let wanted = concat!("pasoletu = ", env!("CARGO_PKG_VERSION"));
    library_in(&told(Command::new(tool).args(["--variable=libdir", wanted]))?)
}

/// By tools/built of the repository that this crate stands in: the archive that was built of its sources. Nothing is proved here.
fn built_here() -> Option<Library> {
    let here = PathBuf::from(env::var_os("CARGO_MANIFEST_DIR")?);
    let tool = here.ancestors().map(|dir| dir.join("tools/built")).find(|tool| tool.is_file())?;
    library_in(told(Command::new(tool).arg("archive"))?.parent()?)
}

fn main() {
    println!("cargo:rerun-if-changed=build.rs");
    for name in ["PASOLETU_LIB_DIR", "PKG_CONFIG", "PKG_CONFIG_PATH", "PKG_CONFIG_LIBDIR", "DOCS_RS"] {
        println!("cargo:rerun-if-env-changed={name}");
    }
    if env::var_os("CARGO_FEATURE_PARALLEL").is_some() && env::var_os("CARGO_FEATURE_RAYON").is_none() {
        stop("the feature `parallel` needs rayon: depend on bindings/rust/parallel, which is this crate with rayon");
    }
    if env::var_os("DOCS_RS").is_some() {
        return;
    }
    if env::var("CARGO_CFG_TARGET_ARCH").as_deref() != Ok("x86_64") {
        println!("cargo:warning=pasoletu: the library is for x86-64 only: nothing that calls it can be linked here");
        return;
    }
    match named().or_else(installed).or_else(built_here) {
        Some(library) => {
            println!("cargo:rerun-if-changed={}", library.dir.join(library.file).display());
            println!("cargo:rustc-link-search=native={}", library.dir.display());
            println!("cargo:rustc-link-lib={}", library.link);
        }
        None => {
            println!("cargo:warning=pasoletu: the library was not found: {HOW}");
            println!("cargo:rustc-link-lib={}", LIBRARIES[0].1);
        }
    }
}
