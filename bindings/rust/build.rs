//! Links the static library: the installed one, which has all that is to be linked, or the one that `rt lib` built, with the
//! kit's shim over `malloc`.
use std::env;
use std::path::{Path, PathBuf};

/// What is linked, and from where.
struct Library {
    folder: PathBuf,
    name: &'static str,
}

impl Library {
    /// The one that is in this folder.
    fn of(folder: &Path) -> Option<Library> {
        let names = ["octet", "octet_c"];
        let name = names.into_iter().find(|name| folder.join(format!("lib{name}.a")).is_file())?;
        Some(Library { folder: folder.to_path_buf(), name })
    }

    fn link(&self) {
        println!("cargo::rustc-link-search=native={}", self.folder.display());
        println!("cargo::rustc-link-lib=static={}", self.name);
        println!("cargo::rerun-if-changed={}", self.folder.join(format!("lib{}.a", self.name)).display());
    }
}

/// The folder of the kit whose `rt` is on the path.
fn kit_of_rt() -> Option<PathBuf> {
    let paths = env::var_os("PATH")?;
    let rt = env::split_paths(&paths).map(|folder| folder.join("rt")).find(|file| file.is_file())?;
    Some(rt.canonicalize().ok()?.parent()?.parent()?.to_path_buf())
}

fn kit() -> Result<PathBuf, String> {
    let named = env::var_os("RATTLE_KIT").map(PathBuf::from);
    let kit = named
        .or_else(kit_of_rt)
        .ok_or("no `rt` is on the path, and RATTLE_KIT names no kit; its shim over malloc is linked")?;
    let shim = kit.join("c").join("liblibc_c.a");
    if shim.is_file() { Ok(kit) } else { Err(format!("{} is not there; RATTLE_KIT is to name Rattle's kit", shim.display())) }
}

/// The folders that a library is looked for in. A relative one counts from where cargo was called, and then from here.
fn folders(here: &Path) -> Vec<PathBuf> {
    let Some(named) = env::var_os("OCTET_LIB").map(PathBuf::from) else {
        return vec![here.join("../../crates/octet_c/out"), here.join("../../../lib")];
    };
    let called = env::var_os("PWD").map(PathBuf::from).filter(|_| named.is_relative());
    called.map(|called| called.join(&named)).into_iter().chain([named]).collect()
}

/// What to do where there is none. An installed copy brings its library.
fn advice(here: &Path) -> &'static str {
    if here.join("../../crates/octet_c").is_dir() {
        "`OCTET_LIB=$(bindings/unproved)`, at the top of the repository, compiles it in a minute, unproved; `rt lib` in \
         crates/octet_c proves and builds it"
    } else {
        "set OCTET_LIB to the folder of liboctet.a, which is lib in the folder that Octet was installed to"
    }
}

fn linked() -> Result<(), String> {
    let here = env::var_os("CARGO_MANIFEST_DIR").map(PathBuf::from).ok_or("cargo says not where the package is")?;
    let folders = folders(&here);
    let Some(library) = folders.iter().find_map(|folder| Library::of(folder)) else {
        let looked: Vec<_> = folders.iter().map(|folder| folder.display().to_string()).collect();
        return Err(format!("Octet's library is not in {}: {}", looked.join(", nor in "), advice(&here)));
    };
    library.link();
    if library.name == "octet_c" {
        Library { folder: kit()?.join("c"), name: "libc_c" }.link();
    }
    Ok(())
}

fn main() {
    println!("cargo::rerun-if-env-changed=OCTET_LIB");
    println!("cargo::rerun-if-env-changed=RATTLE_KIT");
    if let Err(fault) = linked() {
        println!("cargo::error={fault}");
    }
}
