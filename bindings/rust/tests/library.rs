//! What the package says where the library is not found, and examples on one processor.
use std::path::{Path, PathBuf};
use std::process::{Command, Output};
use std::{env, fs};

fn folder(name: &str) -> PathBuf {
    let folder = env::temp_dir().join(format!("octet-{name}-{}", std::process::id()));
    fs::create_dir_all(&folder).unwrap();
    folder
}

// What the build script says, for a package in this folder, called from there.
fn said(script: &Path, package: &Path, library: Option<&str>) -> String {
    let mut build = Command::new(script);
    build.env_clear().env("CARGO_MANIFEST_DIR", package).env("PWD", package).current_dir(package);
    if let Some(library) = library {
        build.env("OCTET_LIB", library);
    }
    let Output { status, stdout, stderr } = build.output().unwrap();
    assert!(status.success() && stderr.is_empty(), "{}", String::from_utf8_lossy(&stderr));
    String::from_utf8(stdout).unwrap()
}

#[test]
fn a_library_that_is_missing_is_told_with_what_to_do() {
    let here = folder("library");
    let script = here.join("build");
    let source = Path::new(env!("CARGO_MANIFEST_DIR")).join("build.rs");
    let rustc = env::var_os("RUSTC").unwrap_or("rustc".into());
    assert!(Command::new(rustc).args(["--edition=2024", "-o"]).args([&script, &source]).status().unwrap().success());
    // Of an installed copy: nothing of the repository is named.
    let installed = said(&script, &here, None);
    assert!(installed.contains("cargo::error=") && installed.contains("../../../lib"), "{installed}");
    assert!(installed.contains("liboctet.a") && !installed.contains("rt lib"), "{installed}");
    // Of the repository.
    let package = here.join("bindings/rust");
    fs::create_dir_all(&package).unwrap();
    fs::create_dir_all(here.join("crates/octet_c")).unwrap();
    let missing = said(&script, &package, None);
    assert!(missing.contains("crates/octet_c/out") && missing.contains("OCTET_LIB=$(bindings/unproved)"), "{missing}");
    // A relative folder counts from where cargo was called.
    let relative = said(&script, &package, Some("built"));
    assert!(relative.contains(&format!("{}/built", package.display())), "{relative}");
    fs::create_dir(package.join("built")).unwrap();
    fs::write(package.join("built/liboctet.a"), "").unwrap();
    assert!(said(&script, &package, Some("built")).contains("cargo::rustc-link-lib=static=octet\n"));
    // With the library of `rt lib`, but without the kit.
    fs::rename(package.join("built/liboctet.a"), package.join("built/liboctet_c.a")).unwrap();
    let no_kit = said(&script, &package, Some("built"));
    assert!(no_kit.contains("cargo::error=no `rt` is on the path"), "{no_kit}");
    fs::remove_dir_all(&here).unwrap();
}

#[test]
fn examples_run_on_one_processor() {
    let tests = env::current_exe().unwrap();
    let examples = tests.parent().and_then(Path::parent).unwrap().join("examples");
    let here = folder("one-processor");
    let named =
        [("bank", Some("bank")), ("deposits", None), ("lock", None), ("long", Some("long")), ("queue", None), ("stack", None)];
    for (name, file) in named {
        let example = examples.join(name);
        // Where only some tests are built, the examples may be missing.
        if !example.is_file() {
            eprintln!("{} is not built", example.display());
            continue;
        }
        let mut called = Command::new("taskset");
        called.args(["-c", "0"]).arg(&example).args(file).current_dir(&here);
        let Ok(Output { status, stderr, .. }) = called.output() else {
            return eprintln!("there is no taskset");
        };
        assert!(status.success(), "{name}: {}", String::from_utf8_lossy(&stderr));
    }
    fs::remove_dir_all(&here).unwrap();
}
