//! The package where libreelpony.a is missing, and where REELPONY_LIB_DIR names its folder: cargo is
//! run for real, into folders of its own.

use std::collections::BTreeSet;
use std::env;
use std::fs;
use std::path::{Path, PathBuf};
use std::process::{Command, Output};

/// An empty folder of this name, for one test.
fn folder(name: &str) -> PathBuf {
    let folder = Path::new(env!("CARGO_TARGET_TMPDIR")).join("archive").join(name);
    if folder.exists() {
        fs::remove_dir_all(&folder).unwrap();
    }
    fs::create_dir_all(&folder).unwrap();
    folder.canonicalize().unwrap()
}

/// The library that this test itself was linked with.
fn archive() -> PathBuf {
    let named = env::var_os("REELPONY_LIB_DIR").filter(|name| !name.is_empty());
    let folder = named.map_or(common::root().join("target/staticlib"), |name| {
        Path::new(env!("CARGO_MANIFEST_DIR")).join(name)
    });
    folder.join("libreelpony.a")
}

/// Runs cargo on a manifest, with the variable or without it.
fn cargo(command: &str, manifest: &Path, target: &Path, lib_dir: Option<&Path>) -> Output {
    let mut cargo = Command::new(env!("CARGO"));
    cargo.arg(command).arg("--offline");
    cargo.arg("--manifest-path").arg(manifest).arg("--target-dir").arg(target);
    if command == "doc" {
        cargo.arg("--no-deps");
    }
    // A sentence of the documentation that has a fault is one of this test too.
    cargo.env("RUSTDOCFLAGS", "-D warnings").env_remove("REELPONY_LIB_DIR");
    if let Some(folder) = lib_dir {
        cargo.env("REELPONY_LIB_DIR", folder);
    }
    cargo.output().unwrap()
}

/// What cargo said to a person.
fn said(output: &Output) -> String {
    String::from_utf8_lossy(&output.stderr).into_owned()
}

/// `check` and `doc` work without the library, with one warning that says what to do; `build` says
/// what is missing, in rustc's words below that warning.
fn without(
    commands: &[&str],
    manifest: &Path,
    target: &Path,
    lib_dir: Option<&Path>,
    missing: &str,
) {
    for &command in commands {
        let output = cargo(command, manifest, target, lib_dir);
        let said = said(&output);
        assert_eq!(output.status.success(), command != "build", "{command}: {said}");
        let warnings = said.lines().filter(|line| line.contains("warning"));
        // Cargo says it again above its own last line, where the build failed.
        let warnings: BTreeSet<&str> = warnings.collect();
        assert_eq!(warnings.len(), 1, "{command}: {said}");
        let warning = warnings.first().unwrap();
        assert!(warning.contains(missing), "{command}: {warning}");
        assert!(warning.contains("host/prove-library"), "{command}: {warning}");
        assert!(warning.contains("REELPONY_LIB_DIR"), "{command}: {warning}");
        let error = "error: could not find native static library `reelpony`";
        assert_eq!(said.contains(error), command == "build", "{command}: {said}");
    }
}

/// A folder without the library is named, and where another one is named the next call goes there.
#[test]
fn a_folder_without_it_and_then_one_with_it() {
    let manifest = Path::new(env!("CARGO_MANIFEST_DIR")).join("Cargo.toml");
    let [target, empty, full] = ["named/target", "named/empty", "named/full"].map(folder);
    let missing = format!("REELPONY_LIB_DIR names {}, which has no libre", empty.display());
    without(&["check", "doc", "build"], &manifest, &target, Some(&empty), &missing);
    assert!(target.join("doc/reelpony/struct.H264Writer.html").is_file());

    fs::copy(archive(), full.join("libreelpony.a")).unwrap();
    let output = cargo("build", &manifest, &target, Some(&full));
    assert!(output.status.success(), "{}", said(&output));
    assert!(!said(&output).contains("warning"), "{}", said(&output));
    // And back.
    without(&["build"], &manifest, &target, Some(&empty), &missing);
}

/// A checkout in which nothing was proved yet: the package and what it needs, alone in a folder.
#[test]
fn a_checkout_without_it() {
    let checkout = folder("checkout");
    let from = common::root().join("host");
    copy(&from.join("reelpony"), &checkout.join("host/reelpony"));
    copy(&from.join("common"), &checkout.join("host/common"));
    fs::copy(common::root().join("README.md"), checkout.join("README.md")).unwrap();
    let workspace = fs::read_to_string(from.join("Cargo.toml")).unwrap();
    let members = |line: &str| match line.starts_with("members") {
        true => "members = [\"common\", \"reelpony\"]\n".to_string(),
        false => format!("{line}\n"),
    };
    let workspace: String = workspace.lines().map(members).collect();
    fs::write(checkout.join("host/Cargo.toml"), workspace).unwrap();

    let manifest = checkout.join("host/reelpony/Cargo.toml");
    let staticlib = checkout.join("target/staticlib");
    let missing = format!("{} is missing", staticlib.join("libreelpony.a").display());
    let target = checkout.join("target/host");
    without(&["check"], &manifest, &target, None, &missing);
    // An empty variable names no folder.
    without(&["build"], &manifest, &target, Some(Path::new("")), &missing);
    fs::create_dir_all(&staticlib).unwrap();
    fs::copy(archive(), staticlib.join("libreelpony.a")).unwrap();
    let output = cargo("build", &manifest, &target, Some(Path::new("")));
    assert!(output.status.success(), "{}", said(&output));
    assert!(!said(&output).contains("warning"), "{}", said(&output));
}

/// A host's package that depends on this one by its path links and runs, and a static library of it
/// holds the proved code too.
#[test]
fn a_hosts_package() {
    let host = folder("host");
    let full = folder("full");
    fs::copy(archive(), full.join("libreelpony.a")).unwrap();
    fs::create_dir(host.join("src")).unwrap();
    let package = format!(
        "[package]\nname = \"shoot\"\nversion = \"1.0.0\"\nedition = \"2021\"\n\n\
         [lib]\ncrate-type = [\"staticlib\", \"rlib\"]\n\n\
         [dependencies]\nreelpony = {{ path = {:?} }}\n\n[workspace]\n",
        env!("CARGO_MANIFEST_DIR")
    );
    fs::write(host.join("Cargo.toml"), package).unwrap();
    let library = "pub fn ue(x: u32) -> Option<u64> {\n    \
                   reelpony::golomb::write_ue(&mut [0; 9], 0, x).ok()\n}\n\
                   #[no_mangle]\npub extern \"C\" fn shoot_ue() -> u64 {\n    \
                   ue(7).unwrap_or(0)\n}\n";
    fs::write(host.join("src/lib.rs"), library).unwrap();
    let program = "fn main() {\n    println!(\"{:?}\", shoot::ue(7));\n}\n";
    fs::write(host.join("src/main.rs"), program).unwrap();

    let (manifest, target) = (host.join("Cargo.toml"), host.join("target"));
    let empty = folder("empty");
    let output = cargo("check", &manifest, &target, Some(&empty));
    assert!(output.status.success(), "{}", said(&output));
    let output = cargo("run", &manifest, &target, Some(&full));
    assert!(output.status.success(), "{}", said(&output));
    assert_eq!(output.stdout, b"Some(7)\n");
    // Its machine code, by a part from the middle.
    let proved = fs::read(archive()).unwrap();
    let part = &proved[proved.len() / 2..][..1000];
    let bytes = fs::read(target.join("debug/libshoot.a")).unwrap();
    assert!(bytes.windows(part.len()).any(|window| window == part));
}

/// A folder with all that is in it, but for what a build leaves.
fn copy(from: &Path, to: &Path) {
    fs::create_dir_all(to).unwrap();
    for entry in fs::read_dir(from).unwrap() {
        let entry = entry.unwrap();
        let to = to.join(entry.file_name());
        match entry.file_type().unwrap().is_dir() {
            true if entry.file_name() == "target" => {}
            true => copy(&entry.path(), &to),
            false => drop(fs::copy(entry.path(), to).unwrap()),
        }
    }
}
