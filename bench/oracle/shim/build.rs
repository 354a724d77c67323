//! Finds the published module, patches it where a feature asks for that, and for the timed build
//! compiles Debian's three crates where they are installed.

use std::env;
use std::fs;
use std::path::{Path, PathBuf};
use std::process::Command;

/// The variable that names the file, and where it is looked for without it.
const VARIABLE: &str = "ASSIGN_REGISTERS";
const BESIDE_THE_REPOSITORY: &str = "../shared/docs/src/src/linear_scan/assign_registers.rs";
/// The variable that names the folder of Debian's crates, and its usual value.
const REGISTRY_VARIABLE: &str = "DEBIAN_CARGO_REGISTRY";
const REGISTRY: &str = "/usr/share/cargo/registry";

/// One line of the module and what it becomes.
struct Patch {
    feature: &'static str,
    old: &'static str,
    new: &'static str,
}

const PATCHES: [Patch; 2] = [
    Patch {
        feature: "ties",
        old: "        other.1.partial_cmp(&self.1)\n",
        new: "        (other.1, other.0).partial_cmp(&(self.1, self.0))\n",
    },
    Patch {
        feature: "slots",
        old: "            self.next_spill_slot = spill_slot.inc(1);\n",
        new: "            self.next_spill_slot = spill_slot.inc(size_slot);\n",
    },
];

fn main() {
    println!("cargo:rerun-if-env-changed={VARIABLE}");
    println!("cargo:rustc-check-cfg=cfg(module_at_hand, debian_crates)");
    let file = module_path();
    println!("cargo:rerun-if-changed={}", file.display());
    if !file.is_file() {
        println!(
            "cargo:warning=the published assign_registers.rs is not at {} (set {VARIABLE}): nothing is compared with it",
            file.display()
        );
        return;
    }
    println!("cargo:rustc-cfg=module_at_hand");
    println!("cargo:rustc-env=MODULE_TEXT={}", patched(&file).display());
    if has_feature("debian") {
        use_debian_crates();
    }
}

fn has_feature(name: &str) -> bool {
    env::var_os(format!("CARGO_FEATURE_{}", name.to_uppercase())).is_some()
}

fn out_dir() -> PathBuf {
    PathBuf::from(env::var_os("OUT_DIR").unwrap())
}

/// The file that the variable names, else the one in the folder beside the repository.
fn module_path() -> PathBuf {
    if let Some(path) = env::var_os(VARIABLE) {
        return PathBuf::from(path);
    }
    let package = PathBuf::from(env::var_os("CARGO_MANIFEST_DIR").unwrap());
    // the package is bench/oracle/NAME
    let repository = package.ancestors().nth(3).unwrap();
    repository.join(BESIDE_THE_REPOSITORY)
}

/// The file itself where no patch is asked for, else a patched copy among the build's own files.
fn patched(file: &Path) -> PathBuf {
    let wanted: Vec<&Patch> = PATCHES.iter().filter(|p| has_feature(p.feature)).collect();
    if wanted.is_empty() {
        return file.canonicalize().unwrap();
    }
    let mut text = fs::read_to_string(file).unwrap();
    for patch in wanted {
        let places = text.matches(patch.old).count();
        assert_eq!(
            places, 1,
            "the patch `{}` must apply exactly once",
            patch.feature
        );
        text = text.replace(patch.old, patch.new);
    }
    let copy = out_dir().join("assign_registers.rs");
    fs::write(&copy, text).unwrap();
    copy
}

/// Compiles smallvec, log and rustc-hash as Debian installs them, with what log leans on, if all
/// are there.
fn use_debian_crates() {
    println!("cargo:rerun-if-env-changed={REGISTRY_VARIABLE}");
    let registry = env::var_os(REGISTRY_VARIABLE).unwrap_or_else(|| REGISTRY.into());
    let find = |name: &str| find_crate(Path::new(&registry), name);
    let (Some(smallvec), Some(cfg_if), Some(log), Some(hash)) = (
        find("smallvec-1"),
        find("cfg-if-1"),
        find("log-0.4"),
        find("rustc-hash-1"),
    ) else {
        return;
    };
    compile(&smallvec, "smallvec", "2018", &[]);
    compile(&cfg_if, "cfg_if", "2018", &[]);
    let cfg_if = format!("cfg_if={}", out_dir().join("libcfg_if.rlib").display());
    let atomics = [
        "--cfg",
        "atomic_cas",
        "--cfg",
        "has_atomics",
        "--extern",
        &cfg_if,
    ];
    compile(&log, "log", "2015", &atomics);
    compile(&hash, "rustc_hash", "2015", &["--cfg", "feature=\"std\""]);
    println!("cargo:rustc-link-search=all={}", out_dir().display());
    println!("cargo:rustc-cfg=debian_crates");
}

/// The folder of a crate whose name and version begin so.
fn find_crate(registry: &Path, begins: &str) -> Option<PathBuf> {
    let entries = fs::read_dir(registry).ok()?;
    let paths = entries
        .filter_map(|entry| entry.ok())
        .map(|entry| entry.path());
    let name = |path: &PathBuf| path.file_name().map(|n| n.to_string_lossy().into_owned());
    paths
        .filter(|path| name(path).is_some_and(|n| n.starts_with(begins)))
        .max()
}

fn compile(folder: &Path, name: &str, edition: &str, more: &[&str]) {
    let mut rustc = Command::new(env::var_os("RUSTC").unwrap());
    rustc.args([
        "--crate-type",
        "rlib",
        "--crate-name",
        name,
        "--edition",
        edition,
    ]);
    rustc
        .args(["-C", "opt-level=3", "--cap-lints", "allow"])
        .args(more);
    rustc
        .arg("--out-dir")
        .arg(out_dir())
        .arg(folder.join("src/lib.rs"));
    let done = rustc.status().unwrap();
    assert!(
        done.success(),
        "{} as Debian installs it does not compile",
        name
    );
}
