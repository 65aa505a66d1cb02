//! Has tools/bindings write the declarations into the build's own folder, and links the static library that `tools/build abi` makes.
use std::path::{Path, PathBuf};
use std::process::Command;

fn main() {
    let top = Path::new(env!("CARGO_MANIFEST_DIR")).join("..");
    let unlinked = std::env::var_os("CARGO_FEATURE_UNLINKED").is_some();
    for source in ["tools/bindings.py", "crates/abi/src/lib.rt", "docs/MANUAL.md", "include/analyser.h"] {
        println!("cargo:rerun-if-changed={}", top.join(source).display());
    }
    let folder = PathBuf::from(std::env::var_os("OUT_DIR").expect("cargo names the folder"));
    let kept = |name: &str, text: String| std::fs::write(folder.join(name), text).expect("the build's folder can be written");
    kept("functions.rs", printed(&top, if unlinked { "unlinked" } else { "rust" }));
    kept("recorder.rs", printed(&top, "recorder"));
    if !unlinked {
        link(&top);
    }
}

fn printed(top: &Path, kind: &str) -> String {
    let made = Command::new("python3").arg(top.join("tools/bindings.py")).arg(kind).output().expect("python3 is needed, for tools/bindings");
    assert!(made.status.success(), "{}", String::from_utf8_lossy(&made.stderr));
    String::from_utf8(made.stdout).expect("tools/bindings prints ASCII")
}

fn link(top: &Path) {
    let folder = top.join("target/staticlib");
    let library = folder.join("libabi.a");
    println!("cargo:rerun-if-changed={}", library.display());
    println!("cargo:rustc-link-search=native={}", folder.display());
    println!("cargo:rustc-link-lib=static=abi");
    assert!(library.exists(), "{}: run `tools/build abi` first", library.display());
}
