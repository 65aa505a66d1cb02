//! Compiles what draws, and has tools/pictures.py print its structs.
#[path = "../drawing/build.rs"]
mod drawing;

fn main() {
    let top = std::path::Path::new(env!("CARGO_MANIFEST_DIR")).join("..");
    let made = std::process::Command::new("python3").arg(top.join("tools/pictures.py")).output().expect("python3 is needed, for tools/pictures.py");
    assert!(made.status.success(), "{}", String::from_utf8_lossy(&made.stderr));
    let folder = std::env::var("OUT_DIR").expect("cargo names the folder");
    std::fs::write(format!("{folder}/drawing.rs"), made.stdout).expect("the build's folder can be written");
    println!("cargo:rerun-if-changed={}", top.join("tools/pictures.py").display());
    drawing::compile(&top);
}
