//! For the build of a program that draws: compiles drawing/*.c into a static library. A C compiler is needed, gcc or what CC names.
use std::path::Path;
use std::process::Command;

/// No function of a C library is called, and no multiplication is joined with an addition: so the places and the text are those of the page's WebAssembly.
const FLAGS: &[&str] = &["-std=c11", "-O2", "-ffreestanding", "-fno-math-errno", "-ffp-contract=off", "-fPIC", "-Wall", "-Wextra", "-Werror"];

fn run(command: &mut Command) {
    let done = command.output().unwrap_or_else(|error| panic!("{command:?}: {error}"));
    assert!(done.status.success(), "{command:?}\n{}", String::from_utf8_lossy(&done.stderr));
}

/// `top` is the repository's folder.
pub fn compile(top: &Path) {
    let (folder, out) = (top.join("drawing"), std::env::var("OUT_DIR").expect("cargo names the folder"));
    let library = Path::new(&out).join("libdrawing.a");
    println!("cargo:rerun-if-changed={}", folder.display());
    println!("cargo:rerun-if-env-changed=CC");
    let mut objects = vec![];
    let mut sources: Vec<_> = std::fs::read_dir(&folder).expect("drawing/ is there").map(|entry| entry.expect("an entry").path()).collect();
    sources.sort();
    for source in sources.iter().filter(|path| path.extension().is_some_and(|ending| ending == "c")) {
        let object = Path::new(&out).join(source.file_stem().expect("a name")).with_extension("o");
        run(Command::new(std::env::var("CC").unwrap_or("gcc".to_string())).args(FLAGS).arg("-c").arg(source).arg("-o").arg(&object));
        objects.push(object);
    }
    let _ = std::fs::remove_file(&library);
    run(Command::new("ar").arg("rcs").arg(&library).args(&objects));
    println!("cargo:rustc-link-search=native={out}");
    println!("cargo:rustc-link-lib=static=drawing");
}
