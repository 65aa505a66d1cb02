"""The LLVM module of crates/abi, for tools/library and bench/climb. rattle gives it to the clang of the toolchain that it is told to use, and to nobody else: so
the library is built once more, over what its own build kept, by a toolchain whose files are copies of the kit's, but for a clang that keeps a copy of its input
before it runs the real one. The library is the same, byte for byte, which is looked at. `tools/module clang` prints the path of the kit's clang.
"""
import os
import shutil
import subprocess
import sys
import tempfile

sys.dont_write_bytecode = True
import kit

TOP, CRATE = kit.TOP, "abi"
MADE = f"{TOP}/target/staticlib/lib{CRATE}.a"


def tool(name):
    """A program of the kit: clang, ld.lld or llvm-ar."""
    return f"{kit.kit()}/toolchain/bin/{name}"


def clang():
    return tool("clang")


def told(words, **how):
    done = subprocess.run(words, stdin=subprocess.DEVNULL, stdout=subprocess.PIPE, stderr=subprocess.STDOUT, text=True, check=False, **how)
    if done.returncode != 0:
        raise SystemExit(f"{done.stdout[-4000:]}tools/module: no module of crates/{CRATE}")


def listening(folder, kept):
    """A toolchain in a folder, whose clang keeps the module. Its other files are links into the kit, so it stands outside the repository, where rt takes no links."""
    real = f"{kit.kit()}/toolchain"
    os.makedirs(f"{folder}/bin")
    for name in os.listdir(real):
        if name != "bin":
            os.symlink(f"{real}/{name}", f"{folder}/{name}")
    for name in os.listdir(f"{real}/bin"):
        if name != "clang":
            os.symlink(f"{real}/bin/{name}", f"{folder}/bin/{name}")
    with open(f"{folder}/bin/clang", "w", encoding="utf-8") as file:
        file.write(f"""#!/bin/sh
for word; do case $word in *.bc | *.ll) cp "$word" '{kept}' ;; esac; done
exec '{clang()}' "$@"
""")
    os.chmod(f"{folder}/bin/clang", 0o755)
    return folder


def module(build):
    """Proves crates/abi, writes target/staticlib/libabi.a, and gives the module's text, which stands in the folder `build` too."""
    kept = os.path.abspath(f"{build}/module")
    os.makedirs(build, exist_ok=True)
    told([f"{TOP}/tools/build", CRATE], cwd=TOP)
    with tempfile.TemporaryDirectory() as room:
        toolchain = listening(f"{room}/toolchain", f"{room}/module.bc")
        words = [f"{kit.kit()}/bin/rattle", "build", *kit.words(CRATE), *kit.CPU, "--incremental", kit.kept(CRATE), "--toolchain", toolchain, "--backend", "llvm"]
        told([*words, "-o", f"{room}/lib{CRATE}.a"], cwd=kit.crates()[CRATE].folder())
        with open(f"{room}/lib{CRATE}.a", "rb") as one, open(MADE, "rb") as other:
            if one.read() != other.read():
                raise SystemExit(f"tools/module: another library than {MADE}")
        if not os.path.exists(f"{room}/module.bc"):
            raise SystemExit("tools/module: rattle gave its clang no module")
        shutil.copyfile(f"{room}/module.bc", f"{kept}.bc")
    text = ["--target=x86_64-unknown-linux-gnu", "-x", "ir", f"{kept}.bc", "-S", "-emit-llvm", "-Xclang", "-disable-llvm-passes", "-o", f"{kept}.ll"]
    subprocess.run([clang(), *text], check=True)
    with open(f"{kept}.ll", encoding="utf-8") as file:
        return file.read()


if __name__ == "__main__":
    if sys.argv[1:] != ["clang"]:
        raise SystemExit("use: tools/module clang")
    print(clang())
