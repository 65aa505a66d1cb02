"""What the measurements share: commands, sheets, tables, packages. They run in the repository's folder."""
import os
import shutil
import struct
import subprocess
import sys

SELF = f"bench/{os.path.basename(sys.argv[0])}"
os.chdir(os.path.join(os.path.dirname(os.path.abspath(__file__)), ".."))


def fail(what):
    sys.exit(f"{SELF}: {what}")


def run(words, **more):
    """What a command prints; a command that fails ends the run with the end of what it printed."""
    done = subprocess.run(words, capture_output=True, **more)
    if done.returncode != 0:
        fail(" ".join(words) + "\n" + (done.stdout + done.stderr)[-2000:].decode(errors="replace"))
    return done.stdout


def progress(what):
    print(what, file=sys.stderr, flush=True)


def missing(packages):
    """Those of Debian's packages, by a file of each, that are missing after an attempt to install them."""
    def wanted():
        return [package for path, package in packages.items() if not os.path.exists(path)]
    if wanted() and os.geteuid() == 0 and shutil.which("apt-get"):
        progress("installing " + " ".join(wanted()))
        quiet = {**os.environ, "DEBIAN_FRONTEND": "noninteractive"}
        for words in (["apt-get", "update"], ["apt-get", "install", "-y", "--no-install-recommends", *wanted()]):
            subprocess.run(words, stdout=subprocess.DEVNULL, stderr=subprocess.DEVNULL, env=quiet, check=False)
    return wanted()


def number(n):
    return f"{n:,}"


printed = []  # the lines of all tables


def table_lines(head, rows):
    return ["| " + " | ".join(head) + " |", "|" + "---|" * len(head), *("| " + " | ".join(str(cell) for cell in row) + " |" for row in rows), ""]


def table(head, rows):
    lines = table_lines(head, rows)
    printed.extend(lines)
    print(*lines, sep="\n", flush=True)


class Sheet:
    def __init__(self, name, path, source, sink, kind=None):
        self.name, self.path, self.source, self.sink, self.kind = name, path, int(source), int(sink), kind
        with open(path, "rb") as file:
            self.data = file.read()
        self.head, self.nodes, self.channels = struct.unpack_from("<BHH", self.data)
        self.edges = list(struct.iter_unpack("<xHH4xii", self.data[7 if self.head == 4 else 5:]))  # tail, head, both limits
        self.free = all(min(forward, back) >= 0 for _, _, forward, back in self.edges)  # no least flow: it has a DIMACS text


def kept(folder, of=Sheet):
    """The sheets of a folder, by its cases.txt."""
    sheets = []
    with open(f"bench/{folder}/cases.txt") as file:
        for name, _, _, faces, source, sink, largest in (line.split() for line in file if not line.startswith("#")):
            sheets.append(of(name, f"bench/{folder}/{name}.sheet", source, sink, folder))
            sheets[-1].largest, sheets[-1].faces = None if largest == "none" else int(largest), faces
    return sheets


def drawn(folder, count, seed, *words, of=Sheet):
    """Sheets that bench/random_sheets.py makes in a folder."""
    rows = map(str.split, run(["bench/random_sheets.py", folder, str(count), str(seed), *map(str, words)]).decode().splitlines())
    return [of(f"{kind} {name}", f"{folder}/{name}.sheet", source, sink, kind) for name, kind, source, sink in rows]
