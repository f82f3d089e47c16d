#!/usr/bin/env python3
"""Builds the Rust that ours is compared with (google/aarch64-esr-decoder, commit 40a497fccc).

    compare/build.py oracle [SOURCES]     SOURCES has the decoder's src/; by default ../shared/docs/src beside the repository
    compare/build.py every|bench [SOURCES]     also that program of sides/, over the decoder and our archive
    compare/build.py differences [SOURCES]     also that program of sides/, over the decoder in both kinds

The oracle answers lines of standard input (oracle/main.rs). There are two, in target/compare/bin/:
  by-01         the sources, and of abort.rs what document 01 decides (filled.rs); class 0x18, of which nothing is compared, stands in (msr.rs)
  as-published  the sources as they are; of filled.rs and msr.rs only what the sources do not have
In both, `midr` and `smccc` are left out, `bit_field` is a stand-in (bit_field.rs) and `thiserror` is Debian's package. The compiler is the
machine's own, from 1.73 on, or else Debian's rustc-web. Nothing is fetched but Debian's packages. Exits 0, or says what failed and exits 1.
Our archive is the one for this machine's processor (tools/retarget.py), so that `every` and `bench` run natively, on x86-64 and on AArch64. The copies lie in
target/compare/by-01 and target/compare/as-published, each a package with the library `decoder`."""
import hashlib
import os
import platform
import re
import shutil
import subprocess
import sys
from pathlib import Path

HERE = Path(__file__).resolve().parent
sys.path.insert(0, str(HERE.parent / "tools"))
import repository
import retarget

ORACLE = HERE / "oracle"
TOP = HERE.parent
OUT = TOP / "target" / "compare"
BIN = OUT / "bin"
DEFAULT = TOP.parent / "shared" / "docs" / "src"
REGISTRY = Path("/usr/share/cargo/registry")
DEBIAN = Path("/usr/bin")
OLDEST = (1, 73)
KINDS = ("by-01", "as-published")
SIDES = ("every", "bench")

# A function of a file as the formatter lays it out, with the comment above it.
ITEM = r"(?:^///[^\n]*\n)*^(?:pub\(super\) )?fn ({name})\(.*?^}}\n"

# What lib.rs brings in of the modules that are not ported.
LEFT_OUT = {"midr.rs": "pub fn decode_midr() {}\n", "smccc.rs": "pub fn decode_smccc() {}\n"}

MANIFEST = """[package]
name = "{name}"
version = "0.0.0"
edition = "2021"
{targets}
[dependencies]
{dependencies}
[lints.rust]
dead_code = "deny"

[workspace]
"""
LIBRARY = '\n[lib]\nname = "{name}"\npath = "src/lib.rs"\n'
LINKED = """    println!("cargo:rustc-link-search=native={folder}");
    println!("cargo:rustc-link-lib=static={library}");
    println!("cargo:rerun-if-changed={archive}");"""
# The decoder in the Rust's shape, which bench times beside the engine: a crate with one C function, which returns what esr_decode does.
LAYOUTS = "bench_layouts"
LAYOUTS_FUNCTION = "esr_decode_by_layouts"
PROGRAM = '\n[[bin]]\nname = "{name}"\npath = "{path}"\n'


def fail(message):
    print(f"compare: {message}", file=sys.stderr)
    sys.exit(1)


def install(*packages):
    print(f"compare: installing {' '.join(packages)}")
    quiet = dict(stdout=subprocess.DEVNULL, env=os.environ | {"DEBIAN_FRONTEND": "noninteractive"})
    for command in (["update", "-qq"], ["install", "-y", "-qq", "--no-install-recommends", "--no-remove", *packages]):
        if subprocess.run(["apt-get", *command], **quiet).returncode:
            fail(f"apt-get {command[0]} failed")


def absent(sources):
    """Whether no sources are named and there are none in their usual place, which is then said."""
    if sources or DEFAULT.is_dir():
        return False
    print(f"compare: nothing was compared: the Rust's sources are not at {os.path.relpath(DEFAULT, TOP)}")
    return True


def programs(*names):
    """Our programs as the toolchain links them, proved and built where that is still to be done, each by its name."""
    try:
        return {name: repository.program(name) for name in names}
    except repository.Fault as fault:
        fail(fault)


def version_of(compiler):
    try:
        said = subprocess.run([compiler, "--version"], capture_output=True, text=True).stdout
    except OSError:
        return (0, 0)
    found = re.match(r"rustc (\d+)\.(\d+)", said)
    return tuple(map(int, found.groups())) if found else (0, 0)


def compiler():
    """The folder of a rustc that is new enough."""
    for folder in [*os.get_exec_path(), Path.home() / ".cargo" / "bin"]:
        rustc = Path(folder) / "rustc"
        if rustc.is_file() and (Path(folder) / "cargo").is_file() and version_of(rustc) >= OLDEST:
            return Path(folder)
    install("rustc-web", "cargo-web")
    if version_of(DEBIAN / "rustc") < OLDEST:
        fail("no rustc from 1.73 on, and Debian's packages gave none")
    return DEBIAN


def write(path, text):
    """Writes what has changed and nothing else, so that cargo builds nothing twice."""
    path.parent.mkdir(parents=True, exist_ok=True)
    if not path.is_file() or path.read_text() != text:
        path.write_text(text)


def filled(abort, by_01):
    """abort.rs with what document 01 decides in place of its own, or where it has none."""
    for ours in re.finditer(ITEM.format(name=r"\w+"), (ORACLE / "filled.rs").read_text(), re.M | re.S):
        theirs = re.search(ITEM.format(name=ours[1]), abort, re.M | re.S)
        if theirs and by_01:
            abort = abort.replace(theirs[0], ours[0])
        elif not theirs:
            abort += "\n" + ours[0]
    return abort


def copied(sources, by_01):
    """The files of the decoder, by their paths."""
    files = {path.relative_to(sources): path.read_text() for path in sorted((sources / "src").rglob("*.rs"))}
    files = {path: text for path, text in files.items() if path.parts[1:] not in (("main.rs",), ("midr.rs",), ("smccc.rs",))}
    files |= {Path("src") / name: text for name, text in LEFT_OUT.items()}
    msr, abort = Path("src/esr/msr.rs"), Path("src/esr/abort.rs")
    if by_01 or msr not in files:
        files[msr] = (ORACLE / "msr.rs").read_text()
    files[abort] = filled(files[abort], by_01)
    return files


def sum_of(files):
    digest = hashlib.sha256()
    for path, text in sorted(files.items()):
        digest.update(f"{path}\0{len(text.encode())}\0{text}".encode())
    return digest.hexdigest()


def make(kind, sources):
    """Writes the package of one kind; answers the hash of the decoder's files."""
    room = OUT / kind
    files = copied(sources, kind == "by-01")
    for left in set(room.glob("src/**/*.rs")) - {room / path for path in files}:
        left.unlink()
    for path, text in files.items():
        write(room / path, text)
    targets = LIBRARY.format(name="decoder") + PROGRAM.format(name="oracle", path=ORACLE / "main.rs")
    needs = f'bit_field = {{ path = "{OUT / "bit_field"}" }}\nthiserror = "1"\n'
    write(room / "Cargo.toml", MANIFEST.format(name=kind, targets=targets, dependencies=needs))
    return sum_of(files)


def cargo(folder, room, program):
    """Builds a program of a package with the folder's cargo, offline, over Debian's sources; all packages share what they need."""
    own = {"CARGO_HOME": OUT / "cargo", "CARGO_TARGET_DIR": OUT / "build", "RUSTC": folder / "rustc"}
    environment = os.environ | {name: str(value) for name, value in own.items()}
    command = [folder / "cargo", "build", "--release", "--quiet", "--offline", "--bin", program]
    if subprocess.run(command, cwd=room, env=environment).returncode:
        fail(f"cargo build failed in {room.relative_to(TOP)}")


def keep(built, name):
    BIN.mkdir(parents=True, exist_ok=True)
    shutil.copy2(OUT / "build" / "release" / built, BIN / name)


def oracle(sources=None):
    """Builds both oracles; answers the folder of the compiler and the hash of the sources of each kind."""
    sources = Path(sources or DEFAULT).resolve()
    if not (sources / "src" / "lib.rs").is_file():
        fail(f"no src/lib.rs in {sources}")
    folder = compiler()
    if not any(REGISTRY.glob("thiserror-1*")):
        install("librust-thiserror-dev")
    write(OUT / ".cargo" / "config.toml", f'[source.crates-io]\nreplace-with = "debian"\n[source.debian]\ndirectory = "{REGISTRY}"\n')
    write(OUT / "bit_field" / "src" / "lib.rs", (ORACLE / "bit_field.rs").read_text())
    write(OUT / "bit_field" / "Cargo.toml", MANIFEST.format(name="bit_field", targets=LIBRARY.format(name="bit_field"), dependencies=""))
    hashes = {}
    for kind in KINDS:
        hashes[kind] = make(kind, sources)
        cargo(folder, OUT / kind, "oracle")
        keep("oracle", kind)
        version = ".".join(map(str, version_of(folder / "rustc")))
        print(f"compare: the Rust {kind}, sources of sha256 {hashes[kind]}, built by rustc {version}", flush=True)
    return folder, hashes


def program(name, folder, needs):
    """Builds a program of sides/ over the packages that it needs."""
    room = OUT / name
    dependencies = "".join(f'{word} = {{ package = "{kind}", path = "{OUT / kind}" }}\n' for word, kind in needs.items())
    targets = PROGRAM.format(name=name, path=HERE / "sides" / f"{name}.rs")
    write(room / "Cargo.toml", MANIFEST.format(name=f"{name}-program", targets=targets, dependencies=dependencies))
    cargo(folder, room, name)
    keep(name, name)


def linked(archives):
    """The build script that tells cargo of archives."""
    lines = [LINKED.format(folder=archive.parent, library=archive.stem[3:], archive=archive) for archive in archives]
    return "\n".join(["fn main() {", *lines, "}"]) + "\n"


def layouts_archive():
    """Proves the decoder in the Rust's shape as a C function, and writes its archive for this processor, as tools/retarget.py does the other."""
    machine = platform.machine()
    archive = OUT / machine / f"lib{LAYOUTS}.a"
    retarget.archived(LAYOUTS, {LAYOUTS_FUNCTION: retarget.returned()["esr_decode"]}, {machine: archive})
    return archive


def sides(name, sources=None):
    """Builds the oracle, our archive and a program over both; answers the hashes of all three."""
    folder, hashes = oracle(sources)
    try:
        retarget.archives()
        archive = retarget.ARCHIVES[platform.machine()]
        archives = [archive, layouts_archive()] if name == "bench" else [archive]
    except retarget.Fault as fault:
        fail(fault)
    write(OUT / name / "build.rs", linked(archives))
    program(name, folder, {"decoder": "by-01"})
    programs = hashlib.sha256(b"".join(path.read_bytes() for path in sorted((HERE / "sides").glob("*.rs")))).hexdigest()
    return {"rust": hashes["by-01"], "archive": hashlib.sha256(archive.read_bytes()).hexdigest(), "programs": programs}


def differences(sources=None):
    """Builds the program over the decoder in both kinds."""
    folder, _ = oracle(sources)
    program("differences", folder, {"decoder": "by-01", "published": "as-published"})


def main():
    what, *sources = sys.argv[1:] or [None]
    if what == "oracle" and len(sources) < 2:
        oracle(*sources)
    elif what in SIDES and len(sources) < 2:
        sides(what, *sources)
    elif what == "differences" and len(sources) < 2:
        differences(*sources)
    else:
        print(__doc__)
        sys.exit(2)


if __name__ == "__main__":
    main()
