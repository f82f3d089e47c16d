"""The crates of this repository, and the commands that prove and build one over the libraries below it.

`rt lib` proves a library and keeps it in crates/NAME/out/, where it stays until something that it rests on changes. A program, and the library of the C functions as an archive,
are built by the toolchain's `rattle` itself, over those libraries: rt has no way to name the clang that compiles them (tools/retarget.py).

    tools/repository.py --by-ci     notes that `rt ci` has just proved every crate, here or where this is a copy of: what it left in crates/*/out/ is then taken as it is, as long as no
                                source, and not the prover, is another than now"""
import hashlib
import os
import re
import shutil
import subprocess
import sys
from pathlib import Path

TOP = Path(__file__).resolve().parent.parent
CRATES = TOP / "crates.txt"
BY_CI = TOP / "target" / "by-ci"
PARTS = ("src", "specs", "proofs")
# What is proved at a time. Not more than rt's own limit: a proof takes up to 1.4 GB.
MOST_JOBS = 4
# NAME, what kind it is, what is counted of it, and the libraries that it names.
ROW = re.compile(r"([\w-]+)(?: +(?:staticlib|wasm64))?(?: +\w+=\S+)* *(?::(.*))?")


class Fault(Exception):
    """What does not hold, or is not there."""


def run(*command, **more):
    done = subprocess.run([str(word) for word in command], capture_output=True, check=False, **more)
    if done.returncode != 0:
        said = (done.stdout + done.stderr).decode(errors="replace")
        raise Fault(f"{Path(str(command[0])).name} ended with {done.returncode}:\n{said}")
    return done.stdout


def kit():
    """The folder of the toolchain."""
    rt = shutil.which("rt")
    if rt is None:
        raise Fault("there is no 'rt' on the PATH")
    return Path(rt).resolve().parent.parent


def prover():
    return run("rt", "version").decode().strip()


# ---- what there is


def named():
    """The libraries that each crate names, the toolchain's too, in the order of crates.txt."""
    rows = [ROW.fullmatch(line.partition("#")[0].strip()) for line in CRATES.read_text().splitlines()]
    return {row[1]: re.split(r"[\s,]+", (row[2] or "").strip()) if (row[2] or "").strip() else [] for row in rows if row and row[1]}


def needs():
    """The crates of the repository that each crate names, in the order of crates.txt."""
    all_of_them = named()
    return {crate: [need for need in libraries if need in all_of_them] for crate, libraries in all_of_them.items()}


def rests_on(*crates):
    """The crates that these rest on, and they, each with the crates that it names; those come first on which the longest chain rests."""
    of, height = needs(), dict.fromkeys(crates, 0)
    left = list(crates)
    while left:
        crate = left.pop()
        for need in of[crate]:
            if height.get(need, -1) <= height[crate]:
                height[need] = height[crate] + 1
                left.append(need)
    return {crate: of[crate] for crate in sorted(height, key=lambda crate: -height[crate])}


def folder(crate):
    return TOP / "crates" / crate


def files():
    """What is proved: the code, definitions and proofs of each crate."""
    return sorted(path for part in PARTS for path in (TOP / "crates").glob(f"*/{part}/**/*") if path.is_file())


def sources():
    """The sha256 of what is proved: crates.txt, and the code, definitions and proofs of each crate."""
    digest = hashlib.sha256()
    for path in [CRATES, *files()]:
        data = path.read_bytes()
        digest.update(f"{path.relative_to(TOP)}\0{len(data)}\0".encode() + data)
    return digest.hexdigest()


# ---- what is proved


def rlib(crate):
    """Where a library that was proved stands."""
    return folder(crate) / "out" / "rlib" / f"{crate}.rlib"


def state():
    return f"{sources()}\n{prover()}\n"


def is_by_ci():
    """Whether what stands in crates/*/out/ is what rt ci made of these very sources."""
    return BY_CI.is_file() and BY_CI.read_text() == state()


def proving(crate):
    """The command that proves a library, where it is not proved yet, over libraries that are."""
    return ["rt", "lib"]


def below(crate):
    """Has the libraries below a crate proved, those that are not."""
    if is_by_ci():
        return
    for each in rests_on(crate):
        if each != crate:
            run(*proving(each), cwd=folder(each))


def program(crate):
    """A program as rt links it, with the C library, proved and built where that is still to be done."""
    path = folder(crate) / "out" / crate
    if not is_by_ci():
        run("rt", "run", cwd=folder(crate), stdin=subprocess.DEVNULL)
    if not path.is_file():
        raise Fault(f"rt left no program {path.relative_to(TOP)}")
    return path


def processors():
    return min(MOST_JOBS, len(os.sched_getaffinity(0)))


def words_of(command, crate, jobs=1):
    """A command of rattle on a crate, in its folder or that of a copy, over the libraries below it as they stand in their folders."""
    own, home = needs(), kit()
    root = "main" if (folder(crate) / "src" / "main.rt").is_file() else "lib"
    words = [home / "bin" / "rattle", command, "--crate-name", crate, f"src/{root}.rt"]
    for library in ["std", *(each for each in named()[crate] if each not in own)]:
        words += ["--extern", f"{library}={home}/rlibs/{library}.rlib"]
    words += ["-L", f"dependency={home}/rlibs"]
    for library in own[crate]:
        words += ["--extern", f"{library}={rlib(library)}"]
    for library in rests_on(crate):
        if library != crate:
            words += ["-L", f"dependency={rlib(library).parent}"]
    return [*words, "--antt-project", home / "rattle" / "logic" / "antt-project.json", "--logic-built", home / "logic_built", "--jobs", jobs, "--links", f"{crate}="]


def building(crate, *more, jobs=1):
    """The command that proves and builds a crate, in its folder."""
    return [*words_of("build", crate, jobs), "--incremental", "out/incremental", *more]


def checking(crate):
    """The command that proves a copy of a crate from nothing, in the folder of the copy, and keeps nothing."""
    return words_of("check", crate)


def main(arguments):
    if arguments != ["--by-ci"]:
        print(__doc__.strip(), file=sys.stderr)
        return 2
    missing = [crate for crate in named() if not (folder(crate) / "out" / crate).is_file() and not (rlib(crate) / "format").is_file()]
    if missing:
        print(f"repository: rt ci left neither a library nor a program of {', '.join(missing)}", file=sys.stderr)
        return 1
    own = [crate for crate in named() if (rlib(crate).parent / "stamp").is_file()]
    if own:  # rt ci gave back what stood there before, which may be of other sources
        print(f"repository: not what rt ci left, but what rt lib did: {', '.join(own)}; rt sees what of it can be used")
        return 0
    BY_CI.parent.mkdir(parents=True, exist_ok=True)
    BY_CI.write_text(state())
    return 0


if __name__ == "__main__":
    sys.exit(main(sys.argv[1:]))
