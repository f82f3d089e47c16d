#!/usr/bin/env python3
"""Real syndromes: an emulated core takes exceptions that tools/syndromes makes, and the listing of each is held to what is known of it beforehand.

  tools/syndromes.py            runs it over the archive that tools/capi left, says how much each core took, and exits 0, or 1 where a syndrome is not as known
  tools/syndromes.py --all      says first, of each case, what was done, the syndrome and its listing
  tools/syndromes.py --cores    the same on six more cores of the emulator
  tools/syndromes.py --table    the table of docs/SYNDROMES.md

tools/capi runs it too. It needs qemu-system-aarch64 (Debian's qemu-system-arm)."""
import re
import shutil
import subprocess
import sys

sys.dont_write_bytecode = True
import retarget
from retarget import Fault, run

FOLDER = retarget.TOP / "tools" / "syndromes"
ROOM = retarget.TOP / "target" / "capi" / "syndromes"
SOURCES = [FOLDER / name for name in ("start.S", "syndromes.c", "cases.c", "tables.c", "has.c")]
C = ("--target=aarch64-unknown-none-elf", "-mgeneral-regs-only", "-mstrict-align")
# One core with EL3 and EL2, and memory that has tags where the core has them. Semihosting is how the program ends the emulator.
BOARD = ("-m", "64", "-display", "none", "-serial", "stdio", "-monitor", "none", "-nic", "none", "-semihosting", "-kernel")
MACHINE = "virt,secure=on,virtualization=on,gic-version=3"
CORES = ("cortex-a57", "max")
OTHERS = ("cortex-a35", "cortex-a53", "cortex-a72", "cortex-a76", "neoverse-n1", "a64fx")
PATIENCE = 60  # seconds
COUNTS = re.compile(r"^exceptions (\d+), classes (\d+), as known (\d+), refused by 01 (\d+), departs from the manual (\d+), not taken (\d+), WRONG (\d+), absent (\d+)$", flags=re.M)


def emulator():
    return shutil.which("qemu-system-aarch64")


def built(tools, archive):
    """The program, of our sources and the archive."""
    if not archive.is_file():
        raise Fault(f"there is no {archive.relative_to(retarget.TOP)}: tools/capi makes it")
    ROOM.mkdir(parents=True, exist_ok=True)
    objects = []
    for source in (*SOURCES, retarget.MEMORY):
        objects.append(ROOM / (source.stem + ".o"))
        run(tools / "clang", *C, *retarget.C, "-I", retarget.HEADER.parent, "-c", source, "-o", objects[-1])
    program = ROOM / "syndromes.elf"
    run(tools / "ld.lld", "-static", "--gc-sections", "-T", FOLDER / "syndromes.ld", "-o", program, *objects, archive)
    return program


def said_by(core, program):
    """What the program says on a board with this core."""
    try:
        return run(emulator(), "-M", MACHINE + (",mte=on" if core == "max" else ""), "-cpu", core, *BOARD, program, timeout=PATIENCE, stdin=subprocess.DEVNULL).decode()
    except subprocess.TimeoutExpired as late:
        (ROOM / f"{core}.said").write_bytes(late.stdout or b"")
        raise Fault(f"{core} did not end within {PATIENCE} seconds; what it said is in {ROOM.relative_to(retarget.TOP)}/{core}.said") from late


def held(core, said):
    """The counts of what a core took, none of it other than known."""
    (ROOM / f"{core}.said").write_text(said)
    counts = COUNTS.search(said)
    if counts is None:
        raise Fault(f"the program did not end on {core}: what it said is in {ROOM.relative_to(retarget.TOP)}/{core}.said")
    numbers = dict(zip(("exceptions", "classes", "known", "refused", "departed", "not_taken", "wrong", "absent"), map(int, counts.groups())))
    if numbers["wrong"]:
        wrong = [case for case in said.split("> ") if "\nverdict: WRONG\n" in case]
        raise Fault(f"{core}: {numbers['wrong']} syndromes are not as known:\n" + "\n".join(wrong))
    return numbers


def ran(tools, archive, cores=CORES):
    """What to print of the cores, in one line."""
    program = built(tools, archive)
    found = {core: held(core, said_by(core, program)) for core in cores}
    each = "; ".join(
        f"{numbers['exceptions']} exceptions of {numbers['classes']} classes on {core}: {numbers['known']} listed as the test knows beforehand, {numbers['refused']} that 01 refuses, "
        f"{numbers['departed']} that the emulator makes otherwise than the manual"
        for core, numbers in found.items()
    )
    return f"{each} (docs/SYNDROMES.md)"


def rows(said):
    """What was done, its syndrome and the level that took it, and the verdict."""
    for case in said.split("> ")[1:]:
        name, rest = case.split("\n", 1)
        taken = re.search(r"^taken at (EL\d), syndrome (0x[0-9a-f]+)", rest, flags=re.M)
        verdict = re.search(r"^verdict: (.*)$", rest, flags=re.M)
        yield name, taken and taken.groups(), verdict.group(1) if verdict else "absent"


def table(tools, archive):
    """The cases as Markdown; a case that both cores took alike has one row."""
    program = built(tools, archive)
    found = [list(rows(said_by(core, program))) for core in CORES]
    yield "| what was done | taken at | class | syndrome | remark |"
    yield "|---|---|---|---|---|"
    for pair in zip(*found):
        for core, (name, taken, verdict) in zip(CORES, pair):
            alone = pair[0] != pair[1]
            if (alone or core == "max") and verdict != "absent":
                level, syndrome = taken or ("", "")
                number = f"{int(syndrome, 16) >> 26:#04x}" if taken else ""
                yield f"| {name}{f' ({core})' if alone else ''} | {level} | {number} | {syndrome} | {'' if verdict == 'as known' else verdict} |"


def main(arguments):
    if arguments not in ([], ["--all"], ["--table"], ["--cores"]):
        print(__doc__.strip(), file=sys.stderr)
        return 2
    if emulator() is None:
        print("syndromes: NOT RUN: there is no qemu-system-aarch64 here (Debian's qemu-system-arm)")
        return 0
    try:
        tools = retarget.toolchain()
        retarget.headers()
        archive = retarget.ARCHIVES["aarch64"]
        if arguments == ["--table"]:
            print("\n".join(table(tools, archive)))
            return 0
        found = ran(tools, archive, CORES + OTHERS if arguments == ["--cores"] else CORES)
        if arguments == ["--all"]:
            print("\n".join((ROOM / f"{core}.said").read_text() for core in CORES))
        print(f"syndromes: {found}")
    except Fault as fault:
        print(f"syndromes: FAILED: {fault}", file=sys.stderr)
        return 1
    return 0


if __name__ == "__main__":
    sys.exit(main(sys.argv[1:]))
