"""The proved code for AArch64, x86-64 and WebAssembly: the LLVM module that the toolchain makes of it, compiled a second time.

The toolchain compiles for Linux alone, and to a WebAssembly whose pointers have 64 bits. Its back end makes one LLVM module of the proved code and hands it to its
clang. `keeping` has rattle run a clang that first keeps the module that is made for x86-64; `retargeted` changes what names the processor in it, and nothing else;
`gathered` makes one constant of the stores that build a long constant array; `apart` keeps a large function from being compiled into each of its callers; `compiled`
has the same clang compile it. What is proved is the code before the back end, on each processor alike.

Both processors are little-endian, with the same integers and alignments and pointers of 64 bits, so that whatever the back end worked out for one holds for the
other. One thing differs: a struct of more than 16 bytes is returned through a pointer, which x86-64 has as the first argument and AArch64 in a register of its
own. The module has it as the first argument, and returns it; LLVM takes it for the result's where it is marked `sret`.

WebAssembly is little-endian with the same integers and alignments, but its pointers have 32 bits here, which every browser knows. The module counts bytes by itself:
every address is a pointer and a count of bytes, and a pointer in memory has eight bytes of room, of which four are used. `narrow` refuses a module in which a pointer
is taken for a number, or an address is counted in anything but bytes. Where the module reads two values from memory
as one, and one of them is a pointer, `narrow` reads each from its own place, which is that of 64-bit pointers. Lengths
keep their 64 bits.

A module that looks otherwise than expected ends the tool: nothing is compiled of what is not understood."""
import atexit
import hashlib
import platform
import re
import shutil
import tempfile
from concurrent.futures import ThreadPoolExecutor
from pathlib import Path

import repository
from repository import Fault, run

TOP = repository.TOP
ROOM = TOP / "target" / "retarget"
HEADER = TOP / "include" / "esr.h"
MEMORY = TOP / "examples" / "memory.c"
COMMAND = TOP / "tools" / "command.c"
HELP = TOP / "tools" / "command.txt"
# What the command is made of, besides the proved programs.
OWN = (Path(__file__), Path(repository.__file__), COMMAND, HELP, MEMORY, TOP / "examples" / "linux.h")
# Of the C functions and of the command. The first number rises with a change of include/esr.h that a caller has to follow, once it is 1.
RELEASE = "0.1.0"
MACHINES = ("x86_64", "aarch64")
# The archive of the C functions for each processor, and their module for a browser, as `archives` writes them.
ARCHIVES = {machine: ROOM / machine / "libesr.a" for machine in MACHINES}
BROWSER = "wasm32"
WASM = ROOM / BROWSER / "esr.wasm"

# What the module may say of its processor, of its functions and of what it asks for.
LAYOUT = "e-m:e-p270:32:32-p271:32:32-p272:64:64-i64:64-i128:128-f80:128-n8:16:32:64-S128"
TRIPLE = "x86_64-unknown-linux-gnu"
# Attributes of the one processor: the oldest of its kind, and how it probes a stack that grows by much.
CPU = "x86-64"
OF_X86_64 = ('"probe-stack"="inline-asm"', '"stack-probe-size"="3072"', f'"target-cpu"="{CPU}"')
ATTRIBUTES = {"nounwind", "nobuiltin", "nocallback", "nofree", "nosync", "speculatable", "willreturn", "cold", "noreturn", "noinline", "alwaysinline", *OF_X86_64}
EFFECTS = re.compile(r"memory\([a-z: ,]+\)")
DECLARED = {"llvm.memmove.p0.p0.i64", "llvm.memcpy.p0.p0.i64", "llvm.memset.p0.i64", "llvm.trap"}
DECLARED |= {"read", "write", "rattle_arg", "rattle_errno", "rattle_set_errno", "__sysv_signal"}
# What LLVM knows of integers, which is the same on each processor.
OF_INTEGERS = re.compile(r"llvm\.(?:abs|bitreverse|bswap|ctlz|ctpop|cttz|fshl|fshr|[su](?:max|min)|[su](?:add|sub)\.sat|[su](?:add|sub|mul)\.with\.overflow)\.i(?:8|16|32|64)")
FLOATS = re.compile(r"\b(?:half|bfloat|float|double|fp128|x86_fp80)\b")
ARGUMENT = r"(?:i8|i16|i64|ptr) noundef %a\d+"
EXPORTED = re.compile(rf"define noundef ptr @(\w+)\(ptr noundef %a0((?:, {ARGUMENT})*)\) #\d+ \{{")
MAIN = re.compile(r"define i32 @main\(\) #\d+ \{")

# A boot stage may run before the floating-point and vector registers are enabled, and before the MMU is on, when no access may be unaligned. As
# position-independent code it goes into any program of Linux too.
ARCHIVED = {
    "aarch64": ("--target=aarch64-unknown-none-elf", "-mgeneral-regs-only", "-mstrict-align", "-fPIC"),
    "x86_64": ("--target=x86_64-unknown-linux-gnu", "-fPIC"),
}
# How large a function clang compiles into its callers. By its own limit the number reader calls a function for each digit,
# and takes three times as long.
IN_PLACE = ("-mllvm", "-inline-threshold=1000")
# One of this size is called and not copied: the maker calls it in two places.
APART = ("layouts::layout_of",)
# Copies and fills are instructions there, so that nothing is asked for.
BROWSERS = ("--target=wasm32-unknown-unknown", "-mbulk-memory")
# The stack lies first, so that one that grows too far traps. The memory has a fixed size: behind the constants, from __heap_base on, it is the caller's.
MEMORY_SIZE = 2 << 20
WASM_STACK = 64 << 10
LINUX = {machine: (f"--target={machine}-unknown-linux-gnu", "-fPIE") for machine in MACHINES}
# As the toolchain has them, for every processor; those that keep clang from known faults among them.
OPTIONS = ("-O3", "-ffunction-sections", "-fdata-sections", "--no-default-config", "-no-canonical-prefixes", "-fintegrated-cc1", "-fno-crash-diagnostics", "-Werror")
OPTIONS += tuple(word for option in ("-trap-unreachable", "-disable-machine-licm", "-disable-postra-machine-licm", "-sink-common-insts=false") for word in ("-mllvm", option))
# And for one processor.
OPTIONS_FOR = {
    "x86_64": ("-march=x86-64", "-mllvm", "-no-trap-after-noreturn", "-mllvm", "-no-x86-call-frame-opt"),
    "aarch64": ("-march=armv8-a", "-mllvm", "-no-trap-after-noreturn", "-mllvm", "-aarch64-load-store-renaming=false"),
    BROWSER: (),
}


# How C is compiled. The toolchain's compiler comes without headers, so stddef.h and stdint.h are written from the types that it defines by itself.
HEADERS = ROOM / "include"
C = ("-std=c99", "-pedantic", "-Wall", "-Wextra", "-Werror", "-O2", "-ffreestanding", "-fno-builtin", "-fno-stack-protector", "-fno-pic", "-nostdinc")
C += ("-isystem", HEADERS, "-I", TOP / "examples")
STDDEF = """#ifndef STDDEF_H
#define STDDEF_H
#define NULL ((void *)0)
typedef __SIZE_TYPE__ size_t;
typedef __PTRDIFF_TYPE__ ptrdiff_t;
#define offsetof(type, member) __builtin_offsetof(type, member)
#endif
"""
STDINT = """#ifndef STDINT_H
#define STDINT_H
typedef __UINT8_TYPE__ uint8_t;
typedef __UINT16_TYPE__ uint16_t;
typedef __UINT32_TYPE__ uint32_t;
typedef __UINT64_TYPE__ uint64_t;
#endif
"""


# ---- the toolchain


def toolchain():
    """Where the toolchain has its compiler, linker and archiver."""
    tools = repository.kit() / "toolchain" / "bin"
    for name in ("clang", "ld.lld", "llvm-ar"):
        if not (tools / name).is_file():
            raise Fault(f"the toolchain has no {name} in {tools}")
    return tools


def emulator(machine):
    """What stands before a program for Linux on this processor: nothing where it runs natively, and None where it cannot be run here."""
    if platform.machine() == machine:
        return []
    found = shutil.which(f"qemu-{machine}")
    return [found] if found else None


def headers(**more):
    """Writes stddef.h and stdint.h, and what is given by name."""
    HEADERS.mkdir(parents=True, exist_ok=True)
    for name, text in {"stddef": STDDEF, "stdint": STDINT, **more}.items():
        (HEADERS / f"{name}.h").write_text(text)


SHADOWS = []


@atexit.register
def forget_shadows():
    """Removes what `shadow` made. Who ends this by a signal calls it first."""
    while SHADOWS:
        shutil.rmtree(SHADOWS.pop(), ignore_errors=True)


def linked(folder, target, *, but):
    """The entries of a folder, as links, but one."""
    target.mkdir(parents=True)
    for entry in folder.iterdir():
        if entry.name != but:
            (target / entry.name).symlink_to(entry)


# What rattle makes of the module is not used: it is not optimised, which would take most of the time.
KEEPING = """\
#!/bin/sh
if [ -f module.bc ]; then cp module.bc "{module}"; fi
exec "{clang}" "$@" -O0 -w
"""


def shadow(module):
    """The toolchain again, as links, with a clang that first copies the module that it is handed to this file."""
    room, real = Path(tempfile.mkdtemp(prefix="kit-")), repository.kit() / "toolchain"
    SHADOWS.append(room)
    own = room / "toolchain"
    linked(real, own, but="bin")
    linked(real / "bin", own / "bin", but="clang")
    clang = own / "bin" / "clang"
    clang.write_text(KEEPING.format(module=module, clang=real / "bin" / "clang"))
    clang.chmod(0o755)
    return own


def module_of(name):
    """Where the module of a crate is kept."""
    return ROOM / f"{name}.bc"


def keeping(name, *kind, jobs=1):
    """The command that proves a crate, over the libraries below it, and compiles it so that its module is kept."""
    module_of(name).parent.mkdir(parents=True, exist_ok=True)
    module_of(name).unlink(missing_ok=True)
    return [*repository.building(name, *kind, f"--cpu={CPU}", jobs=jobs), "--toolchain", shadow(module_of(name)), "-o", ROOM / f"{name}.o"]


def kept(name):
    """The module of a crate that was compiled so."""
    if not module_of(name).is_file():
        raise Fault(f"rattle handed clang no module of {name}: the toolchain compiles in another way than is known here")
    return module_of(name)


# ---- the module


def text_of(module, tools):
    """The module as text, unchanged."""
    text = module.with_suffix(".ll")
    run(tools / "clang", f"--target={TRIPLE}", "-S", "-emit-llvm", "-x", "ir", module, "-O0", "-Xclang", "-disable-llvm-passes", "-o", text)
    return text.read_text()


def expect(holds, what):
    if not holds:
        raise Fault(f"the module of the toolchain looks otherwise than expected: {what}. Nothing was compiled of it")


def without_texts(text):
    """The module without its texts and the names in quotes, which may say anything."""
    return re.sub(r'"[^"\n]*"', "", text)


def understood(text):
    """Refuses a module that says something unknown of its processor, its functions or what it asks for."""
    expect(re.findall(r'^target datalayout = "(.*)"$', text, re.M) == [LAYOUT], "its data layout")
    expect(re.findall(r'^target triple = "(.*)"$', text, re.M) == [TRIPLE], "its processor")
    for group in re.findall(r"^attributes #\d+ = \{ (.*) \}$", text, re.M):
        unknown = set(EFFECTS.sub("", group).split()) - ATTRIBUTES
        expect(not unknown, f"the attributes {sorted(unknown)}")
    unknown = set(re.findall(r'^declare [^@]*@"?([\w.]+)', text, re.M)) - DECLARED
    unknown = {name for name in unknown if not OF_INTEGERS.fullmatch(name)}
    expect(not unknown, f"it asks for {sorted(unknown)}")
    expect(not re.search(r"^module asm|\basm sideeffect", text, re.M), "it has assembly")
    expect(not FLOATS.search(without_texts(text)), "it has numbers with a fraction, of whose code for AArch64 the toolchain takes care by itself")


def exported(line, sizes):
    """The line that begins an exported function, with the pointer to its answer marked as the result's."""
    function = EXPORTED.fullmatch(line)
    expect(function is not None, f"the exported function '{line}'")
    name = function.group(1)
    expect(name in sizes and sizes[name] > 16, f"{name} returns a struct that the header does not have, or one of at most 16 bytes")
    return line.replace("define noundef ptr", "define void", 1).replace("ptr noundef %a0", f"ptr noundef sret([{sizes[name]} x i8]) align 8 %a0", 1)


def retargeted(text, triple, sizes):
    """The module for another processor. Sizes has the bytes of the struct that each exported function returns."""
    understood(text)
    lines, found, returns = [], set(), None
    for line in text.splitlines():
        if line.startswith("target datalayout"):
            continue
        if line.startswith("target triple"):
            line = f'target triple = "{triple}"'
        elif line.startswith("attributes "):
            for attribute in OF_X86_64:
                line = line.replace(f" {attribute}", "")
        elif line.startswith("define ") and not line.startswith("define internal ") and not MAIN.fullmatch(line):
            line = exported(line, sizes)
            found.add(re.search(r"@(\w+)", line).group(1))
            returns = re.compile(r"\s*ret ptr %\w+")
        elif returns and line.lstrip().startswith("ret "):
            expect(returns.fullmatch(line) is not None, f"an exported function ends with '{line.strip()}'")
            line = "  ret void"
        elif line == "}":
            returns = None
        lines.append(line)
    expect(found == set(sizes), f"it exports {sorted(found)}")
    return "\n".join(lines) + "\n"


# A constant array is built by a store for each element, in order: of the first to the array itself, of each other to an address made for it.
ARRAY = re.compile(r"  (%r\d+) = alloca \[(\d+) x i8\], align \d+")
STORE = re.compile(r"  store i(8|16|32|64) (-?\d+), ptr (%r\d+), align \d+")
ADDRESS = re.compile(r"  (%r\d+) = getelementptr i8, ptr (%r\d+), i64 (\d+)")
LEAST = 256  # bytes; a shorter array is as well off with its stores
COPY = "declare void @llvm.memcpy.p0.p0.i64(ptr noalias writeonly captures(none), ptr noalias readonly captures(none), i64, i1 immarg)"


def stored(lines, at, array):
    """The bytes that the stores from a line on give an array from its start, one after another with nothing between, and the line after them."""
    data, place = b"", array
    while at < len(lines):
        store = STORE.fullmatch(lines[at])
        if not store or store.group(3) != place:
            break
        size = int(store.group(1)) // 8
        data += (int(store.group(2)) % (1 << 8 * size)).to_bytes(size, "little")
        at += 1
        address = ADDRESS.fullmatch(lines[at]) if at < len(lines) else None
        if not address or address.group(2) != array or int(address.group(3)) != len(data):
            break
        place = address.group(1)
        at += 1
    return data, at


def gathered(text):
    """The module with each long constant array as a constant, copied, where the stores of its elements were. Those are merged by the compiler for x86-64; for AArch64
    without vector registers they would be some instructions for each eight bytes."""
    lines, constants, arrays, at = [], [], {}, 0
    given = text.splitlines()
    while at < len(given):
        if array := ARRAY.fullmatch(given[at]):
            arrays[array.group(1)] = int(array.group(2))
        elif given[at].startswith("define "):
            arrays = {}
        store = STORE.fullmatch(given[at])
        name = store and store.group(3)
        if arrays.get(name, 0) >= LEAST:
            data, after = stored(given, at, name)
            if len(data) == arrays[name]:
                constants.append(data)
                lines.append(f"  call void @llvm.memcpy.p0.p0.i64(ptr {name}, ptr @constant.{len(constants)}, i64 {len(data)}, i1 false)")
                at = after
                continue
        lines.append(given[at])
        at += 1
    for number, data in enumerate(constants, 1):
        escaped = "".join(f"\\{byte:02X}" for byte in data)
        lines.append(f'@constant.{number} = private unnamed_addr constant [{len(data)} x i8] c"{escaped}", align 8')
    if constants and "declare void @llvm.memcpy.p0.p0.i64(" not in text:
        lines.append(COPY)
    return "\n".join(lines) + "\n"


def apart(text):
    """The module with the functions of APART marked, so that each stands once in what is compiled of it. The mark says nothing of what a function does."""
    for name in APART:
        text, found = re.subn(rf'^(define internal [^\n]*@"{re.escape(name)}"\([^\n]*\)) (#\d+ \{{)$', r"\1 noinline \2", text, flags=re.M)
        expect(found == 1, f"{found} functions {name}")
    return text


# What takes a pointer for a number or for another, and addresses: each is counted in bytes.
PUNS = re.compile(r"\b(?:ptrtoint|ptrtoaddr|inttoptr|addrspacecast)\b")
ADDRESSES = re.compile(r"\bgetelementptr\b(?! (?:inbounds )?(?:nuw )?i8, ptr )")


# Two values that are read from memory as one. Each lies where 64-bit pointers put it, since every store and every address
# is counted in bytes.
PAIR = re.compile(r"  (%r\d+) = load \{ (i8|i16|i32|i64|ptr), (i8|i16|i32|i64|ptr) \}, ptr (%r\d+), align \d+")
SIZES = {"i8": 1, "i16": 2, "i32": 4, "i64": 8, "ptr": 8}
# Any other struct or array in memory with a pointer in it: where its parts lie would depend on the pointer's size.
TOGETHER = re.compile(r"\b(?:load|store|alloca|constant|global) <?[{\[][^\n]*?\bptr\b[^\n]*?[}\]]")


def in_parts(line):
    """The lines that read two values each from its own place, for a line that reads them as one, if one is a pointer.
    Any other line stays as it is."""
    pair = PAIR.fullmatch(line)
    if not pair or "ptr" not in pair.group(2, 3):
        return [line]
    name, first, second, place = pair.groups()
    offset = -(-SIZES[first] // SIZES[second]) * SIZES[second]
    return [
        f"  {name}.first = load {first}, ptr {place}, align 1",
        f"  {name}.place = getelementptr i8, ptr {place}, i64 {offset}",
        f"  {name}.second = load {second}, ptr {name}.place, align 1",
        f"  {name}.begun = insertvalue {{ {first}, {second} }} poison, {first} {name}.first, 0",
        f"  {name} = insertvalue {{ {first}, {second} }} {name}.begun, {second} {name}.second, 1",
    ]


def narrow(text):
    """The module that means the same with pointers of 32 bits: as it is, but for pairs that are read in their parts."""
    pun = PUNS.search(text)
    expect(pun is None, f"{pun and pun.group()}, where a pointer has 32 bits")
    expect(not ADDRESSES.search(text), "an address that is not counted in bytes, where a pointer has 32 bits")
    text = "".join(f"{part}\n" for line in text.splitlines() for part in in_parts(line))
    together = TOGETHER.search(without_texts(text))
    expect(together is None, f"'{together and together.group()}', where a pointer has 32 bits")
    return text


def named(text, name):
    """The module of a program whose main has a name of its own, so that several can be linked together."""
    lines = text.splitlines()
    mains = [place for place, line in enumerate(lines) if MAIN.fullmatch(line)]
    expect(len(mains) == 1 and len(re.findall(r"@main\b", text)) == 1, "it has no main, or calls it")
    lines[mains[0]] = lines[mains[0]].replace("@main()", f"@{name}()")
    return "\n".join(lines) + "\n"


def compiled(module, machine, text, options, tools):
    """The object file of a module for a processor."""
    source, target = (module.with_suffix(f".{machine}.{kind}") for kind in ("ll", "o"))
    source.write_text(text)
    run(tools / "clang", *options, *OPTIONS, *OPTIONS_FOR[machine], "-c", "-x", "ir", source, "-o", target)
    return target


# ---- what was proved


def version(names):
    """What the command says of itself, whose programs these are."""
    return f"""\
esr {RELEASE}: Arm exception syndromes, decoded as google/aarch64-esr-decoder does
proved: {", ".join(sorted(names)) or "nothing yet"}{", and all that they rest on" if names else ""}
proved of them: for every input, what a program says of a line is what its definitions say; docs/ASSURANCE.md tells what that takes for granted
prover: {repository.prover()}
sources: sha256 {repository.sources()} (crates.txt; src, specs and proofs of each crate)
"""


# ---- the archives


def returned():
    """The functions that the header declares, each with the bytes of the struct that it returns."""
    text = re.sub(r"/\*.*?\*/", "", HEADER.read_text(), flags=re.S)
    sizes = dict(re.findall(r"sizeof\((esr_\w+)\) == (\d+)", text))
    return {name: int(sizes[kind]) for kind, name in re.findall(r"^(\w+) (esr_\w+)\(", text, flags=re.M)}


def browsers(module, text, sizes, path, tools):
    """Writes the module of the exported functions for a browser: it asks for nothing, and exports its memory, the functions and where the caller's memory begins."""
    path.parent.mkdir(parents=True, exist_ok=True)
    code = compiled(module, BROWSER, gathered(apart(retargeted(narrow(text), "wasm32-unknown-unknown", sizes))), BROWSERS + IN_PLACE, tools)
    names = (f"--export={name}" for name in (*sorted(sizes), "__heap_base"))
    room = ("--stack-first", "-z", f"stack-size={WASM_STACK}", f"--initial-memory={MEMORY_SIZE}", f"--max-memory={MEMORY_SIZE}")
    run(tools / "ld.lld", "-flavor", "wasm", "--no-entry", "--strip-all", *room, *names, "-o", path, code)


def archived(name, sizes, paths, browser=None):
    """Proves a library of C functions and writes its archive to the path of each processor, from one module, and that for a browser where a path is given. Sizes has the bytes
    of the struct that each returns."""
    tools = toolchain()
    repository.below(name)
    run(*keeping(name, "--crate-type", "staticlib", jobs=repository.processors()), cwd=repository.folder(name))
    module = kept(name)
    text = text_of(module, tools)
    understood(text)
    for machine, path in paths.items():
        path.parent.mkdir(parents=True, exist_ok=True)
        path.unlink(missing_ok=True)
        own = retargeted(text, "aarch64-unknown-none-elf", sizes) if machine == "aarch64" else text
        run(tools / "llvm-ar", "rcs", path, compiled(module, machine, gathered(apart(own)), ARCHIVED[machine] + IN_PLACE, tools))
    if browser:
        browsers(module, text, sizes, browser, tools)


def archives():
    """Writes the archive of the C functions for x86-64, and for AArch64, bare metal or Linux, and their module for a browser. Those of the same sources, prover and tool are
    left as they are."""
    made_of = "\n".join((repository.sources(), repository.prover(), hashlib.sha256(Path(__file__).read_bytes() + HEADER.read_bytes()).hexdigest()))
    stamp = ROOM / "archives.of"
    if stamp.is_file() and stamp.read_text() == made_of and all(path.is_file() for path in (*ARCHIVES.values(), WASM)):
        return
    stamp.unlink(missing_ok=True)
    archived("capi", returned(), ARCHIVES, WASM)
    stamp.write_text(made_of)


# ---- the command


def literals(text):
    """The lines of a text as C spells them, one string for each: C99 asks of a compiler to take strings of 4,095 bytes and no longer ones."""
    return ", \\\n".join('"' + line.replace("\\", "\\\\").replace('"', '\\"') + '\\n"' for line in text.splitlines())


def told(names):
    """What the command tells of itself: the header told.h."""
    return "".join(f"#define {name} {literals(text)}\n" for name, text in (("HELP", HELP.read_text()), ("VERSION", version(names))))


def object_of(name, machine, tools):
    """The object file of a program, from the module that was kept when it was built; one that was made of the same is taken."""
    module = kept(name)
    made = module.with_suffix(f".{machine}.o")
    if made.is_file() and max(path.stat().st_mtime for path in (module, Path(__file__))) < made.stat().st_mtime:
        return made
    text = text_of(module, tools)
    understood(text)
    own = retargeted(text, "aarch64-unknown-linux-gnu", {}) if machine == "aarch64" else text
    return compiled(module, machine, named(gathered(own), name), LINUX[machine], tools)


def command(names, machine, target):
    """Links the command with these programs, whose modules were kept, for Linux on a processor, with nothing else."""
    tools = toolchain()
    headers(told=told(names))
    target.parent.mkdir(parents=True, exist_ok=True)
    with ThreadPoolExecutor(repository.processors()) as pool:
        objects = list(pool.map(lambda name: object_of(name, machine, tools), names))
    for source in (COMMAND, MEMORY):
        objects.append(ROOM / f"{source.stem}.{machine}.o")
        run(tools / "clang", f"--target={machine}-unknown-linux-gnu", *C, "-c", source, "-o", objects[-1])
    whole = ROOM / f"{target.name}.{machine}"
    run(tools / "ld.lld", "-static", "--gc-sections", "--strip-all", "-o", whole, *objects)
    whole.replace(target)  # nobody finds half a program


# ---- what the object code holds


def of_vectors(word):
    """Whether an instruction uses a floating-point or vector register, by the groups of the Arm manual's "A64 instruction set encoding": op0, bits 25 to
    28, is x111 for scalar floating-point and Advanced SIMD and 0010 for SVE; in loads and stores, x1x0, bit 26 says so; SME has 0000 and bit 31."""
    op0 = word >> 25 & 0xF
    return op0 & 0x7 == 0x7 or op0 == 0x2 or (op0 & 0x5 == 0x4 and bool(word >> 26 & 1)) or (op0 == 0 and bool(word >> 31))
