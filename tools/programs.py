"""The programs of the command `esr`: each is proved and built, with all that it rests on, when it is first asked for.

What is built lies in target/esr, with build.log, which has what rt said."""
import itertools
import os
import platform
import shutil
import signal
import subprocess
import sys
import time
from contextlib import contextmanager, suppress

import repository
import retarget

TOP = repository.TOP
ROOM = TOP / "target" / "esr"
LOG = ROOM / "build.log"
JOBS = ROOM / "jobs"  # what was said of each crate that is being proved
LISTING = "esr_listing"
# The command's words, each with the program that it asks for; without one of them it is the listing.
COMMANDS = {"records": "esr_records", "number": "esr_number", "entry": "esr_entry", "walk": "esr_walk", "survey": "esr_survey", "make": "esr_make", "diff": "esr_diff", "turn": "esr_turn", "sheet": "esr_sheet"}
PROFILE = ("--strict", "--nested")
SHEET = "--sheet"
# A survey of surveys has a program of its own.
SUM = ["survey", "--add"]
PROGRAMS = (LISTING, *COMMANDS.values(), "esr_survey_sum")
STDERR = 2
TURN = 0.2  # seconds between two looks at a build


class Failure(Exception):
    """Why there is no program."""


def after_profile(words):
    """The words after those that say how values are read (#110)."""
    return list(itertools.dropwhile(PROFILE.__contains__, words))


def after_sheet(words):
    """The words after those that name the workshop's sheet (#112), and those that say how values are read."""
    words = after_profile(words)
    return after_profile(words[2:]) if words[:1] == [SHEET] else words


def asked(words):
    """The program that the words of a command line ask for."""
    words = after_sheet(words)
    if words[: len(SUM)] == SUM:
        return PROGRAMS[-1]
    return COMMANDS.get(words[0] if words else "", LISTING)


def tell(message):
    print(f"esr: {message}", file=sys.stderr, flush=True)


# ---- how far a build is


def progress(crates, proving, done, began):
    doing = f"proving {', '.join(proving)}" if proving else "building"
    return f"esr: {doing} ({len(done)} of {len(crates)} done, {time.time() - began:.0f} s)"


def is_watched():
    """Whether standard error is a terminal, which someone looks at; a log is spared a line that moves."""
    return os.isatty(STDERR)


def show(line):
    """The one line of a terminal that moves. Spaces clear what stood there, so that any terminal will do; the last column stays free, so that none
    goes on to a second line."""
    with suppress(OSError):  # the terminal may be gone
        columns = os.get_terminal_size(STDERR).columns or 80
        os.write(STDERR, f"\r{line[: columns - 1]:{columns - 1}}\r".encode())


# ---- the programs


def is_newest(file, paths):
    """Whether the file is there, and none of the paths is newer."""
    return file.is_file() and all(path.stat().st_mtime <= file.stat().st_mtime for path in paths)


def job(crate):
    """Begins to prove a crate whose needs are proved; a program is compiled too, and its module kept."""
    JOBS.mkdir(parents=True, exist_ok=True)
    command = retarget.keeping(crate) if crate in PROGRAMS else repository.proving(crate)
    with (JOBS / crate).open("wb") as said:
        return subprocess.Popen([str(word) for word in command], cwd=repository.folder(crate), stdin=subprocess.DEVNULL, stdout=said, stderr=said, start_new_session=True)


def end(number, running):
    """Ends every rt, and all that they started, then this, by the signal. rt ignores an interrupt, and would go on unseen."""
    for run in running.values():
        with suppress(ProcessLookupError):
            os.killpg(run.pid, signal.SIGTERM)
    if is_watched():
        show("")
    retarget.forget_shadows()
    signal.signal(number, signal.SIG_DFL)
    os.kill(os.getpid(), number)


@contextmanager
def catching():
    """The signals that came, of those that would end this: a build looks at them between two starts, so that none is begun that it does not know of."""
    came = []
    numbers = [number for number in (signal.SIGHUP, signal.SIGINT, signal.SIGTERM) if signal.getsignal(number) is not signal.SIG_IGN]
    kept = {number: signal.signal(number, lambda number, _: came.append(number)) for number in numbers}
    try:
        yield came
    finally:
        for number, handler in kept.items():
            signal.signal(number, handler)


def to_prove(programs):
    """What is proved for these programs. What rt ci has just proved is taken as it stands; else rt itself sees what has changed since, which it does quickly where little has."""
    return {program: [] for program in programs} if repository.is_by_ci() else repository.rests_on(*programs)


def prove(programs):
    """Proves programs and what they rest on, each crate as soon as its needs are proved, and compiles them; answers the first crate whose command failed and its status, or None."""
    crates, began = to_prove(programs), time.time()
    left, done, running, failed = list(crates), [], {}, None
    with LOG.open("wb") as log, catching() as came:
        while running or (left and not failed):
            ready = [crate for crate in left if not failed and set(crates[crate]) <= set(done)]
            for crate in ready[: repository.processors() - len(running)]:
                left.remove(crate)
                running[crate] = job(crate)
            if is_watched():
                show(progress(crates, list(running), done, began))
            time.sleep(TURN)
            if came:
                end(came[0], running)
            for crate in [crate for crate, run in running.items() if run.poll() is not None]:
                ended = running.pop(crate)
                log.write((JOBS / crate).read_bytes())
                if ended.returncode:
                    failed = failed or (crate, ended.returncode)
                done.append(crate)
    if is_watched():
        show("")
    return failed


def path_of(program):
    return ROOM / "bin" / program


def stamp_of(program):
    """A file as old as the beginning of the program's last proof."""
    return ROOM / program


def is_proved(program):
    """Whether the program was proved, and its module kept, and no crate has changed since."""
    parts = [path for part in repository.PARTS for path in (TOP / "crates").glob(f"*/{part}/**/*")]  # a folder is newer where a file is gone
    return retarget.module_of(program).is_file() and is_newest(stamp_of(program), [repository.CRATES, *parts])


def is_built(program):
    return is_proved(program) and is_newest(path_of(program), [stamp_of(program), *retarget.OWN])


def proved(*programs):
    """Proves programs and all that they rest on, and keeps their modules, where that is still to be done."""
    wanted = [program for program in programs if not is_proved(program)]
    if not wanted:
        return
    if not shutil.which("rt"):
        raise Failure("the Rattle toolchain is needed to build the program: no 'rt' on the PATH")
    said = f"{wanted[0]}: what it rests" if len(wanted) == 1 else f"{len(wanted)} programs: what they rest"
    tell(f"building {said} on is proved first, which takes some minutes from nothing and seconds otherwise")
    ROOM.mkdir(parents=True, exist_ok=True)
    for program in wanted:
        stamp_of(program).unlink(missing_ok=True)
    began = time.time()
    failed = prove(wanted)
    if failed:
        crate, status = failed
        raise Failure(f"{', '.join(wanted)} could not be built ({crate} is not proved: its command ended with {status}); {LOG.relative_to(TOP)} has what it said")
    for program in wanted:
        stamp_of(program).touch()
        os.utime(stamp_of(program), (began, began))
    tell(f"proved in {time.time() - began:.0f} seconds")


def built(program):
    """The command with this one program, for this machine; proved and linked where that is still to be done."""
    proved(program)
    if not is_built(program):
        path_of(program).unlink(missing_ok=True)
        retarget.command([program], platform.machine(), path_of(program))
    return path_of(program)
