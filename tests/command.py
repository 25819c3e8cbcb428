#!/usr/bin/env python3
"""Tries the command bin/adjust, and the scripts, as a user or a full disk would: each line below is a way of calling, with the status, the text and the
message that it must give.

    tests/command.py

Sheets are worked with the program itself. What the command does about building is tried in a made repository with a kit whose `rt` only copies the program.
"""

import os
import resource
import shutil
import subprocess
import sys
import tempfile
import time
from pathlib import Path

import kit

ROOT = Path(__file__).resolve().parent.parent
ADJUST = ROOT / "bin" / "adjust"
WORKED = ROOT / "sheets" / "document-01-first.sheet"
TEXT = WORKED.with_suffix(".expected").read_text(encoding="ascii")
REFUSED = b"\x00"
LONGEST = ROOT / "sheets" / "polygon-8-kind-5.sheet"
PATIENCE = 3600  # seconds: the first run may have to prove and build the program, after another build
TOOLS = "bash cat chmod cp env find git mkdir mv readlink rm sleep".split()

# The stand-in for the kit's command: what it is asked, whether another runs, and a program that is half written for a while.
STAND_IN = """#!/usr/bin/env bash
cd "{root}"
echo "$*" >>calls
mkdir running 2>/dev/null || touch overlapped
[ ! -e changes ] || echo "// once more" >>crates/made/src/lib.rt
mkdir -p crates/adjust/out
head -c 1000 "{program}" >crates/adjust/out/adjust
sleep 0.3
cp "{program}" crates/adjust/out/adjust && chmod +x crates/adjust/out/adjust
rmdir running
echo "what the kit says"
[ ! -e broken ]
"""

passed = failed = 0


def expect(name, found, right):
    global passed, failed
    if found == right:
        passed += 1
    else:
        failed += 1
        print(f"FAILED {name}\nexpected {right!r}\nit gave  {found!r}")


def call(words, **how):
    """Status, text and message."""
    how.setdefault("stdout", subprocess.PIPE)
    if "input" not in how:
        how.setdefault("stdin", subprocess.DEVNULL)
    done = subprocess.run([str(word) for word in words], stderr=subprocess.PIPE, timeout=PATIENCE, check=False, **how)
    return done.returncode, (done.stdout or b"").decode(), done.stderr.decode()


def closed(descriptor):
    return lambda: os.close(descriptor)


def limited(size):
    return lambda: resource.setrlimit(resource.RLIMIT_FSIZE, (size, size))


def try_sheets(folder):
    sheet = WORKED.read_bytes()
    odd = folder / "-a sheet"
    odd.write_bytes(sheet)
    refused = folder / "refused.sheet"
    refused.write_bytes(REFUSED)
    expect("a worked sheet", call([ADJUST], input=sheet), (0, TEXT, ""))
    expect("a refused sheet", call([ADJUST], input=REFUSED), (1, "refused 12 0\n", ""))
    expect("an empty sheet", call([ADJUST], input=b""), (1, "refused 12 0\n", ""))
    longest = LONGEST.read_bytes()
    expect("the longest sheet", call([ADJUST], input=longest), (0, LONGEST.with_suffix(".expected").read_text(encoding="ascii"), ""))
    expect("one byte more than the longest", call([ADJUST], input=longest + b"\0"), (1, "refused 12 0\n", ""))
    expect("a sheet by its name", call([ADJUST, WORKED]), (0, f"{WORKED}:\n{TEXT}", ""))
    expect("one of two refused", call([ADJUST, refused, WORKED]), (1, f"{refused}:\nrefused 12 0\n{WORKED}:\n{TEXT}", ""))
    expect("- is standard input", call([ADJUST, "-", WORKED], input=REFUSED), (1, f"-:\nrefused 12 0\n{WORKED}:\n{TEXT}", ""))
    expect("a name that begins with -", call([ADJUST, "--", odd.name], cwd=folder), (0, f"{odd.name}:\n{TEXT}", ""))
    expect("-- and no name", call([ADJUST, "--"], input=sheet), (0, TEXT, ""))
    expect("a name, and no standard input", call([ADJUST, WORKED], preexec_fn=closed(0)), (0, f"{WORKED}:\n{TEXT}", ""))
    expect("no standard error", call(["bash", "-c", '"$0" 2>&-', ADJUST], input=REFUSED), (1, "refused 12 0\n", ""))


def try_lost_bytes(folder):
    lost = "adjust: the text was not written whole: "
    for words in ([ADJUST, WORKED], [ADJUST, "--help"], [ADJUST, "--version"]):
        with open("/dev/full", "wb") as full:
            expect(f"a full device {words[1]}", call(words, stdout=full), (2, "", lost + "No space left on device\n"))
        expect(f"a closed output {words[1]}", call(words, preexec_fn=closed(1)), (2, "", "adjust: standard output is closed\n"))
        reading, writing = os.pipe()
        os.close(reading)
        expect(f"a reader that has gone {words[1]}", call(words, stdout=writing), (2, "", lost + "Broken pipe\n"))
        os.close(writing)
        with open(folder / "cut", "wb") as cut:
            expect(f"a limit on the file's size {words[1]}", call(words, stdout=cut, preexec_fn=limited(20)), (2, "", lost + "File too large\n"))
    with open("/dev/full", "wb") as full:
        expect("a full device, from standard input", call([ADJUST], input=WORKED.read_bytes(), stdout=full), (2, "", lost + "No space left on device\n"))
        expect("a full device, a refused sheet", call([ADJUST], input=REFUSED, stdout=full), (2, "", lost + "No space left on device\n"))


def try_no_sheet(folder):
    no_read = "the sheet could not be read\n"
    expect("a folder", call([ADJUST, folder]), (2, "", f"adjust: {folder}: a folder\n"))
    with open("/dev/null", "rb") as nothing:
        expect("standard input is a folder", call(["bash", "-c", '"$0" <"$1"', ADJUST, folder], stdin=nothing), (2, "", "adjust: standard input is a folder\n"))
    expect("a closed input", call([ADJUST], preexec_fn=closed(0)), (2, "", "adjust: standard input is closed\n"))
    expect("a closed input, by -", call([ADJUST, "-"], preexec_fn=closed(0)), (2, "", "adjust: standard input is closed\n"))
    memory = f"/proc/{os.getpid()}/mem"  # nothing is mapped at its start
    if not os.getuid():
        expect("a read that fails", call([ADJUST, memory]), (2, "", f"adjust: {memory}: {no_read}"))
    with open(memory, "rb") as unreadable:
        expect("a read of standard input that fails", call([ADJUST], stdin=unreadable), (2, "", "adjust: " + no_read))
    expect("a missing file", call([ADJUST, WORKED, "no such", ""]), (2, "", "adjust: no such: no such file\nadjust: : no such file\n"))
    if os.getuid():
        closed_file = folder / "closed"
        closed_file.touch(0)
        expect("a file that may not be read", call([ADJUST, closed_file]), (2, "", f"adjust: {closed_file}: may not be read\n"))


def try_options(folder):
    usage = call([ADJUST, "--help"])
    expect("--help", (usage[0], usage[1].startswith("usage: adjust < SHEET\n"), usage[2]), (0, True, ""))
    expect("--help says the statuses", [word in usage[1] for word in ("\n  0  ", "\n  1  ", "\n  2  ", "docs/SHEETS.md")], [True] * 4)
    expect("-h", call([ADJUST, "-h"]), usage)
    expect("--help after a name", call([ADJUST, WORKED, "--help"]), usage)
    version = call([ADJUST, "--version"])
    expect("--version", (version[0], version[1].startswith("adjust, of Bienguloc, commit "), version[2]), (0, True, ""))
    for option in ("--nosuch", "-x"):
        expect(option, call([ADJUST, option]), (2, "", f"adjust: no such option: {option}\n{usage[1]}"))
    terminal, typed = os.openpty()
    expect("a terminal", call([ADJUST], stdin=typed), (2, "", usage[1]))
    os.close(terminal)
    os.close(typed)


def try_links(folder):
    other = folder / "another folder"
    other.mkdir()
    link = other / "a link"
    link.symlink_to(ADJUST)
    (other / "a link to it").symlink_to("a link")
    (other / "repository").symlink_to(ROOT)
    shutil.copy(WORKED, other / "a sheet")
    right = (0, f"a sheet:\n{TEXT}", "")
    expect("by a link", call([link, "a sheet"], cwd=other), right)
    expect("by a link to a link", call(["./a link to it", "a sheet"], cwd=other), right)
    expect("through a linked folder", call(["repository/bin/adjust", "a sheet"], cwd=other), right)
    expect("by its name alone", call(["bash", "adjust", WORKED], cwd=ADJUST.parent), (0, f"{WORKED}:\n{TEXT}", ""))
    path = {**os.environ, "PATH": f"{ADJUST.parent}:{os.environ['PATH']}"}
    expect("from the PATH", call(["adjust", "a sheet"], cwd=other, env=path), right)


class Made:
    """A repository of one source, and a kit whose `rt` is the stand-in; only these tools, and those that are asked for, are on its PATH."""

    def __init__(self, folder, name, tools=("flock",)):
        self.root = folder / name
        self.kit = folder / f"{name} kit"
        self.tools = folder / f"{name} tools"
        self.source = self.root / "crates" / "made" / "src" / "lib.rt"
        self.source.parent.mkdir(parents=True)
        (self.root / "crates" / "adjust").mkdir()
        self.source.write_text("// a source\n", encoding="ascii")
        (self.root / "crates.txt").write_text("made:\n", encoding="ascii")
        shutil.copytree(ROOT / "bin", self.root / "bin")
        (self.kit / "bin").mkdir(parents=True)
        (self.kit / "KIT-ID").write_text("a kit\n", encoding="ascii")
        (self.kit / "toolchain").symlink_to(kit.home() / "toolchain")
        stand_in = self.kit / "bin" / "rt"
        stand_in.write_text(STAND_IN.format(root=self.root, program=ROOT / "target" / "command" / "adjust"), encoding="ascii")
        stand_in.chmod(0o755)
        self.tools.mkdir()
        for tool in (*TOOLS, "head", "rmdir", "touch", *tools):
            (self.tools / tool).symlink_to(shutil.which(tool))
        (self.tools / "rt").symlink_to(stand_in)
        self.path = {**{k: v for k, v in os.environ.items() if k != "RATTLE_HOME"}, "PATH": str(self.tools)}

    def start(self, *words):
        return subprocess.Popen([self.root / "bin" / "adjust", *words], env=self.path, stdin=subprocess.DEVNULL, stdout=subprocess.PIPE, stderr=subprocess.PIPE)

    def adjust(self, *words):
        return call([self.root / "bin" / "adjust", *words], env=self.path)

    def builds(self):
        calls = self.root / "calls"
        return calls.read_text(encoding="ascii").splitlines().count("run") if calls.exists() else 0


RIGHT = (0, f"{WORKED}:\n{TEXT}", "")
BUILDING = (
    "adjust: proving and building the program: up to ten minutes from nothing, seconds after a small change; the log is target/command/log\n"
)
WAITING = "waiting for another build in this folder\n"
BUILT = (0, f"{WORKED}:\n{TEXT}", BUILDING)


def try_building(folder):
    made = Made(folder, "a repository")
    for words in (["--help"], ["--version"], ["--nosuch"], ["no such file"], [str(folder)]):
        made.adjust(*words)
    expect("what needs no program builds none", made.builds(), 0)
    expect("a first run", made.adjust(WORKED), BUILT)
    expect("the log of a first run", (made.root / "target" / "command" / "log").read_text(encoding="ascii"), "what the kit says\n")
    expect("a second run", made.adjust(WORKED), RIGHT)
    expect("one build", made.builds(), 1)
    try_changes(made)
    (made.root / "broken").touch()
    made.source.write_text("// worse\n", encoding="ascii")
    not_built = "adjust: not built: target/command/log says why\n"
    expect("a build that fails", made.adjust(WORKED), (2, "", BUILDING + not_built))
    expect("a build that fails again", made.adjust(WORKED), (2, "", BUILDING + not_built))
    (made.root / "broken").unlink()
    (made.root / "changes").touch()
    expect("a source that changes during a build", made.adjust(WORKED), (2, "", BUILDING + "adjust: not built: the sources changed meanwhile\n"))
    (made.root / "changes").unlink()
    expect("after these", made.adjust(WORKED), BUILT)


def try_changes(made):
    def same_size_and_time():
        was = made.source.stat()
        made.source.write_text("// A source\n", encoding="ascii")
        os.utime(made.source, ns=(was.st_atime_ns, was.st_mtime_ns))

    def older_in_its_place():
        other = made.root / "other"
        other.write_text("// another\n", encoding="ascii")
        os.utime(other, (0, 0))
        other.replace(made.source)

    changes = [
        ("a change that keeps size and time", same_size_and_time),
        ("an older file in its place", older_in_its_place),
        ("a new source", lambda: made.source.with_name("more.rt").touch()),
        ("a source less", lambda: made.source.with_name("more.rt").unlink()),
        ("another list of crates", lambda: (made.root / "crates.txt").write_text("made: \n", encoding="ascii")),
        ("another kit", lambda: (made.kit / "KIT-ID").write_text("another kit\n", encoding="ascii")),
        ("the program changed", lambda: (made.root / "target" / "command" / "adjust").write_bytes(b"#!/bin/true\n")),
        ("the program gone", lambda: (made.root / "target" / "command" / "adjust").unlink()),
        ("target/ gone", lambda: shutil.rmtree(made.root / "target")),
    ]
    for number, (name, change) in enumerate(changes, start=2):
        change()
        expect(name, (made.adjust(WORKED), made.builds()), (BUILT, number))
        expect(f"{name}, and once more", (made.adjust(WORKED), made.builds()), (RIGHT, number))


def try_at_once(folder):
    for tool in ("flock", "perl", "python3"):
        if not shutil.which(tool):
            continue
        made = Made(folder, f"at once by {tool}", tools=(tool,))
        runs = [made.start(WORKED) for _ in range(4)]
        ended = [(run.communicate(timeout=PATIENCE), run.returncode) for run in runs]
        expect(f"four first runs at once, {tool}", [(status, text.decode()) for (text, _), status in ended], [RIGHT[:2]] * 4)
        said = [message.decode() for (_, message), _ in ended]
        expect(f"one says that it builds, {tool}", said.count(BUILDING), 1)
        expect(f"the others wait, {tool}", set(said) - {BUILDING, WAITING, ""}, set())
        expect(f"one build, {tool}", (made.builds(), (made.root / "overlapped").exists()), (1, False))
    made = Made(folder, "beside a gate")
    gate = subprocess.Popen(["bash", "-c", "root=$PWD; . bin/alone.sh; alone rt check gate"], cwd=made.root, env=made.path, stdout=subprocess.DEVNULL)
    while not (made.root / "running").exists():
        time.sleep(0.01)
    expect("a first run beside a gate", made.adjust(WORKED), (0, RIGHT[1], WAITING + BUILDING))
    expect("the gate was not disturbed", (gate.wait(timeout=PATIENCE), (made.root / "overlapped").exists()), (0, False))
    made = Made(folder, "no lock", tools=())
    expect("without a lock", made.adjust(WORKED)[:2], (2, ""))


def try_without_rt(folder):
    made = Made(folder, "no kit")
    (made.tools / "rt").unlink()
    status, text, message = made.adjust(WORKED)
    expect("rt missing", (status, text, message.startswith("adjust: rt, the command of the Rattle kit, is wanted")), (2, "", True))


def try_program(folder):
    """The program by itself, which has no status."""
    tools = kit.home() / "toolchain"
    words = [tools / "lib" / "ld-linux-x86-64.so.2", "--library-path", tools / "lib", ROOT / "target" / "command" / "adjust"]
    with open("/dev/full", "wb") as full:
        found = call(words, input=WORKED.read_bytes(), stdout=full)
    expect("the program on a full device", found[1:], ("", "adjust: the text was not written whole\n"))
    expect("the program without input", call(words, preexec_fn=closed(0))[1:], ("", "adjust: the sheet could not be read\n"))


def try_scripts(folder):
    gate = ROOT / ".ci" / "run"
    for option in ("--help", "-h"):
        status, text, message = call([gate, option])
        expect(f".ci/run {option}", (status, text.startswith("usage: .ci/run\n"), message), (0, True, ""))
    status, text, message = call([gate, "--nosuch"])
    expect(".ci/run with a word", (status, text, message.startswith("usage: .ci/run\n")), (2, "", True))
    made = Made(folder, "no python", tools=("dirname", "mktemp", "id"))
    for part in (".ci", "tests"):
        shutil.copytree(ROOT / part, made.root / part)
    for tool in ("apt-get", "sudo"):
        (made.tools / tool).write_text("#!/usr/bin/env bash\nexit 100\n", encoding="ascii")
        (made.tools / tool).chmod(0o755)
    status, text, _ = call([made.root / ".ci" / "run"], env=made.path)
    expect("an install that fails", (status, text.splitlines()), (2, ["the package python3 could not be installed", "0 passed, 1 failed"]))
    expect("it starts nothing", (made.root / "calls").exists(), False)


def try_wrong_programs(folder):
    """In a repository of two crates: an edit of a comment is told, and so is one that does not fit, one of a crate that
    is not proved without it, and, of what `rt ci` told, a refusal that is none of a contract."""
    crate = Path("crates") / "refusals"
    for part in (Path("tests"), Path("crates") / "vocabulary", crate):
        shutil.copytree(ROOT / part, folder / part, ignore=shutil.ignore_patterns("out"))
    (folder / "crates.txt").write_text("vocabulary:\nrefusals: vocabulary\n", encoding="ascii")
    for edit in (folder / crate / "must-fail").iterdir():
        edit.unlink()
    edits = (
        ("a_comment", "// The answer of two tests in their order.", "// Another.", "NOT REFUSED"),
        ("a_comment_in_a_body", "Refusal::NoSuchFigure => 1,", "Refusal::NoSuchFigure => 1, // as it was", "NOT REFUSED"),
        ("a_failure_lost", "earlier.and(later)", "earlier.and(earlier)", None),
        ("no_such_text", "// None.", "// Another.", "BAD EDIT"),
    )
    for name, old, new, _ in edits:
        (folder / crate / "must-fail" / f"{name}.edit").write_text(f"file: src/lib.rt\nold: {old}\nnew: {new}\n", encoding="ascii")
    words = ["python3", folder / "tests" / "must_fail.py"]
    status, text, _ = call(words)
    told = [(name, said) for name, *_, said in edits if said and f"FAILED must-fail refusals/{name}.edit: {said}" in text]
    right = [(name, said) for name, *_, said in edits if said]
    expect("wrong programs that are not", (status, told, text.splitlines()[-1]), (1, right, "1 passed, 3 failed"))
    for name, *_ in edits:
        if name != "a_failure_lost":
            (folder / crate / "must-fail" / f"{name}.edit").unlink()
    source = folder / crate / "src" / "lib.rt"
    source.write_text(source.read_text(encoding="utf-8").replace("Refusal::WrongLength => 2,", "Refusal::WrongLength => 3,"), encoding="utf-8")
    status, text, _ = call(words)
    right = ["FAILED must-fail refusals/a_failure_lost.edit: NOT TRIED: the crate is not proved without it", "0 passed, 1 failed"]
    expect("a wrong program beside another that is no edit", (status, text.splitlines()[-2:]), (1, right))
    status, text, message = call([*words, "nosuch"])
    expect("wrong programs of no crate", (status, text, message.startswith("usage: tests/must_fail.py ")), (2, "", True))
    log = folder / "log"
    refused = "rt: must-fail made/label.edit: refused, as it must be"
    for name, line, right in (
        ("by a fact", f"{refused}: note: src/lib.rt:2:1: it is not proved that", (0, "1 passed, 0 failed")),
        ("by a name alone", f"{refused} (only because a proof file names what the edit took away): x", (1, "0 passed, 1 failed")),
        ("by what a name rests on", f"{refused}: ./proofs/f/Proof.antt:3:1: error: 1 declaration that depends on `a`, which was rejected", (1, "0 passed, 1 failed")),
        ("that does not fit", "rt: must-fail made/label.edit: BAD EDIT: an 'old:' text is in src/lib.rt 0 times, and not once", (1, "0 passed, 1 failed")),
    ):
        log.write_text(line + "\n", encoding="ascii")
        status, text, _ = call([*words, "--told", log])
        expect(f"a refusal {name}", (status, text.splitlines()[-1]), right)


def try_giving_up(folder):
    """In a copy, since tests/c/run may be at work in target/c."""
    for part in ("bench", "bin", "examples", "include", "sheets", "tests"):
        shutil.copytree(ROOT / part, folder / part)
    words = [folder / "tests" / "c" / "run"]
    for name, library, status in (("gives up", "/no such archive", 1), ("is ended", str(folder / "tests" / "README.md"), 130)):
        how = {"env": {**os.environ, "BIENGULOC_LIBRARY": library}, "start_new_session": True, "stdout": subprocess.DEVNULL, "stderr": subprocess.DEVNULL}
        tests = subprocess.Popen(words, **how)
        if status == 130:
            time.sleep(0.2)
            tests.terminate()
        expect(f"tests/c/run {name}", tests.wait(timeout=PATIENCE), status)
        left = [entry.name for entry in Path("/proc").iterdir() if entry.name.isdigit() and started_by(entry) == tests.pid]
        expect(f"tests/c/run {name}, and leaves no process behind", left, [])


def started_by(process):
    """The process at the head of all that were started with it, by its number."""
    try:
        return int((process / "stat").read_text().rpartition(")")[2].split()[3])
    except OSError:
        return None


def main():
    call([ADJUST], input=b"")
    tries = [try_sheets, try_lost_bytes, try_no_sheet, try_options, try_links, try_building, try_at_once, try_without_rt, try_program]
    tries += [try_scripts, try_wrong_programs, try_giving_up]
    for attempt in tries:
        with tempfile.TemporaryDirectory() as folder:
            attempt(Path(folder))
    print(f"{passed} passed, {failed} failed")
    return 0 if passed and not failed else 1


if __name__ == "__main__":
    sys.exit(main())
