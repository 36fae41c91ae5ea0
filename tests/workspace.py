"""A copy of some crates in which they can be changed and proved again in seconds.

The copy stands outside the repository, since `rt ci` refuses a crate's files anywhere else in it. A check there begins with what the checks of the repository kept.
"""
import contextlib
import re
import shutil
import subprocess
import tempfile
from pathlib import Path

ROOT = Path(__file__).resolve().parents[1]


def listed():
    """The lines of crates.txt: each crate with the crates that it uses."""
    lines = [line.split("#")[0] for line in (ROOT / "crates.txt").read_text().splitlines()]
    return {line.split(":")[0].split()[0]: line for line in lines if line.strip()}


def with_those_below(names):
    """The named crates and those that they use, in the order of crates.txt."""
    lines = listed()
    wanted = set()
    rest = list(names)
    while rest:
        name = rest.pop()
        if name in lines and name not in wanted:
            wanted.add(name)
            rest += lines[name].split(":", 1)[1].split()
    return [name for name in lines if name in wanted]


@contextlib.contextmanager
def copied(names):
    """A folder with the named crates, those below them and a crates.txt that lists these; it is removed behind the caller."""
    folder = Path(tempfile.mkdtemp(prefix="zerglaz-", dir="/var/tmp"))
    try:
        crates = with_those_below(names)
        (folder / "crates").mkdir()
        lines = listed()
        (folder / "crates.txt").write_text("".join(f"{lines[name]}\n" for name in crates))
        for name in crates:
            shutil.copytree(ROOT / "crates" / name, folder / "crates" / name, ignore=shutil.ignore_patterns("out"))
        yield folder
    finally:
        shutil.rmtree(folder, ignore_errors=True)


def rt(folder, *words):
    """Runs a command of the toolchain in a folder: its status and what it prints."""
    run = subprocess.run(["rt", *words], cwd=folder, stdout=subprocess.PIPE, stderr=subprocess.STDOUT, text=True)
    return run.returncode, run.stdout


def check(folder, name, jobs=2):
    """Checks a crate of a copy: its status and what it prints."""
    return rt(folder / "crates" / name, "check", "--jobs", str(jobs))


def is_proved(status, printed):
    """Whether a check found its crate proved."""
    last = re.findall(r"^logic=\S+", printed, re.M)
    return status == 0 and last[-1:] == ["logic=proved"]
