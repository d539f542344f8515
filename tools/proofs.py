"""What the tools share that check crates for themselves: the crates of crates.txt, their libraries as they stand built, and the toolchain's `rattle`,
which checks a crate over these, as `rt` has it do. (A module, and no tool.)

A library stands in crates/NAME/out/rlib, where `rt ci`, `rt lib` or a check of a crate above it left it."""
import functools
import os
import pathlib
import re
import shutil
import subprocess
import sys

ROOT = pathlib.Path(__file__).resolve().parent.parent
PARTS = ("src", "specs", "proofs")


@functools.lru_cache(maxsize=None)
def kit():
    """The toolchain's folder."""
    return pathlib.Path(subprocess.run(["rt", "doc"], check=True, stdout=subprocess.PIPE, text=True).stdout.strip()).parent


@functools.lru_cache(maxsize=None)
def crates():
    """The crates of crates.txt, each with the words before its colon and the libraries behind it."""
    found = {}
    for line in (ROOT / "crates.txt").read_text().splitlines():
        words, _, below = line.partition("#")[0].partition(":")
        if words.split():
            found[words.split()[0]] = words.split()[1:], below.split()
    return found


def below(name):
    """The libraries of the repository that a crate stands on, each behind those that it stands on itself."""
    found = []
    for dep in crates()[name][1]:
        found += [it for it in ([*below(dep), dep] if dep in crates() else []) if it not in found]
    return found


def rlib(name):
    return ROOT / "crates" / name / "out/rlib" / f"{name}.rlib"


def changed(path, *names):
    """Whether a file of these crates was written, or lost, since the file or folder `path` was made, or that is not there."""
    if not path.exists():
        return True
    made = path.stat().st_mtime_ns
    paths = [ROOT / "crates.txt"]
    for name in names:
        for part in PARTS:
            for folder, _, files in os.walk(ROOT / "crates" / name / part):
                paths += [pathlib.Path(folder), *(pathlib.Path(folder, file) for file in files)]
    return any(it.stat().st_mtime_ns >= made for it in paths)


def left_by_ci(name):
    """Whether a library stands as `rt ci` left it, of the files as they are. (What `rt lib` and `rt check` build has a stamp.)"""
    return not (rlib(name).parent / "stamp").exists() and not changed(rlib(name), name, *below(name))


def build(names):
    """Has the libraries below these crates stand built. After `rt ci` they do; else `rt lib` proves what is not proved."""
    needed = []
    for name in names:
        needed += [it for it in below(name) if it not in needed]
    if all(map(left_by_ci, needed)):
        return
    for name in needed:
        done = subprocess.run(["rt", "lib"], cwd=ROOT / "crates" / name, stdin=subprocess.DEVNULL, stdout=subprocess.PIPE, stderr=subprocess.STDOUT, text=True)
        if done.returncode:
            sys.exit(f"{done.stdout[-2000:]}{pathlib.Path(sys.argv[0]).name}: crates/{name} is not proved")


def words(name, rlibs=rlib):
    """The words that have `rattle` check or build a crate, over the libraries that `rlibs` has."""
    kinds, deps = crates()[name]
    at = kit()
    found = ["--crate-name", name, "src/main.rt" if (ROOT / "crates" / name / "src/main.rt").exists() else "src/lib.rt"]
    for dep in ["std", *deps]:
        found += ["--extern", f"{dep}={rlibs(dep) if dep in crates() else at / 'rlibs' / f'{dep}.rlib'}"]
    for folder in [at / "rlibs", *(rlibs(dep).parent for dep in below(name))]:
        found += ["-L", f"dependency={folder}"]
    found += ["--antt-project", at / "rattle/logic/antt-project.json", "--logic-built", at / "logic_built", "--links", f"{name}="]
    return found + (["--crate-type", "staticlib"] if "staticlib" in kinds else [])


def rattle(verb, folder, *given):
    """Runs `rattle` in a crate's folder, and gives its status and all that it said. Where it is killed, most likely for memory, it is run once more."""
    how = {"cwd": folder, "stdin": subprocess.DEVNULL, "stdout": subprocess.PIPE, "stderr": subprocess.STDOUT, "text": True, "errors": "replace"}
    for _ in range(2):
        done = subprocess.run([kit() / "bin/rattle", verb, *given], **how)
        if done.returncode >= 0:
            break
    return done.returncode, done.stdout


def has_kept(name):
    """Whether checks of a crate kept what they proved."""
    return (ROOT / "crates" / name / "out/incremental").is_dir()


def kept(name, to):
    """Gives a check a folder of its own for what it proves, begun with what checks of the crate kept; such a file is replaced, and never changed."""

    def link(one, other):
        try:
            if one.endswith(".oantt"):
                return os.link(one, other)
        except OSError:
            pass
        return shutil.copy2(one, other)

    if has_kept(name):
        shutil.copytree(ROOT / "crates" / name / "out/incremental", to, copy_function=link)
    else:
        to.mkdir(parents=True)
    return ["--incremental", to]


def at_a_time():
    """How many checks the machine can do side by side: one for each processor, and as many as the free memory holds."""
    free = [1024 * int(re.search(r"^MemAvailable:\s+(\d+)", pathlib.Path("/proc/meminfo").read_text(), re.M).group(1))]
    for group, held in (("memory.max", "memory.current"), ("memory/memory.limit_in_bytes", "memory/memory.usage_in_bytes")):
        limit, used = (pathlib.Path("/sys/fs/cgroup", it) for it in (group, held))
        if limit.exists() and used.exists() and limit.read_text().strip().isdigit():
            free.append(int(limit.read_text()) - int(used.read_text()))
    return max(1, min(len(os.sched_getaffinity(0)), int(min(free) // 2_500_000_000)))
