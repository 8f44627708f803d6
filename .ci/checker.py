"""Asks the checker about one crate without proving it, over the libraries that `rt ci` left."""

import functools
import pathlib
import re
import subprocess

CRATES = pathlib.Path("crates").resolve()
LINE = re.compile(r"^(\w+)(?:\s+(\w+))?\s*:(.*)$")


@functools.cache
def listed():
    """The crates of crates.txt, each with what it depends on."""
    lines = map(LINE.match, pathlib.Path("crates.txt").read_text().splitlines())
    return {line[1]: line[3].split() for line in lines if line}


@functools.cache
def kit():
    """The folder of the toolchain."""
    run = subprocess.run(["rt", "doc"], capture_output=True, text=True, check=True)
    return pathlib.Path(run.stdout.strip()).parent


def below(name):
    """All crates of the repository under one."""
    found, left = set(), [name]
    while left:
        for dep in listed()[left.pop()]:
            if dep in listed() and dep not in found:
                found.add(dep)
                left.append(dep)
    return sorted(found)


def library(name):
    return CRATES / name / "out" / "rlib" / f"{name}.rlib"


def words(name, folder):
    """The checker's words for a crate that stands in a folder, for a check that proves no function."""
    root = "src/main.rt" if (folder / "src" / "main.rt").exists() else "src/lib.rt"
    said = [f"{kit()}/bin/rattle", "check", "--crate-name", name, root]
    for dep in ["std", *listed()[name]]:
        built = library(dep) if dep in listed() else f"{kit()}/rlibs/{dep}.rlib"
        said += ["--extern", f"{dep}={built}"]
    for place in [f"{kit()}/rlibs", *(library(dep).parent for dep in below(name))]:
        said += ["-L", f"dependency={place}"]
    said += ["--antt-project", f"{kit()}/rattle/logic/antt-project.json", "--logic-built", f"{kit()}/logic_built"]
    return [*said, "--jobs", "1", "--only", ""]


def ask(name, folder, *more):
    """How the check of a crate in a folder ends, and what it says; None where a library below is missing."""
    if not all(library(dep).is_dir() for dep in below(name)):
        return None
    run = subprocess.run([*words(name, folder), *more], cwd=folder, capture_output=True, text=True)
    return run.returncode, run.stdout + run.stderr
