"""Builds the program of the comparison in a folder of its own, from an unpacked lsm-tree 3.1.10 and the stand-ins."""

import os
import re
import shutil
import subprocess
import sys

HERE = os.path.dirname(os.path.abspath(__file__))
ROOT = os.path.dirname(HERE)

# What is copied as it is, by its path under src/.
COPIED = [
    "slice_windows.rs",
    "key_range.rs",
    "version/run.rs",
    "compaction/state/mod.rs",
    "compaction/state/hidden_set.rs",
    "compaction/leveled/mod.rs",
    "compaction/fifo.rs",
    "compaction/major.rs",
    "compaction/drop_range.rs",
]

# What is cut out: items of a file, each by its words.
CUT = {
    "table/util.rs": ["fn aggregate_run_key_range"],
    "compaction/mod.rs": ["struct Input", "enum Choice", "trait CompactionStrategy"],
    "version/mod.rs": [
        "impl Ranged for Table",
        "struct GenericLevel",
        "impl Deref for GenericLevel",
        "impl GenericLevel",
        "struct Level",
        "impl Deref for Level",
        "impl Level",
        "struct VersionInner",
        "struct Version",
        "impl Deref for Version",
    ],
}

# Of an impl that reaches farther than the choosers do, these methods alone.
METHODS = {
    "version/mod.rs": (
        "Version",
        ["l0", "level_is_busy", "from_levels", "level_count", "iter_levels", "iter_tables", "level"],
    ),
}


def stop(why):
    sys.exit(f"compare: {why}")


def read(path):
    try:
        with open(path, encoding="utf-8") as file:
            return file.read()
    except OSError as error:
        stop(f"{path}: {error.strerror}. Is this an unpacked lsm-tree 3.1.10?")


def head(words):
    """What the first line of an item with these words looks like: paths, parameters and `pub` may stand before or behind a name."""
    kind, *names = words.split()
    parameters = r"(<[^>]*>+)?"
    names = rf"{parameters} ".join(name if name == "for" else rf"([a-z]+::)*{name}" for name in names)
    return re.compile(rf" *(pub )?{kind}{parameters} {names}\b(?! for)(?!::)")


def item(lines, words, path):
    """The lines of the one item that has these words: with what stands right above it, to its closing brace."""
    found = [at for at, line in enumerate(lines) if head(words).match(line)]
    if len(found) != 1:
        stop(f"{path} has {len(found)} items {words!r}, and not one. Is this lsm-tree 3.1.10?")
    first = last = found[0]
    while first > 0 and lines[first - 1].strip() and not lines[first - 1].endswith("{"):
        first -= 1
    indent = re.match(" *", lines[last])[0]
    if not lines[last].endswith((";", "}")):
        last = lines.index(indent + "}", last)
    return lines[first : last + 1]


def cut(path, text):
    """What is cut out of a file."""
    lines = text.split("\n")
    parts = [item(lines, words, path) for words in CUT[path]]
    if path in METHODS:
        name, methods = METHODS[path]
        parts += [[f"impl {name} {{"]] + [item(lines, f"fn {method}", path) for method in methods] + [["}"]]
    return "".join("\n".join(part) + "\n\n" for part in parts)


def lay_original(source, folder):
    """Lays the original's files and the stand-ins beside one another."""
    shutil.copytree(f"{HERE}/stand-ins", folder)
    for path in COPIED:
        text = read(f"{source}/src/{path}")
        os.makedirs(os.path.dirname(f"{folder}/original/{path}"), exist_ok=True)
        with open(f"{folder}/original/{path}", "w", encoding="utf-8") as file:
            file.write(text)
    for path in CUT:
        text = cut(path, read(f"{source}/src/{path}"))
        with open(f"{folder}/original/{path}", "a", encoding="utf-8") as file:
            file.write(text)


def check_version(source):
    """An unpacked crate says its version; loose files do not, and are taken as they are."""
    manifest = f"{source}/Cargo.toml"
    if not os.path.exists(manifest):
        return
    version = re.search(r'^version = "(.*)"', read(manifest), re.M)
    if not version or version[1] != "3.1.10":
        stop(f"{manifest} is not of version 3.1.10")


def rustc(folder, *words):
    try:
        ran = subprocess.run(["rustc", "--edition", "2021", "-C", "opt-level=3", "--out-dir", folder, "-L", folder, *words], cwd=folder)
    except OSError:
        stop("there is no rustc")
    if ran.returncode:
        stop("the build failed")


def build(source, folder):
    """Builds the program in a folder that is not there yet, and returns its path."""
    check_version(source)
    lay_original(source, folder)
    # The original's warnings are its own: here it has no clippy and no tests.
    rustc(folder, "--crate-type", "rlib", "--cap-lints", "allow", "byteorder.rs")
    rustc(folder, "--crate-type", "rlib", "--cap-lints", "allow", "--extern", "byteorder", "original/lib.rs", "--crate-name", "original")
    rustc(folder, "-C", "overflow-checks=on", "--extern", "original", f"{HERE}/src/main.rs", "--crate-name", "compare")
    return f"{folder}/compare"


def build_planner():
    """Proves and links the planner, on an empty script."""
    crate = f"{ROOT}/crates/planner"
    try:
        ran = subprocess.run(["rt", "run"], cwd=crate, stdin=subprocess.DEVNULL, stdout=subprocess.DEVNULL)
    except OSError:
        stop("there is no rt: name the planner's program with --planner")
    if ran.returncode:
        stop("the planner was not built")
    return f"{crate}/out/planner"
