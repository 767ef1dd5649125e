#!/usr/bin/env python3
"""Lists places in crates/*/src that may be written in an older form, point by point (docs/DESIGN-PASS.md).

    python3 tools/places.py [ROOT]

A line is a place to look at, not a verdict: which of them are places of the point is said on the page."""
import collections
import glob
import os
import re
import sys

ROOT = sys.argv[1] if len(sys.argv) > 1 else "."


def sources():
    for path in sorted(glob.glob(os.path.join(ROOT, "crates/*/src/**/*.rt"), recursive=True)):
        if "_tests/" not in path:
            yield os.path.relpath(path, ROOT), open(path).read()


def grep(title, pattern, flags=0):
    hits = []
    for path, text in sources():
        for at, line in enumerate(text.split("\n"), 1):
            if not line.lstrip().startswith("//") and re.search(pattern, line, flags):
                hits.append(f"{path}:{at}: {line.strip()}")
    show(title, hits)


def show(title, hits):
    print(f"== {title}: {len(hits)}")
    for hit in hits:
        print("   " + hit)


def functions():
    """Each function: its path, its name, its head up to the body, and its body."""
    for path, text in sources():
        for m in re.finditer(r"^( *)((?:pub(?:\([a-z]+\))? )?fn (\w+)[^{;]*(?:\{[^{}\n]*(?:\{[^{}\n]*\}[^{}\n]*)*\}\n[^{;]*)*)\{\n(.*?)^\1\}", text, re.S | re.M):
            yield path, m.group(3), m.group(2), m.group(4)


def twins():
    shapes = collections.defaultdict(list)
    for path, name, _, body in functions():
        body = re.sub(r"//.*", "", body)
        shape = re.sub(r"[A-Za-z_][A-Za-z_0-9]*", lambda m: m.group(0) if m.group(0) in KEEP else "x", body)
        shape = re.sub(r"\d+|\s+", "", shape)
        if len(shape) > 40:
            shapes[shape].append(f"{path} {name}")
    show("2 functions whose bodies have one shape", [" ~ ".join(v) for v in shapes.values() if len(v) > 1])


KEEP = {"for", "in", "if", "else", "match", "return", "let", "mut", "while", "true", "false", "None", "Some", "Ok", "Err"}


def facts():
    seen = collections.defaultdict(list)
    for path, name, head, _ in functions():
        for m in re.finditer(r"requires(?: \w+)? \{ (.*) \}", head):
            fact = re.sub(r"\.(now|old)\b", "", m.group(1))
            fact = re.sub(r"\b(tables|curr|next|run|sheet)\b", "ts", fact)
            seen[fact].append(f"{path.split('/')[1]}::{name}")
    show("5 facts that three functions or more ask", [f"{k}   <- {', '.join(v)}" for k, v in seen.items() if len(v) > 2])


def groups():
    seen = collections.defaultdict(set)
    for path, name, head, _ in functions():
        params = re.findall(r"[(,]\s*(?:mut )?(\w+): ([^,()]+(?:\([^()]*\))?)", head.split("ensures")[0].split("requires")[0])
        names = [p for p, _ in params]
        for size in (3, 4, 5):
            for i in range(len(names) - size + 1):
                seen[tuple(names[i:i + size])].add(f"{path.split('/')[1]}::{name}")
    rows = [f"{', '.join(k)}   <- {', '.join(sorted(v))}" for k, v in sorted(seen.items()) if len(v) > 2]
    show("5 three parameters or more that stand together in three functions or more", rows)


grep("1 enums", r"^(pub(\([a-z]+\))? )?enum ")
grep("1 arms and lets that hand an Option or a Result on", r"=> (return )?(Ok|Err)\(|Some\(\w+\) => (Ok|Some)|Ok\(\w+\) => |None => (Err|None)|Err\(\w+\) => |return Err\(|return match|let (Some|Ok)\(.*else")
grep("1 flags beside a value", r"^\s*(pub )?(is|has)_\w+: bool|\b(is|has)_\w+: bool|start: 0, len: 0")
grep("1 numbers or letters for a kind", r"fn \w+\(.*\) -> (u8|u16|char)\b|-> Result<.*, u\d+>")
twins()
grep("3 loops over an index or by hand", r"for \w+ in [^{]*\.\.|\bwhile\b|\bloop\b")
grep("3 loops that any, all, a sum or a search would do", r"^\s*for \w+ in [^.]*(\{|$)")
grep("4 comparing, converting and printing by hand", r"fn (compare|lexical|is_sooner|is_ahead|is_same_level|refusal|letter|name|words|read|key_name|table_of|write_\w+|is_free|widen|grow|widened)\b")
facts()
groups()
grep("6 arrays of a fixed length", r"\[[a-z0-9_]+; [A-Z_0-9]+\]")
grep("7 traits, and enums that say which step to run", r"^pub trait |enum (End|Reach|Order|Event|Effect)\b")
