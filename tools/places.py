#!/usr/bin/env python3
"""Lists the places in src/ that may be written in a plainer form, by the points of docs/DESIGN-PASS.md.

    python3 tools/places.py [--list] [ROOT]

Without --list it prints how many there are of each kind. A place is one that matches; whether it should change is for a reader.
Run it at another commit by `git worktree add DIR COMMIT` and ROOT = DIR.
"""
import itertools
import pathlib
import re
import sys

# (point, what is looked for, pattern of a line)
LINES = [
    (1, "success told by a bool", r"fn .*&mut .*-> bool"),
    (1, "a value with a flag beside it", r"\(\w+, bool\)|let \(\w+, \w+\) = match"),
    (1, "an unwrap by hand", r"unreachable\(\)"),
    (1, "a flag that says which state or which rule", r"\b(resumed|binary): bool"),
    (1, "a refusal as an Option", r"-> Option<Fault>|if let Some\(fault\)"),
    (1, "a number for a kind", r"fn .*\b(number|register): u8|fn (number|layer)\(&self\) -> u8|^pub\(?.*\bu8\b.*REG_"),
    (1, "a match that rebuilds an Option or a Result",
     r"^\s*(return )?(Some|None|Ok|Err)(\([^)]*\))? => (return )?(Some|None|Ok|Err)\b|^\s*let (Ok|Err)\(.* else \{"),
    (1, "a pair of Options", r"Option<u8>, Option<u8>|Option<u8>, subsection"),
    (3, "a loop over an index", r"^\s*for [^{]* in [^{]*\w\.\.[\w(]|^\s*while "),
    (3, "a count kept by hand", r"saturating_add\(1\);|^\s*(earlier|at|i) \+= 1"),
    (4, "a cast", r" as (u8|u16|u32|u64|usize)\b"),
    (4, "printing", r"^impl .*Display for"),
    (4, "conversion by a function of its own", r"fn (numbered|at|identification|named)\("),
    (4, "comparison by a function of its own", r"fn \w+\(.*&\[u8\].*&\[u8\]\) -> bool"),
    (6, "a buffer with a length beside it", r"^\s*(pub\(crate\) )?(count|len|head): usize"),
    (6, "a buffer and a position", r"&mut (out|body)\[n\.\."),
    (6, "a list searched by hand", r"\.iter\(\)\.enumerate\(\)"),
    (7, "a function, a closure or dyn as a value", r"\b(Fn|FnMut|FnOnce)\(|\bdyn |: fn\("),
    (7, "a switch on which rule", r"binary: bool"),
]
# a loop that searches or sums
SEARCH = re.compile(r"return Some\(|\w \+= ")
DO_NOTHING = re.compile(r"Does nothing|fn (lawful|closed|sound)\(.*\) \{\}?$")


def sources(root):
    return sorted(pathlib.Path(root).glob("crates/*/src/**/*.rt"))


def functions(path):
    """(line, head, body) of each function that has a body."""
    lines = path.read_text().splitlines()
    for i, line in enumerate(lines):
        m = re.match(r"(\s*)(pub(\(\w+\))? )?(const )?fn \w+", line)
        if not m:
            continue
        start = i
        while not (lines[start].strip() == "{" or re.search(r"[^}] \{$|\{\}$|;$", lines[start])):
            start += 1
        if lines[start].endswith(("{}", ";")):
            continue
        end = next(k for k in range(start, len(lines)) if lines[k] == m[1] + "}")
        yield i + 1, lines[i:start + 1], lines[start + 1:end]


def shape(body):
    text = re.sub(r'b?"[^"]*"|\b\d\w*\b', "L", "\n".join(b.strip() for b in body if not b.strip().startswith("//")))
    return re.sub(r"\b(?!if|else|match|for|in|let|mut|return|as|self|Some|None|Ok|Err|true|false\b)[A-Za-z_]\w*", "I", text)


def twins(root):
    seen = {}
    for path in sources(root):
        for line, head, body in functions(path):
            if len(body) >= 2:
                seen.setdefault(shape(body), []).append((path, line, head[0].strip()))
    return [places for places in seen.values() if len(places) > 1]


def facts(root):
    """`requires` that stand in three or more contracts."""
    seen = {}
    for path in sources(root):
        for n, line in enumerate(path.read_text().splitlines(), 1):
            for m in re.finditer(r"requires( \w+)? \{ (.*?) \}", line):
                seen.setdefault(m[2], []).append((path, n, line.strip()))
    return {fact: places for fact, places in seen.items() if len(places) >= 3}


def groups(root):
    """Pairs of parameters, by name and type, that stand together in four or more functions of one crate."""
    seen = {}
    for path in sources(root):
        text = path.read_text()
        for m in re.finditer(r"fn (\w+)[^(]*\(([^)]*)\)", text):
            names = sorted({p.strip() for p in re.split(r",(?![^<]*>)", m[2]) if ":" in p})
            for pair in itertools.combinations(names, 2):
                seen.setdefault((path.parts[-3] if path.parts[-2] == "src" else path.parts[path.parts.index("src") - 1], pair), []).append(m[1])
    return {pair: where for pair, where in seen.items() if len(where) >= 4}


def main(args):
    listing = "--list" in args
    root = next((a for a in args if not a.startswith("-")), ".")
    rows = []
    for point, what, pattern in LINES:
        found = [(p, n, l.strip()) for p in sources(root) for n, l in enumerate(p.read_text().splitlines(), 1)
                 if re.search(pattern, l) and not l.strip().startswith("//")]
        rows.append((point, what, found))
    loops = []
    for p in sources(root):
        lines = p.read_text().splitlines()
        for n, l in enumerate(lines):
            if re.match(r"\s*for ", l):
                end = next(k for k in range(n, len(lines)) if lines[k] == re.match(r"\s*", l)[0] + "}")
                if any(SEARCH.search(b) for b in lines[n + 1:end]):
                    loops.append((p, n + 1, l.strip()))
    rows.append((3, "a loop that searches or sums", loops))
    rows.append((2, "functions of one shape", [place for group in twins(root) for place in group]))
    rows.append((5, "a requires that stands three times or more", [p for places in facts(root).values() for p in places]))
    rows.append((5, "a function that does nothing but promise", [
        (p, n, l.strip()) for p in sources(root) for n, l in enumerate(p.read_text().splitlines(), 1) if DO_NOTHING.search(l)]))
    rows.append((5, "two parameters that stand together four times or more", [
        (pathlib.Path(crate), len(where), " + ".join(pair) + ": " + ", ".join(where)) for (crate, pair), where in groups(root).items()]))
    proofs = sorted(pathlib.Path(root).glob("crates/*/proofs/**/*.antt"))
    for point, what, found in sorted(rows, key=lambda r: r[0]):
        print(f"{point}  {len(found):3}  {what}")
        if listing:
            for p, n, l in found:
                print(f"          {p if not p.is_absolute() else p.relative_to(pathlib.Path(root).resolve()) if root != '.' else p}:{n}: {l[:120]}")
    print(f"8  {len(proofs):3}  files of proofs, of {sum(len(p.read_text().splitlines()) for p in proofs)} lines")


main(sys.argv[1:])
