#!/usr/bin/env python3
"""places.py [-v] [POINT]: the places of docs/DESIGN-PASS.md's points, counted in crates/*/src (point 8: in crates/*/proofs).

With -v each place is printed. POINT is 1 to 8; without it all are counted. Run at the top of the repository."""
import collections
import glob
import re
import sys

FILES = sorted(p for p in glob.glob("crates/*/src/**/*.rt", recursive=True))
WORDS = "Refusal|Error|ReadAnswer"


def text(path):
    """The file without comments and contracts."""
    return re.sub(r"//[^\n]*", "", open(path, encoding="utf-8").read())


def where(path, source, at):
    return f"{path[7:]}:{source.count(chr(10), 0, at) + 1}"


def own_results():
    """Enums with a case for an error beside others, or one case with nothing beside one with something; structs that hold such
    an answer or a flag beside what it speaks of; a number that stands for no place."""
    for path in FILES:
        s = text(path)
        for m in re.finditer(r"\benum (\w+)(?:<[^>]*>)? \{(.*?)\n\}", s, re.S):
            cases = re.findall(r"^    (\w+)(\(|\s*\{|,)", m.group(2), re.M)
            error = re.search(rf"^    (Refused|Failed)\((?:{WORDS})\)", m.group(2), re.M)
            bare = [c for c, k in cases if k == ","]
            if error or (len(cases) == 2 and len(bare) == 1):
                yield where(path, s, m.start()), f"enum {m.group(1)}"
        for m in re.finditer(r"\bstruct (\w+)(?:<[^>]*>)? \{(.*?)\n\}", s, re.S):
            if re.search(r"^\s*(pub(\(crate\))? )?(outcome|ok|all|over|there|given|has_number|done)\s*:", m.group(2), re.M):
                yield where(path, s, m.start()), f"struct {m.group(1)}"
        for m in re.finditer(r"\bconst (NONE|NOTHING|NO_\w+): (usize|u\d+)", s):
            yield where(path, s, m.start()), f"const {m.group(1)}"
        for m in re.finditer(r"\bfn (\w+)\([^)]*\bok: bool[^)]*\) -> bool", s):
            yield where(path, s, m.start()), f"fn {m.group(1)}: a flag handed on"


def functions():
    """Each function: its file, its place, its name, its head, its clauses, its body."""
    for path in FILES:
        lines = open(path, encoding="utf-8").read().split("\n")
        for at, line in enumerate(lines):
            m = re.match(r"( *)(?:pub(?:\(crate\))? )?(?:extern \"C\" )?fn (\w+)", line)
            if not m:
                continue
            indent = m.group(1)
            begin = next(k for k in range(at, len(lines)) if lines[k] == indent + "{" or (lines[k].endswith(" {") and not re.match(r" *(requires|ensures)", lines[k])))
            if any(t.endswith(";") for t in lines[at:begin]):
                continue  # a trait's function without a body
            end = begin if lines[begin].rstrip().endswith("}") else next(k for k in range(begin + 1, len(lines)) if lines[k] == indent + "}")
            top = lines[at:begin] if lines[begin] == indent + "{" else lines[at:begin + 1]
            head = [t for t in top if not re.match(r" *(requires|ensures)", t)]
            clauses = [t for t in top if re.match(r" *(requires|ensures)", t)]
            yield path, f"{path[7:]}:{at + 1}", m.group(2), " ".join(head), "\n".join(clauses), "\n".join(lines[begin + 1:end])


def shape(body):
    """A body without what twins differ in: types, numbers, the names that it calls, its own names."""
    body = re.sub(r"//[^\n]*", "", body)
    body = re.sub(r'b?"[^"]*"', "S", body)
    body = re.sub(r"\b(0x[0-9a-fA-F_]+|\d+)\w*\b", "0", body)
    body = re.sub(r"\b[A-Z]\w*(::[A-Z]\w*)*\b", "T", body)
    body = re.sub(r"\b(?!(?:if|else|match|while|for|in|let|mut|return|as|true|false|break)\b)[a-z_]\w*\b", "x", body)
    return re.sub(r"\s+", " ", body).strip()


def twins():
    """Functions of three lines or more whose bodies are the same but for types, numbers and names; types with the same fields."""
    groups = collections.defaultdict(list)
    for path, place, name, _, _, body in functions():
        if body.count("\n") >= 2 and "/ffi_c/" not in path:
            groups[shape(body)].append((place, f"fn {name}"))
    for path in FILES:
        s = text(path)
        for m in re.finditer(r"\b(struct|enum) (\w+)(?:<[^>]*>)? \{(.*?)\n\}", s, re.S):
            fields = re.sub(r"\b[A-Z]\w*\b", "T", m.group(3)) if m.group(1) == "struct" else shape(m.group(3))
            groups[m.group(1) + re.sub(r"\s+", " ", fields)].append((where(path, s, m.start()), f"{m.group(1)} {m.group(2)}"))
    for members in groups.values():
        if len(members) > 1:
            for place, what in members:
                yield place, f"{what}, one of {len(members)}: {' '.join(w.split()[1] for _, w in members[:4])}"


def loops():
    """Loops that count an index, or are handed one beside what they go over."""
    for path in FILES:
        s = text(path)
        for m in re.finditer(r"^ *(while [^\n]*|for \w+ in [^\n]*\.\.[^\n]*|for \(\w+, [^\n]*\.enumerate\(\) )\{$", s, re.M):
            yield where(path, s, m.start()), m.group(1).strip()


def by_hand():
    """Functions that convert, compare or print by hand: named so, or called by a word for it."""
    for path, place, name, head, _, _ in functions():
        if re.search(r"^(from_|as_|to_)|_c$|_of$|_number$|^(same|differ|is_dash|is_at|digit|wide|wide_u\d+|long|word|number|kind_of|accepted|told)$|^(put|say|tell|print)(_|$)|^written$", name) and "/ffi_c/" not in path:
            yield place, f"fn {name}"


def repeated():
    """Facts that stand in the clauses of three functions or more, and parameters that three functions or more take together."""
    facts = collections.defaultdict(list)
    groups = collections.defaultdict(list)
    for path, place, name, head, clauses, _ in functions():
        if "/ffi_c/" in path:
            continue
        for clause in re.findall(r"requires(?: \w+)? \{ (.*) \}", clauses):
            for fact in re.split(r" × ", clause):
                facts[fact.strip("() ")].append((place, name))
        params = re.findall(r"(\w+): ([^,()]+(?:\([^)]*\))?)", head)
        plain = [f"{n}: {t.strip()}" for n, t in params if n != "rt"]
        for i in range(len(plain) - 1):
            for j in range(i + 2, len(plain) + 1):
                groups[", ".join(plain[i:j])].append((place, name))
    for fact, members in facts.items():
        if len(members) >= 3:
            yield members[0][0], f"fact {fact!r} in {len(members)}"
    full = {k: v for k, v in groups.items() if len(v) >= 3}
    for key, members in full.items():
        if not any(key != o and key in o and len(full[o]) >= len(members) for o in full):
            yield members[0][0], f"parameters ({key}) of {len(members)}: {' '.join(n for _, n in members[:5])}"


def buffers():
    """A place and a length as two fields or parameters; a buffer of fixed size with how much of it counts beside it."""
    for path in FILES:
        s = text(path)
        for m in re.finditer(r"\b(\w*(?:start|at)): usize,\s*(?:pub(?:\(crate\))? )?(\w*len): usize", s):
            yield where(path, s, m.start()), f"{m.group(1)}, {m.group(2)}"
        for m in re.finditer(r"= (\[\w+; \w+\]|io::(?:large_)?buffer\(\));", s):
            yield where(path, s, m.start()), f"buffer {m.group(1)}"


def switches():
    """A number or a name that says which step to run."""
    for path in FILES:
        s = text(path)
        for m in re.finditer(r"^ *(match (?:op|room|kind|which|words)\b[^\n]*|(?:\} else )?if (?:op|words|\d+ < op)[^\n]*)\{$", s, re.M):
            yield where(path, s, m.start()), m.group(1).strip()


def proofs():
    """Answers that are written, and lemmas."""
    for path in sorted(glob.glob("crates/*/proofs/**/*.antt", recursive=True)):
        s = open(path, encoding="utf-8").read()
        if path.endswith("/Lib.antt"):
            continue
        own = path.split("/")[-1] in ("Answers.antt", "Invariants.antt")
        for m in re.finditer(r"^( *)(pub )?([^\s:]+) : ", s, re.M):
            if own and m.group(2):
                yield where(path, s, m.start()), f"answer {m.group(3)}"
            elif not own:
                yield where(path, s, m.start()), f"lemma {m.group(3)}"


POINTS = {"1": own_results, "2": twins, "3": loops, "4": by_hand, "5": repeated, "6": buffers, "7": switches, "8": proofs}


def main():
    args = sys.argv[1:]
    told = "-v" in args
    wanted = [a for a in args if a in POINTS] or list(POINTS)
    for n in wanted:
        places = sorted(set(POINTS[n]()))
        print(f"point {n}: {len(places)}")
        if told:
            for place, what in places:
                print(f"  {place}: {what}")


main()
