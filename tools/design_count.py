#!/usr/bin/env python3
"""Counts, at a commit, the places that docs/DESIGN-PASS.md speaks of.

    tools/design_count.py [COMMIT] [POINT]

Without COMMIT the working tree is read; with POINT every place of it is listed.
"""
import re
import subprocess
import sys
from collections import defaultdict


def sources(commit, suffix=".rt", part="/src/"):
    if commit:
        names = subprocess.run(["git", "ls-tree", "-r", "--name-only", commit, "crates"], capture_output=True, text=True, check=True).stdout
    else:
        names = subprocess.run(["git", "ls-files", "crates"], capture_output=True, text=True, check=True).stdout
    for name in names.split("\n"):
        if name.endswith(suffix) and part in name:
            if commit:
                text = subprocess.run(["git", "show", f"{commit}:{name}"], capture_output=True, text=True, check=True).stdout
            else:
                text = open(name).read()
            yield name, text


def functions(text):
    """(name, head, body) of each function"""
    for m in re.finditer(r"^( *)(?:pub (?:\(\w+\) )?|pub\(\w+\) )?fn (\w+)", text, re.M):
        begin = text.find("\n" + m.group(1) + "{", m.end()) if "{\n" not in text[m.end():text.find("\n", m.end()) + 1] else m.end()
        line_end = text.find("\n", m.end())
        if text[m.end():line_end].rstrip().endswith("{"):
            begin = line_end - 1
        else:
            k = re.compile(r"^%s\{|\) *(?:->.*)?\{$" % m.group(1), re.M).search(text, m.end())
            begin = k.end() - 1 if k else m.end()
        stop = text.find("\n" + m.group(1) + "}", begin)
        yield m.group(2), text[m.start():begin], text[begin:stop if stop > 0 else len(text)]


def enums(text):
    for m in re.finditer(r"^(?:pub )?enum (\w+)[^{]*\{(.*?)^\}", text, re.M | re.S):
        yield m.group(1), re.findall(r"^    (\w+)", m.group(2), re.M), m.group(2)


NOTHING = {"Absent", "Crooked", "Keep", "Idle", "Faulty", "TooShort", "Refused", "Unreadable", "Unwritable"}
FAILURES = {"Crooked", "Faulty", "Refused", "Unreadable", "Unwritable"}
# cases that go beside many others, none of them a value that is there
CASES = {"Line", "Refusal"}
SHELVES = "nodes records pending found".split()


def point1(files):
    """own enums with a variant for nothing or for a failure; fields that are a flag, or a number for a kind"""
    for name, text in files:
        for e, variants, _ in enums(text):
            lost = NOTHING & set(variants)
            if lost and lost != set(variants) and (len(variants) == 2 or lost & FAILURES) and e not in CASES:
                yield f"{name}: enum {e} {variants}"
        for m in re.finditer(r"^    pub (kind|class|mark|state|command): u\d+|^    (?:pub )?(?:four|said|below): bool|^    taken: usize|fn \w+\([^)]*\b(?:kind|class|state|s): u(?:8|32)\b|fn entry_of\([^)]*u32|fn is_call\([^)]*u8|SetState\(RecordNo, u32\)|^pub const (?:LEAF|UNDECIDED|FLAG|INSERT): u32", text, re.M):
            yield f"{name}: {' '.join(m.group(0).split())[:90]}"


def shape(head, body):
    """a function's text with its own names and every number and type taken out"""
    code = re.sub(r"//[^\n]*", "", body)
    code = re.sub(r"\b[A-Z]\w*(::\w+)*|\b[ui](8|16|32|64)\b|\busize\b", "T", code)
    code = re.sub(r"\b\d[\d_]*\b", "0", code)
    names = {}
    def rename(m):
        w = m.group(0)
        return w if w in ("if", "else", "let", "mut", "while", "for", "in", "return", "match", "as", "true", "false", "len", "T") else names.setdefault(w, f"v{len(names)}")
    return re.sub(r"\s+", " ", re.sub(r"\b[a-z_]\w*\b", rename, code))


def point2(files):
    """groups of functions of one shape but for names, types and numbers"""
    groups = defaultdict(list)
    for name, text in files:
        for f, head, body in functions(text):
            s = shape(head, body)
            if len(s) > 34 and s.count("v") > 2:
                groups[s].append(f"{name.split('/')[1]}:{f}")
    for s, fs in sorted(groups.items()):
        if len(fs) > 1:
            yield ", ".join(fs)


def point3(files):
    """loops by `while` that step a number by hand"""
    for name, text in files:
        for m in re.finditer(r"^( *)while ([^\n]*) \{\n(.*?)^\1\}", text, re.M | re.S):
            if re.search(r"[+-]= |= end \+ 1|turns = ", m.group(3)):
                yield f"{name}: while {m.group(2)}"


def point4(files):
    """functions that compare, test for a variant, convert, copy field by field or print, by hand"""
    for name, text in files:
        for f, head, body in functions(text):
            everywhere = r"same_|lies_between|between$|key_value|is_(insert|delete|update|node|going|absent)$|(key|number)_of$|refusal_number|one_less|popped|capped|part$|down_to|signed$"
            printed = r"(link|link_step|help_step|back|place|answer)_of$|as_word|with_digit|put_(number|next|text|answer)|say"
            if re.match(everywhere, f) or (name.split("/")[1] in ("byhand", "leaves", "lines") and re.match(printed, f)):
                yield f"{name}: {f}"


def point5(files):
    """functions that take the lent tables one by one, and facts that three or more functions ask"""
    asked = defaultdict(set)
    for name, text in files:
        for f, head, body in functions(text):
            args = head[: head.find("\n    requires")] if "\n    requires" in head else head
            if sum(bool(re.search(r"\b%s: &" % s, args)) for s in SHELVES) >= 3 or ("totals: Totals" in args and "nodes: &" in args and "records: &" in args):
                yield f"{name}: {f}"
            for r in re.findall(r"requires[^{]*\{([^}]*)\}", head):
                asked[" ".join(r.split())].add(f"{name}:{f}")
    for r, fs in sorted(asked.items()):
        if len(fs) >= 3:
            yield f"asked by {len(fs)} functions: {r}"


def point6(files):
    """a buffer with its place or length beside it; an array of a fixed size as a local"""
    for name, text in files:
        for f, head, body in functions(text):
            if re.search(r"(out|buffer|keys): &mut \[\w+(; \w+)?\],\s*at: usize", head):
                yield f"{name}: {f} (a place beside)"
            if re.search(r"let mut \w+ = \[0\w*; ", body):
                yield f"{name}: {f} (a fixed array)"


def point7(files):
    """a match whose cases run three functions or more, one for each step, command or kind"""
    for name, text in files:
        for f, head, body in functions(text):
            runs = set(re.findall(r"=>\s*\{?\s*(?:return )?([a-z_]\w*(?:::\w+)*)\(", body))
            if "match " in body and len(runs) >= 3:
                yield f"{name}: {f}"


def point8(commit):
    """answers and invariants in proofs/, by file"""
    for name, text in sources(commit, ".antt", "/proofs/"):
        n = len(re.findall(r"^(?:abbrev )?pub \S+ : goal\.", text, re.M))
        if n:
            yield from [name] * n


POINTS = {"1": point1, "2": point2, "3": point3, "4": point4, "5": point5, "6": point6, "7": point7}


def main():
    args = sys.argv[1:]
    wanted = [a for a in args if a in POINTS or a == "8"]
    commit = next((a for a in args if a not in wanted), None)
    files = list(sources(commit))
    for p in sorted(POINTS) + ["8"]:
        found = list(POINTS[p](files)) if p != "8" else list(point8(commit))
        doc = POINTS[p].__doc__ if p != "8" else point8.__doc__
        if not wanted or p in wanted:
            print(f"{p}: {len(found)}  {doc}")
            if wanted:
                print("\n".join("   " + x for x in found))


if __name__ == "__main__":
    main()
