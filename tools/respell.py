#!/usr/bin/env python3
"""Brings this repository's own definitions and lemmas to the spelling of the newer Rattle: words in snake case, a dash only between two names.

usage: respell.py [--list]     at the top of the repository, once, after the toolchain's port script. --list prints the table and writes nothing.

It goes by whole words. What it reads a name from: a signature, a record or its fields, in specs/, in the lemma files of proofs/ and in a function's proof
(there only what is not tied to a goal). Functions of src/, exported names, strings, inputs and outputs are not touched.
"""
import glob
import re
import sys

HUMP = r"(?<=[a-z])[A-Z]|(?<=[0-9])[A-Z](?=[a-z])"
WORD = re.compile(r'[^\s(){}.;,@"«»\x60]+')
SIGNATURE = re.compile(r"^\s*(?:(?:pub|unfoldable|abbrev)\s+)*([^\s(){}.;,:@\"]+)(?:\s*\{[^}]*\})*\s*:\s+(\S+)?")
FIELDS = re.compile(r"^\s*(?:pub\s+)?(record|data)\s")
# Names that a rule would let fall together with another name of the repository or of the library.
BY_HAND = {
    "as-parent": "as_parent_lem",
    "getD-cleared": "get_or-cleared",
    "getD-sets-behind": "get_or-sets_behind",
    "getD-sets-in": "get_or-sets_in",
    "copy-child": "copy_child_lem",
    "entry-of": "entry_of_lem",
    "inner-nodes": "inner_nodes_lem",
    "keys-words": "keys_words_lem",
    "same-node": "same_node_lem",
    "least-m": "m_at_least",
    "least-n": "n_at_least",
    "least-p": "p_at_least",
    "most-m": "m_at_most",
    "most-n": "n_at_most",
    "most-p": "p_at_most",
    "g-linked": "g_is_linked",
    "help-next": "help_next_lem",
    "new-record": "new_record_lem",
    "record-row": "record_row_lem",
}
# The same, where only the files of some crates have both names.
IN_CRATES = {"goes_on": (("running",), "goes_on_lem"), "one_more": (("schedule", "reader"), "one_more_lem")}
LIBRARY = set("length take drop get_or set sets map reverse replicate word fold count append filter zip sum all any every min max".split())


def antt_files():
    specs = sorted(glob.glob("crates/*/specs/**/*.antt", recursive=True))
    proofs = sorted(glob.glob("crates/*/proofs/**/*.antt", recursive=True))
    return specs, proofs


def read(path):
    with open(path, encoding="utf-8") as f:
        return f.read()


def signatures(text):
    for line in text.split("\n"):
        m = SIGNATURE.match(line)
        if m and not line.lstrip().startswith(("--", "|", "let ", "module ", "use ")):
            yield m[1], m[2] or ""


def snake(part):
    return re.sub(HUMP, lambda m: "_" + m[0].lower(), part)


def joined(name, names):
    """A dash stays between two names; a plain word is added with an underscore."""
    parts = [snake(p) for p in name.split("-")]
    out = parts[0]
    for i in range(1, len(parts)):
        left, right = parts[i - 1], parts[i]
        whole_left = "_".join(parts[:i])
        whole_right = "_".join(parts[i:])
        both = (left in names or whole_left in names) and (right in names or whole_right in names)
        out += ("-" if both else "_") + right
    return out


def table():
    specs, proofs = antt_files()
    old, defined = {}, set()
    for path in specs + proofs:
        for line in read(path).split("\n"):
            m = SIGNATURE.match(line)
            if m and re.match(r"\s*(pub )?(unfoldable|abbrev) ", line):
                defined.add(m[1])
        local = re.search(r"/proofs/.+/", path) is not None
        for name, kind in signatures(read(path)):
            if local and not name.endswith("-spec") and not re.search(HUMP, name):
                continue
            if not re.search(r"[A-Za-z]", name) or not re.match(r"^[A-Za-zΑ-ω0-9_'₀-₉-]+$", name):
                continue
            old.setdefault(name, set()).add(path)
    plain = {snake(n) for n in defined if "-" not in n} | LIBRARY
    new = {}
    for name in sorted(old):
        if name.endswith("-spec"):
            new[name] = name.replace("-", "_")
        elif name in BY_HAND:
            new[name] = BY_HAND[name]
        elif name[0].isupper() and "-" not in name:
            new[name] = name
        else:
            new[name] = joined(name, plain)
    return old, new


def falls_together(changes):
    """Files in which two names would become one."""
    specs, proofs = antt_files()
    found = {}
    for path in specs + proofs:
        text = re.sub(r"(?m)(?<![^\s(){}.;,])--(\s.*)?$", "", read(path))
        here = in_crate(changes, path)
        by = {}
        for m in WORD.finditer(text):
            if text[m.start() - 1:m.start()] == "." and not re.search(r"use \S*\.$", text[:m.start()][-60:]):
                continue
            if re.match(r"\.[A-Za-z+]", text[m.end():]) and m[0] not in here:
                continue
            by.setdefault(here.get(m[0], m[0]), set()).add(m[0])
        for n, olds in by.items():
            if len(olds) > 1:
                found.setdefault((n, tuple(sorted(olds))), []).append(path)
    return found


def in_crate(changes, path):
    here = dict(changes)
    for name, (crates, to) in IN_CRATES.items():
        if path.split("/")[1] in crates:
            here[name] = to
    return here


def turned(text, changes, path):
    local = re.search(r"/proofs/.+/", path) is not None

    def code(piece):
        out, at = [], 0
        for m in WORD.finditer(piece):
            out.append(piece[at:m.start()])
            at = m.end()
            head = re.search(r"([^\s(){};,@\"«»\x60]*)\.$", piece[:m.start()])
            made = local and head and re.fullmatch(r"(tie|goal|c\d*'*|w\d*'*)(\.before)*", head[1])
            out.append(m[0] if made else changes.get(m[0], m[0]))
        return "".join(out) + piece[at:]

    def remark(piece):
        piece = re.sub(r"\x60[^\x60]*\x60", lambda m: code(m[0]), piece)
        return WORD.sub(lambda m: changes[m[0]] if m[0] in changes and re.search(HUMP, m[0]) else m[0], piece)

    lines = []
    rust = path.endswith((".rt", ".edit"))
    inside = 0
    for line in text.split("\n"):
        if not rust:
            m = re.search(r"(?<![^\s(){}.;,])--(?=\s|$)", line)
            body, rest = (line[:m.start()], line[m.start():]) if m else (line, "")
            lines.append(code(body) + remark(rest))
            continue
        bare = line.lstrip()
        if bare.startswith(("//", "#")):
            lines.append(remark(line))
            continue
        clause = inside or re.match(r"(\w+: )?\s*(ghost|requires|ensures)\b", bare)
        if clause or re.search(HUMP, line) or path.endswith(".edit"):
            lines.append(code(line) if clause or path.endswith(".edit") else WORD.sub(lambda m: changes[m[0]] if m[0] in changes and re.search(HUMP, m[0]) else m[0], line))
        else:
            lines.append(line)
        if clause:
            inside += line.count("{") - line.count("}")
            inside = max(inside, 0)
    return "\n".join(lines)


def main():
    old, new = table()
    changes = {n: m for n, m in new.items() if n != m}
    together = falls_together(changes)
    if "--list" in sys.argv:
        for n in sorted(changes):
            print(f"{n}\t{changes[n]}")
    for n in sorted(together):
        print("together:", n, together[n][:6], file=sys.stderr)
    if "--list" in sys.argv:
        return
    if together:
        sys.exit("names fall together; nothing is written")
    specs, proofs = antt_files()
    for path in specs + proofs + sorted(glob.glob("crates/*/src/**/*.rt", recursive=True)):
        text = read(path)
        out = turned(text, in_crate(changes, path), path)
        if out != text:
            with open(path, "w", encoding="utf-8") as f:
                f.write(out)
    print(len(changes), "names respelled")


main()
