#!/usr/bin/env python3
"""Prints what changed between a commit and the tree, old and new side by side.

    tools/design_lists.py COMMIT functions      signatures and clauses of public functions
    tools/design_lists.py COMMIT laws           definitions and laws of specs/ and proofs/ that changed by more than spelling
    tools/design_lists.py COMMIT respelled      those that are respelled alone, each with both texts
    tools/design_lists.py COMMIT gone           definitions and laws that are gone
"""
import re
import subprocess
import sys
from collections import defaultdict

# How the same was spelt then, and is now.
SPELT = [
    (r"\bMaybeNode\b", "Option NodeNo"), (r"(?<![\w.'])Absent\b", "None"), (r"(?<![\w.'])At(?![\w'])", "Some"),
    (r"\bdecision\.Crooked\b", "None"), (r"\bdecision\.Go\b|(?<![\w.'])Go(?![\w'])", "Some"), (r"\bFoundChange\b", "Option Key"),
    (r"\bfound\.Keep\b", "None"), (r"\bfound\.Add\b", "Some"), (r"(?<![\w.'])Condition\b", "Option Operation"), (r"\.condition\b", ".operation"),
    (r"\bcondition =", "operation ="), (r"(?<![\w.'])Busy\b", "Some"), (r"(?<![\w.'])Idle\b", "None"), (r"(?<![\w.'])(outcome\.)?Going\b", "Ok None"),
    (r"(?<![\w.'])(?:outcome\.)?Said (\([^()]*\)|[\w.]+)", r"Ok (Some \1)"), (r"(?<![\w.'])(outcome\.)?Refused\b", "Err"),
    (r"\b(link|help)\.Crooked\b", "None"), (r"(?<!Option )\b(LinkMove|HelpMove)\b", r"Option \1"), (r"\b(link|help)\.(Goes|Helps|Fails|Holds|Done)\b", r"Some \1.\2"),
    (r"(?<![\w.'])Number (\w+) (\w+)", r"Ok (\1, \2)"), (r"(?<![\w.'])(Faulty|broken|faulty|fault)(?![\w_'-])", "None"), (r"\bEnd (\w+)", r"Ok \1"),
    (r"\b(command|opening)\.Faulty\b", "None"), (r"\bErr fault\b", "None"), (r"\bTooShort\b", "Err too_short"),
]


def tree(commit):
    ls = ["git", "ls-tree", "-r", "--name-only", commit, "crates"] if commit else ["git", "ls-files", "crates"]
    for name in subprocess.run(ls, capture_output=True, text=True, check=True).stdout.split("\n"):
        if name.endswith((".rt", ".antt")):
            yield name, subprocess.run(["git", "show", f"{commit}:{name}"], capture_output=True, text=True, check=True).stdout if commit else open(name).read()


def functions(files):
    """(crate, name) of each public function: its head, without attribute and body"""
    found = defaultdict(list)
    for name, text in files:
        if "/src/" in name:
            for m in re.finditer(r"^( *)pub fn (\w+)(.*?)(?:^\1\{|\{$)", text, re.M | re.S):
                head = " ".join(("fn " + m.group(2) + m.group(3)).split())
                found[name.split("/")[1], m.group(2)].append(head.replace("( ", "(").replace(", )", ")"))
    return found


def laws(files):
    """(crate, name) of each definition or law: its statement and equations"""
    found = defaultdict(list)
    for name, text in files:
        if re.search(r"/(specs|proofs)/", name) and not re.search(r"/(Answers|Invariants|Lib)\.antt$", name):
            for m in re.finditer(r"^( *)(?:(?:abbrev|unfoldable) )*(?:pub )?(?:record )?([^\s:(){}=]+)(?: \{[^}]*\})*(?: \([^)]*\))* : .*(?:\n(?!\s*$)(?!\1(?:abbrev|unfoldable|pub|module|record|--)\b)(?! *[^\s:(){}=]+ : ).*)*", text, re.M):
                if m.group(2) not in ("let", "where", "module", "use"):
                    found[name.split("/")[1], m.group(2)].append((name.split("/", 2)[2], " ".join(re.sub(r"^\s*--.*$", "", m.group(0), flags=re.M).split())))
    return found


def respelt(text):
    for old, new in SPELT:
        text = re.sub(old, new, text)
    return re.sub(r"[()\s]|unfolding [\w \-']*", "", text)


def main():
    commit, what = sys.argv[1:3]
    then, now = list(tree(commit)), list(tree(None))
    if what == "functions":
        a, b = functions(then), functions(now)
        for key in sorted(set(a) | set(b)):
            if sorted(a[key]) != sorted(b[key]):
                print(f"- `{key[0]}::{key[1]}`")
                for sign, heads in (("then", a[key]), ("now", b[key])):
                    for head in heads or ["none"]:
                        print(f"  - {sign}: `{head}`")
        return
    a, b = laws(then), laws(now)
    for key in sorted(a):
        old, new = a[key], b.get(key, [])
        if what == "gone" and not new:
            print(f"- `{key[0]}` {old[0][0]}: `{old[0][1][:240]}`")
        if not new or sorted(t for _, t in old) == sorted(t for _, t in new):
            continue
        alike = sorted(respelt(t) for _, t in old) == sorted(respelt(t) for _, t in new)
        if (what == "respelled") == alike and what in ("respelled", "laws"):
            print(f"- `{key[0]}` {new[0][0]}\n  - then: `{old[0][1]}`\n  - now: `{new[0][1]}`")


if __name__ == "__main__":
    main()
