#!/usr/bin/env python3
"""Tests that outcomes lists every function and sees every list:  python3 tools/test_outcomes.py

The check proves each line of crates/outcomes; that no exported function is left out, and that what a line calls seen of a call
names each list which the call may write, it cannot know. A function may be listed under the crate that has it or under one that
hands it on.
"""
import pathlib
import re
import unittest

CRATES = pathlib.Path(__file__).resolve().parent.parent / "crates"

# What they write, or read, no contract says (docs/DECISIONS.md, 36).
WITHOUT_EQUATION = {"input", "showing"}


def exported(crate):
    """Each function that a library hands out, as (the crate that has it, its name)."""
    text = (CRATES / crate / "src" / "lib.rt").read_text()
    modules = set(re.findall(r"^mod (\w+);", text, re.M))
    handed_on = []
    for first, names in re.findall(r"^pub use (\w+)::(\{[^}]*\}|\w+);", text, re.M):
        handed_on += [(first, name) for name in re.findall(r"\b[a-z]\w*", names)]
    own = {(crate, name) for name in re.findall(r"^pub fn (\w+)", text, re.M)}
    for of, body in re.findall(r"^impl (\w+)[^{]*\{\n(.*?)^\}", text, re.M | re.S):
        own |= {(crate, f"{of}.{name}") for name in re.findall(r"^    pub fn (\w+)", body, re.M)}
    return own | {(crate if first in modules else first, name) for first, name in handed_on}


def libraries():
    return sorted(p.parent.parent.name for p in CRATES.glob("*/src/lib.rt") if p.parent.parent.name not in WITHOUT_EQUATION)


def listed():
    """Each function whose contract outcomes cites, with what it sees of a call: (crate, name, the rest of the line)."""
    texts = "".join(p.read_text() for folder in ("specs", "proofs") for p in (CRATES / "outcomes" / folder).glob("*.antt"))
    return re.findall(r"\b([a-z]\w*)\.((?:[A-Z]\w*\.)?[a-z]\w*)\.Reads\.Post(.*)", texts)


def seen(text):
    """The places of the lists that a line names: `x.1.1.0` is the third that a call is given. All that is lent is one of them."""
    return {steps.count(".1") for steps in re.findall(r"\bx((?:\.1)*)\.0", text.partition(" x. ")[2])}


def written(crate, name):
    """The places of a function's parameters that it may write."""
    texts = "".join(p.read_text() for p in (CRATES / crate / "src").glob("*.rt"))
    (parameters,) = re.findall(rf"^ *pub fn {name.split('.')[-1]}(?:<[^<>]*>)?\(([^()]*)\)", texts, re.M)
    given = [p for p in re.split(r",(?![^\[]*\])", parameters) if p.strip()]
    return {at for at, parameter in enumerate(given) if "&mut" in parameter}


class Outcomes(unittest.TestCase):
    def setUp(self):
        self.exports = {crate: exported(crate) for crate in libraries()}

    def owner(self, crate, name):
        return next((o for o in self.exports.get(crate, ()) if o[1] == name), None)

    def test_every_function_is_listed(self):
        owners = {self.owner(*line[:2]) for line in listed()}
        self.assertEqual(set().union(*self.exports.values()) - owners, set())

    def test_each_is_listed_once(self):
        owners = [self.owner(*line[:2]) for line in listed()]
        self.assertEqual(len(owners), len(set(owners)))

    def test_every_list_is_seen(self):
        for crate, name, text in listed():
            with self.subTest(crate=crate, function=name):
                self.assertEqual(seen(text), written(*self.owner(crate, name)))


if __name__ == "__main__":
    unittest.main()
