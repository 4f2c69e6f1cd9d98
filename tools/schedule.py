#!/usr/bin/env python3
"""Turns a readable text into a schedule (bytes) and back.

    python3 tools/schedule.py pack   < evening.txt   > evening.sched
    python3 tools/schedule.py unpack < evening.sched > evening.txt

A line of the text is one of these; what stands behind a # is a comment, and empty lines are skipped:

    sizes N M P            first of all: nodes 8 to 1024, update records 2 to 512, workers 1 to 8
    WORKER insert KEY
    WORKER delete KEY
    WORKER find KEY
    WORKER scan A B
    WORKER turns N         N at least 1

Keys go from -2147483648 to 2147483647. What is wrong is said on standard error, with its line or its command and
byte, and nothing is written then; the exit status is 1.
"""
import re
import sys

LONGEST = 65536
LARGEST = 4294967295
LEAST_KEY, MOST_KEY = -2147483648, 2147483647
SIZES = (("N", 8, 1024), ("M", 2, 512), ("P", 1, 8))

# Each command: its number, and what follows the worker.
COMMANDS = {
    "insert": (1, ("key",)),
    "delete": (2, ("key",)),
    "find": (3, ("key",)),
    "scan": (4, ("key", "key")),
    "turns": (5, ("count",)),
}
NAMES = {code: name for name, (code, _) in COMMANDS.items()}


class TextError(Exception):
    """A line of the text is wrong."""

    def __init__(self, line, why):
        super().__init__(f"line {line}: {why}" if line else why)
        self.line = line


class FileFault(Exception):
    """A schedule does not read; command 0 is its opening, the three sizes."""

    def __init__(self, command, at, why):
        where = f"command {command}" if command else "the opening"
        super().__init__(f"{where}, byte {at}: {why}")
        self.command = command


# ---- text to bytes


def groups(n):
    """A number in groups of seven bits, lowest first, the top bit set when another follows."""
    out = bytearray()
    while n > 127:
        out.append(128 + n % 128)
        n //= 128
    out.append(n)
    return bytes(out)


def code_of(key):
    return 2 * key if key >= 0 else -2 * key - 1


def whole_number(line, word, what, least, most):
    if not re.fullmatch(r"-?[0-9]+", word):
        raise TextError(line, f"{what} is not a whole number: {word}")
    n = int(word)
    if not least <= n <= most:
        raise TextError(line, f"{what} is {n}, and has to be from {least} to {most}")
    return n


def pack_sizes(line, words):
    if words[0] != "sizes":
        raise TextError(line, "the first line has to be: sizes N M P")
    if len(words) != 4:
        raise TextError(line, "sizes has three numbers: nodes, records, workers")
    numbers = [whole_number(line, word, *size) for word, size in zip(words[1:], SIZES)]
    return b"".join(groups(n) for n in numbers)


def pack_argument(line, word, sort):
    if sort == "key":
        return groups(code_of(whole_number(line, word, "the key", LEAST_KEY, MOST_KEY)))
    return groups(whole_number(line, word, "the count of turns", 1, LARGEST))


def pack_command(line, words):
    if words[0] == "sizes":
        raise TextError(line, "sizes stands once, in the first line")
    worker = whole_number(line, words[0], "the worker", 0, LARGEST)
    if len(words) < 2 or words[1] not in COMMANDS:
        raise TextError(line, "a worker is followed by one of: " + ", ".join(COMMANDS))
    code, sorts = COMMANDS[words[1]]
    if len(words) != 2 + len(sorts):
        raise TextError(line, f"{words[1]} takes {len(sorts)} number(s), and this line has {len(words) - 2}")
    arguments = [pack_argument(line, word, sort) for word, sort in zip(words[2:], sorts)]
    return groups(code) + groups(worker) + b"".join(arguments)


def pack(text):
    """The schedule of a text."""
    out = b""
    for line, content in enumerate(text.splitlines(), 1):
        words = content.split("#")[0].split()
        if not words:
            continue
        out += pack_command(line, words) if out else pack_sizes(line, words)
        if len(out) > LONGEST:
            raise TextError(line, f"the schedule would end past byte {LONGEST}")
    if not out:
        raise TextError(0, "no line with the sizes")
    return out


# ---- bytes to text


class Reader:
    def __init__(self, data):
        self.data, self.at, self.command = data, 0, 0

    def fault(self, at, why):
        raise FileFault(self.command, at, why)

    def number(self):
        start, n = self.at, 0
        for place in range(5):
            if self.at == len(self.data):
                self.fault(start, "a number is cut short")
            byte = self.data[self.at]
            self.at += 1
            n += byte % 128 * 128 ** place
            if n > LARGEST:
                self.fault(start, "a number is too large")
            if byte < 128:
                if byte == 0 and place > 0:
                    self.fault(start, "a number is not in its shortest form")
                return n
        self.fault(start, "a number is too long")

    def key(self):
        code = self.number()
        return code // 2 if code % 2 == 0 else -(code // 2) - 1

    def count(self):
        start, n = self.at, self.number()
        if n == 0:
            self.fault(start, "0 turns")
        return n

    def sizes(self):
        if len(self.data) > LONGEST:
            self.fault(LONGEST, f"the schedule is longer than {LONGEST} bytes")
        numbers = [self.number() for _ in SIZES]
        for n, (name, least, most) in zip(numbers, SIZES):
            if not least <= n <= most:
                self.fault(0, f"{name} is {n}, and has to be from {least} to {most}")
        return "sizes {} {} {}".format(*numbers)

    def next_command(self):
        self.command += 1
        start, code = self.at, self.number()
        if code not in NAMES:
            self.fault(start, f"there is no command {code}")
        name = NAMES[code]
        worker = self.number()
        arguments = [self.key() if sort == "key" else self.count() for sort in COMMANDS[name][1]]
        return " ".join([str(worker), name] + [str(n) for n in arguments])


def unpack(data):
    """The text of a schedule, a line to its sizes and to each command."""
    reader = Reader(data)
    lines = [reader.sizes()]
    while reader.at < len(data):
        lines.append(reader.next_command())
    return "\n".join(lines) + "\n"


def main(arguments):
    if arguments not in (["pack"], ["unpack"]):
        print(__doc__.strip(), file=sys.stderr)
        return 2
    given = sys.stdin.buffer.read()
    try:
        if arguments == ["pack"]:
            sys.stdout.buffer.write(pack(given.decode("utf-8")))
        else:
            sys.stdout.write(unpack(given))
    except UnicodeDecodeError:
        print("the text is not UTF-8", file=sys.stderr)
        return 1
    except (TextError, FileFault) as wrong:
        print(wrong, file=sys.stderr)
        return 1
    return 0


if __name__ == "__main__":
    sys.exit(main(sys.argv[1:]))
