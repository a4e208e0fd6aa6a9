"""Runs the library beside a program of this folder that answers the same calls, for a script such as tools/reels.

The program is NAME.rs: it makes COUNT calls that SEED chooses, writes their records and the lines that the probe must print
for them, and prints what it has to say of them. The probe makes the same calls, and each line is compared.
"""
import collections
import itertools
import os
import signal
import struct
import subprocess
import sys

import program
from program import ROOT

SHOWN = 10
# what an argument of a record is, by its name; any other is a number
TEXTS, TABLES = ("text", "file", "output"), ("words", "out")


class Script:
    """A script by its name, which NAME.rs and target/NAME have too; for each op a title and the names of its arguments; how
    a record is told in words; and how many calls there are where nobody says."""

    def __init__(self, name, titles, arguments, told, count=200_000):
        self.name, self.titles, self.arguments, self.told, self.count = name, titles, arguments, told, count
        self.out = os.path.join(ROOT, "target", name)
        self.records, self.lines, self.printed = (os.path.join(self.out, file) for file in ("records", "lines", "printed"))

    # -----------------------------------------------------------------------------------------------------------
    # Both sides
    # -----------------------------------------------------------------------------------------------------------

    def build_oracle(self):
        """The other side, for the machine itself."""
        os.makedirs(self.out, exist_ok=True)
        built = os.path.join(self.out, "oracle")
        source = os.path.join(ROOT, "tools", "oracle", self.name + ".rs")
        subprocess.run([os.environ.get("RUSTC", "rustc"), "-O", "--edition", "2021", "-o", built, source], check=True)
        return built

    def run(self, seed, count):
        oracle = self.build_oracle()
        program.build("probe")
        made = subprocess.run([oracle, str(seed), str(count), self.records, self.lines], check=True, stdout=subprocess.PIPE, text=True)
        with open(self.records, "rb") as given, open(self.printed, "wb") as taken:
            subprocess.run(program.command("probe"), stdin=given, stdout=taken, check=True)
        kinds, differ = self.compared()
        if differ:
            self.show_smallest(differ)
        for op, title in self.titles.items():
            mine = {number: many for (of, number), many in sorted(kinds.items()) if of == op}
            print(f"op {op}, {title}: {sum(mine.values())} calls; by number:", ", ".join(f"{number}: {many}" for number, many in mine.items()) or "none")
        print(made.stdout, end="")
        print(f"seed {seed}: {sum(kinds.values())} calls, {len(differ)} differ")
        return 1 if differ else 0

    # -----------------------------------------------------------------------------------------------------------
    # Comparison
    # -----------------------------------------------------------------------------------------------------------

    def compared(self):
        """How many calls of each op and number there are, and the places of those that differ."""
        kinds, differ = collections.Counter(), []
        with open(self.lines, "rb") as must, open(self.printed, "rb") as printed:
            for place, (line, got) in enumerate(itertools.zip_longest(must, printed)):
                if line is None or got is None:
                    sys.exit(f"{self.name}: the probe stopped too late: {got!r}" if got else f"{self.name}: the probe stopped after {place} lines")
                if line != b"end\n":
                    kinds[tuple(map(int, line.split(b" ", 2)[:2]))] += 1
                if line != got:
                    if got in (b"unknown op\n", b"too large\n", b"cut short\n", b"read failed\n"):
                        sys.exit(f"{self.name}: the probe stopped after {place} lines: {got.decode().strip()}")
                    differ.append(place)
        return kinds, differ

    def all_records(self, file, wanted):
        """Of each wanted place the record's op and arguments, and how many bytes it has."""
        for place in range(max(wanted) + 1):
            first = file.tell()
            op = file.read(1)[0]
            values = {}
            for name in self.arguments[op]:
                number, = numbers(file, 1)
                if name in TEXTS:
                    number = file.read(number)
                elif name in TABLES:
                    number = numbers(file, number)
                values[name] = number
            if place in wanted:
                yield place, op, values, file.tell() - first

    def show_smallest(self, differ):
        with open(self.records, "rb") as file:
            sizes = sorted((size, place) for place, _, _, size in self.all_records(file, set(differ)))
        wanted = {place for _, place in sizes[:SHOWN]}
        with open(self.lines, "rb") as must, open(self.printed, "rb") as printed:
            pairs = {place: (line.decode(), got.decode(errors="replace")) for place, (line, got) in enumerate(zip(must, printed)) if place in wanted}
        with open(self.records, "rb") as file:
            for place, op, values, _ in self.all_records(file, wanted):
                self.show(place, op, values, *pairs[place])

    def show(self, place, op, values, line, got):
        print(f"call {place}, {self.titles[op]}: {self.told(values)}")
        if max(len(line), len(got)) <= 400:
            print(f"    must be: {line.rstrip()}\n    printed: {got.rstrip()}")
        else:
            fields = enumerate(itertools.zip_longest(line.split(), got.split()))
            print("    field %d%s must be %s, printed is %s" % next((k, *differing(*pair)) for k, pair in fields if pair[0] != pair[1]))
        again = " ".join([str(op), *(as_argument(value) for value in values.values())])
        if len(again) <= 4_000:
            print(f"    for tools/records: {again}")

    # -----------------------------------------------------------------------------------------------------------
    # From the command line
    # -----------------------------------------------------------------------------------------------------------

    def main(self, words, help_text):
        """SEED and COUNT, the run, and the script's exit status."""
        signal.signal(signal.SIGPIPE, signal.SIG_DFL)
        if words[:1] in (["-h"], ["--help"]):
            print(help_text.strip())
            return 0
        chosen = seed_and_count(words, self.count)
        if chosen is None:
            print(f"{self.name}: SEED is a number, and COUNT one above 0, of at most nine digits; see tools/{self.name} --help", file=sys.stderr)
            return 2
        try:
            return self.run(*chosen)
        except FileNotFoundError as fault:
            print(f"{self.name}: {fault.filename} is missing; it needs rustc, and the Rattle kit that README.md names", file=sys.stderr)
            return 127
        except subprocess.CalledProcessError as fault:
            print(f"{self.name}: {' '.join(fault.cmd)} failed", file=sys.stderr)
            return 1


def differing(must, printed):
    """Of two fields, which may be an output's bytes in hex: from where they differ, and what they have there."""
    if must is None or printed is None or max(len(must), len(printed)) <= 40:
        return "", must, printed
    place = len(os.path.commonprefix([must, printed])) // 2 * 2
    return f" from its character {place} on", *(f"{field[place:place + 40]}{'..' * (len(field) > place + 40)}" for field in (must, printed))


def numbers(file, many):
    return struct.unpack("<%dQ" % many, file.read(8 * many))


def as_argument(value):
    """As tools/records takes it."""
    if isinstance(value, bytes):
        return "".join(chr(byte) if chr(byte).isalnum() and byte < 128 else f"\\x{byte:02x}" for byte in value) or "-"
    if isinstance(value, tuple):
        runs = [(word, len(list(run))) for word, run in itertools.groupby(value)]
        return ",".join(str(word) if many == 1 else f"{word}*{many}" for word, many in runs) or "-"
    return str(value)


def seed_and_count(words, count):
    """Nothing, where the words are no such numbers."""
    if len(words) > 2 or not all(word.isascii() and word.isdigit() and len(word) < 10 for word in words):
        return None
    chosen = [int(word) for word in words]
    chosen += [1, count][len(chosen):]
    return chosen if chosen[1] else None
