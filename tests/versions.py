#!/usr/bin/env python3
"""One version: whatever names the version says what the file VERSION says.

Run from the repository's root, after `make lib`: python3 tests/versions.py"""
import re
import subprocess
import sys

sys.path.insert(0, "python")
import chains


def found(path, pattern):
    """The groups of the one place in a file that fits, joined by points."""
    with open(path, encoding="utf-8") as file: places = list(re.finditer(pattern, file.read(), re.M))
    if len(places) != 1: sys.exit("%s has %d places like %s" % (path, len(places), pattern))
    return ".".join(places[0].groups())


def text(number): return "%d.%d.%d" % (number // 1000000, number // 1000 % 1000, number % 1000)


THREE = r"(\d+)\.(\d+)\.(\d+)"
said = {
    "include/chains.h, the text": found("include/chains.h", r'^#define CHAINS_VERSION_TEXT "%s"$' % THREE),
    "include/chains.h, the number": text(int(found("include/chains.h", r"^#define CHAINS_VERSION (\d+)$"))),
    "the contract of chains_version": found("crates/exports/src/lib.rt", r"version_number (\d+) (\d+) (\d+)"),
    "the library": text(chains.version()),
    "rust/Cargo.toml": found("rust/Cargo.toml", r'^version = "%s"$' % THREE),
    "rust/Cargo.lock": found("rust/Cargo.lock", r'^version = "%s"$' % THREE),
    "./chains --version": subprocess.run(["./chains", "--version"], capture_output=True, text=True).stdout.replace("chains ", "").strip(),
}
with open("VERSION") as file: version = file.read().strip()
wrong = ["%s: %s, and VERSION has %s" % (where, what, version) for where, what in said.items() if what != version]
for line in wrong: print(line)
print("versions: %d differ" % len(wrong))
sys.exit(len(wrong) > 0)
