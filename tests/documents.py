#!/usr/bin/env python3
"""Documents: the files and definitions that they name are in the repository, and those for callers cite no document that is not.

Run from the repository's root: python3 tests/documents.py"""
import glob
import re
import sys

NAMING = ["README.md", *sorted(glob.glob("docs/*.md"))]
CITING = [path for pattern in ("README.md", "docs/TRUST.md", "docs/CHANGES.md", "include/*", "rust/src/*", "rust/tests/**/*.rs", "rust/examples/*",
                               "python/*.py", "examples/**/*.[cp]*") for path in glob.glob(pattern, recursive=True)]


def text(path):
    with open(path, encoding="utf-8", errors="replace") as file: return file.read()


def named(path): return set(re.findall(r"`([^`\n]+)`", text(path)))


def there(path):
    """A path from the root, or of a crate's files, their ending left out."""
    return any(glob.glob(form % path) for form in ("%s", "crates/%s", "crates/%s.antt", "crates/*/%s.antt", "crates/*/specs/%s.antt"))


failed = []
# Definitions, and theorems, which stand in specs/ or, where others rest on them, in proofs/.
specs = "\n".join(text(path) for path in glob.glob("crates/*/specs/**/*.antt", recursive=True) + glob.glob("crates/*/proofs/*.antt"))
# A name of several words may also be a function's.
code = "\n".join([specs, *(text(path) for path in glob.glob("crates/*/src/*.rt") + glob.glob("rust/src/*.rs"))])
for path in NAMING:
    for name in sorted(named(path)):
        is_path = re.fullmatch(r"[\w.*-]+(/[\w.*-]+)*/?", name) and "/" in name and "target/" not in name
        # What begins with rattle_ is the toolchain's.
        is_definition = path == "docs/TRUST.md" and re.fullmatch(r"[A-Z]?[a-z]+[A-Z]\w*|Demand\d|(?!rattle_)[a-z]+([_-][a-z]+)+", name)
        if is_path and not there(name): failed.append("%s names %s, which is not there" % (path, name))
        if is_definition and not re.search(r"(?<![\w-])%s(?![\w-])" % re.escape(name), code if "_" in name else specs):
            failed.append("%s names %s, which is not there" % (path, name))
for path in CITING:
    for cited in re.findall(r"(?i)document 0\d", text(path)): failed.append("%s cites %s, which is not in the repository" % (path, cited))
for line in failed: print(line)
print("documents: %d failed" % len(failed))
sys.exit(len(failed) > 0)
