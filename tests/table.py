"""A table of the test program crates/rows: a file of its data/, what it is asked, and a part of its stdout, what it has to write.

The file is a list of fields: a field is its length in two bytes, high byte first, and so many bytes. Each field is a row, which is
again a list of fields (crates/rows/src/file.rt)."""
import os
import sys


def field(data): return len(data).to_bytes(2, "big") + bytes(data)


def byte(n): return n.to_bytes(1, "big")


def short(n): return n.to_bytes(2, "big")


def long(n): return n.to_bytes(4, "big")


class Table:
    """Rows and the text that they make the program write."""

    def __init__(self, name): self.name, self.rows, self.said = name + ".bin", b"", ""

    def row(self, said, *fields):
        self.rows += field(b"".join(field(f.encode() if isinstance(f, str) else f) for f in fields))
        self.said += said

    def write(self):
        """Writes the rows to the table's file in the folder that the command names, and prints the part of stdout."""
        assert len(self.rows) <= 65536, "%s: the program's buffer has 65,536 bytes" % self.name
        with open(os.path.join(sys.argv[1], self.name), "wb") as out: out.write(self.rows)
        print(self.name + ":\n" + self.said, end="")
