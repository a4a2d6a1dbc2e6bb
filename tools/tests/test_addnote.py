"""addnote on small made cores."""
import os
import struct
import subprocess
import sys
import tempfile
import unittest

TOP = os.path.dirname(os.path.dirname(os.path.dirname(os.path.realpath(__file__))))
TEXT = b"OSRELEASE=6.1.0\nPAGESIZE=4096\n"
OTHER = struct.pack("<III", 5, 3, 1) + b"CORE\0\0\0\0" + b"abc\0"
MEMORY = bytes(range(256)) * 16


def core(*parts):
    """A core file of these parts, each a type and its bytes."""
    place, table, data = 64 + 56 * len(parts), b"", b""
    for kind, part in parts:
        table += struct.pack("<IIQQQQQQ", kind, 4, place + len(data), 7, 0x1000, len(part), len(part), 0)
        data += part
    head = b"\x7fELF\x02\x01\x01" + bytes(9) + struct.pack("<HHIQQQIHHHHHH", 4, 62, 1, 0, 64, 0, 0, 64, 56, len(parts), 0, 0, 0)
    return head + table + data


def parts_of(data):
    """The type, the physical address and the bytes of each part of a core file."""
    place, = struct.unpack_from("<Q", data, 32)
    count, = struct.unpack_from("<H", data, 56)
    headers = struct.iter_unpack("<IIQQQQQQ", data[place:place + 56 * count])
    return [(h[0], h[4], data[h[2]:h[2] + h[5]]) for h in headers]


class Notes(unittest.TestCase):
    def add(self, data, text=TEXT):
        with tempfile.TemporaryDirectory() as folder:
            dump, new = os.path.join(folder, "dump"), os.path.join(folder, "new")
            with open(dump, "wb") as file:
                file.write(data)
            run = subprocess.run([sys.executable, os.path.join(TOP, "tools", "addnote"), dump, new], input=text, capture_output=True)
            with open(dump, "rb") as file:
                self.assertEqual(file.read(), data)
            if run.returncode:
                self.assertFalse(os.path.exists(new))
                return run.stderr
            with open(new, "rb") as file:
                return file.read()

    def test_beside_other_notes(self):
        wanted = struct.pack("<III", 11, 30, 0) + b"VMCOREINFO\0\0" + TEXT + b"\0\0"
        parts = parts_of(self.add(core((4, OTHER), (1, MEMORY), (1, b"more"))))
        self.assertEqual(parts, [(4, 0, OTHER + wanted), (1, 0x1000, MEMORY), (1, 0x1000, b"more")])

    def test_places(self):
        new = self.add(core((1, MEMORY), (4, OTHER), (4, OTHER)))
        self.assertEqual(struct.unpack_from("<Q", new, 32), (64,))
        self.assertEqual([part[0] for part in parts_of(new)], [1, 4, 0])
        self.assertEqual(parts_of(new)[1][2][:48], OTHER + OTHER)

    def test_without_notes(self):
        parts = parts_of(self.add(core((1, MEMORY))))
        self.assertEqual([part[0] for part in parts], [4, 1])
        self.assertIn(TEXT, parts[0][2])
        self.assertEqual(parts[1][2], MEMORY)

    def test_refused(self):
        self.assertIn(b"no text", self.add(core((1, MEMORY)), b""))
        self.assertIn(b"no ELF64", self.add(b"KDUMP   " + MEMORY))


if __name__ == "__main__":
    unittest.main()
