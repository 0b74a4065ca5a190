"""The records and calls as ctypes has them against those of the header, as the machine's C compiler lays them out."""

import ast
import ctypes
import os
import re
import subprocess
import tempfile
from pathlib import Path

import eskelvor
from eskelvor import _library
from known import ROOT, Case

HEADER = ROOT / "host" / "eskelvor.h"


def plain_header() -> str:
    return re.sub(r"/\*.*?\*/", "", HEADER.read_text(encoding="ascii"), flags=re.S)


def header_records() -> dict:
    """Every record of the header with the names of its members."""
    records = {}
    for name, body in re.findall(r"typedef struct (\w+) \{(.*?)\} \1;", plain_header(), flags=re.S):
        members = []
        for line in body.split(";"):
            if line.strip():
                members += re.findall(r"(\w+)(?:\[\d+\])?\s*(?:,|$)", line.strip().split(None, 1)[1])
        records[name] = members
    return records


def measured(records: dict) -> dict:
    """Sizes and offsets from a C program: ``record`` to its size, ``record.member`` to offset and size."""
    lines = ['#include "eskelvor.h"', "#include <stdio.h>", "int main(void)", "{"]
    for name, members in records.items():
        lines.append('    printf("%s 0 %%lu\\n", (unsigned long)sizeof(%s));' % (name, name))
        for member in members:
            at, size = "offsetof(%s, %s)" % (name, member), "sizeof(((%s *)0)->%s)" % (name, member)
            lines.append(
                '    printf("%s.%s %%lu %%lu\\n", (unsigned long)%s, (unsigned long)%s);' % (name, member, at, size)
            )
    lines += ["    return 0;", "}", ""]
    with tempfile.TemporaryDirectory() as folder:
        source, program = Path(folder, "layout.c"), Path(folder, "layout")
        source.write_text("\n".join(lines), encoding="ascii")
        compiler = [os.environ.get("CC", "cc"), "-std=c99", "-Wall", "-Wextra", "-pedantic", "-Werror"]
        subprocess.run([*compiler, "-I", str(HEADER.parent), "-o", str(program), str(source)], check=True)
        said = subprocess.run([str(program)], check=True, stdout=subprocess.PIPE).stdout.decode("ascii")
    return {name: (int(at), int(size)) for name, at, size in (line.split() for line in said.splitlines())}


class Layout(Case):
    def test_every_member_of_every_record(self) -> None:
        records = header_records()
        self.assertEqual(sorted(records), sorted(_library.RECORDS))
        self.assertGreater(sum(map(len, records.values())), 80)
        theirs = measured(records)
        for name, layout in _library.RECORDS.items():
            self.assertEqual(theirs[name], (0, ctypes.sizeof(layout)), name)
            ours = [field[0] for field in layout._fields_ if field[0] != "spare_on"]
            self.assertEqual(ours, records[name], name)
            for member in ours:
                here = getattr(layout, member)
                size = here.size
                if member == "spare" and hasattr(layout, "spare_on"):
                    size += layout.spare_on.size
                    self.assertEqual(layout.spare_on.offset, here.offset + here.size)
                self.assertEqual(theirs["%s.%s" % (name, member)], (here.offset, size), (name, member))

    def test_the_library_has_the_same_sizes(self) -> None:
        for name, layout in _library.RECORDS.items():
            self.assertEqual(_library.lib.esk_size_of(name.encode()), ctypes.sizeof(layout), name)

    def test_every_call_with_as_many_words(self) -> None:
        declared = re.findall(r"\b(esk_\w+)\(([^)]*)\);", plain_header())
        self.assertEqual(sorted(name for name, _ in declared), sorted(_library.CALLS))
        for name, words in declared:
            count = 0 if words.strip() == "void" else words.count(",") + 1
            self.assertEqual(len(_library.CALLS[name][1]), count, name)

    def test_constants(self) -> None:
        numbers = dict(re.findall(r"#define (ESK_\w+) (\d+)", plain_header()))
        self.assertEqual(int(numbers["ESK_REPORT_BYTES"]), eskelvor.REPORT_BYTES)
        self.assertEqual(int(numbers["ESK_COMMAND_BYTES"]), eskelvor.COMMAND_BYTES)
        self.assertEqual(int(numbers["ESK_BOARD_SLOTS"]), eskelvor.BOARD_SLOTS)
        self.assertEqual(int(numbers["ESK_JOURNAL_BYTES"]), eskelvor.JOURNAL_BYTES)
        self.assertEqual(int(numbers["ESK_JOURNAL_PRINTED"]), _library.JOURNAL_PRINTED)
        enums = {name: int(number) for name, number in re.findall(r"(ESK_\w+) = (\d+)", plain_header())}
        self.assertEqual({enums["ESK_" + one.name] for one in eskelvor.Phase}, {0, 1, 2})
        for one in (*eskelvor.Phase, *eskelvor.Decision):
            self.assertEqual(enums["ESK_" + one.name], one)
        for one in eskelvor.Reason:
            self.assertEqual(enums["ESK_WHY_" + one.name], one)
        self.assertEqual(len([name for name in enums if name.startswith("ESK_WHY_")]), len(eskelvor.Reason))
        version = re.search(r'#define ESK_VERSION "(.*)"', plain_header())
        assert version is not None
        self.assertEqual(eskelvor.library_version, version.group(1))

    def test_codes(self) -> None:
        """Every code that the header lists has its class, and there is no other."""
        listed = plain_header()
        listed = listed[listed.index("ESK_ACCEPTED") : listed.index("typedef struct esk_answer")]
        codes = {int(number) for _, number in re.findall(r"(ESK_\w+) = (\d+)", listed)}
        self.assertEqual(codes - {0}, {kind.code for kind in eskelvor.Refusal.__subclasses__()})
        self.assertEqual(dict(re.findall(r"(ESK_\w+) = (\d+)", listed))["ESK_JOURNAL"], str(eskelvor.JournalBroken.code))

    def test_an_entry_comes_back_whole(self) -> None:
        """The one record of 32 bytes that a call answers: every member where it belongs, the spare ones 0."""
        journal = eskelvor.Journal(bytearray(100))
        cases = [(0, 0, 0, 0, 0, 0), (0, 0, 6, 22, 0, 1), (0, 31, 37, 26, 0, 1)]
        for text, want in zip((b"", eskelvor.NO_CHANGE, b"AWR049999999000400000/601/"), cases):
            if text:
                journal.add("XY0001", text)
            found = _library.lib.esk_journal_last(*journal._lent())
            members = (found.place, found.offset, found.text, found.length, found.code, found.given)
            self.assertEqual((members, found.spare), (want, 0))
        found = _library.lib.esk_journal_last(*eskelvor.Journal(bytearray(100), 50)._lent())
        members = (found.place, found.offset, found.text, found.length, found.code, found.given)
        self.assertEqual((members, found.spare), ((47, 0, 0, 0, 14, 0), 0))

    def test_the_source_is_for_python_3_9(self) -> None:
        files = [*(ROOT / "python").rglob("*.py"), ROOT / "examples" / "coldest.py"]
        self.assertGreater(len(files), 10)
        for file in files:
            ast.parse(file.read_text(encoding="utf-8"), str(file), feature_version=(3, 9))

    def test_every_public_name_has_a_docstring(self) -> None:
        for name in eskelvor.__all__:
            one = getattr(eskelvor, name)
            if callable(one):
                self.assertTrue((one.__doc__ or "").strip(), name)
