"""Where the library is looked for, and which ones are refused."""

import ctypes
import os
import shutil
import subprocess
import sys
import tempfile
from pathlib import Path
from typing import Dict, Tuple

from eskelvor import _library
from known import ROOT, Case

LIBRARY = Path(os.environ[_library.ENVIRONMENT]).resolve()
MAJOR, MINOR = _library.HEADER_VERSION
NOW = "%d.%d.0" % (MAJOR, MINOR)
OLDER = "%d.%d.9" % ((MAJOR, MINOR - 1) if MINOR else (MAJOR - 1, 9))

STUB = """
#include <stddef.h>
#include <string.h>
const char *esk_version(void) { return "%s"; }
size_t esk_size_of(const char *name) { return strcmp(name, "esk_answer") == 0 ? %d : 0; }
"""
# Every record but the last as this module has it.
SIZES = """
#include <stddef.h>
#include <string.h>
#define ONE(name, size) if (strcmp(record, name) == 0) return size;
const char *esk_version(void) { return "NOW"; }
size_t esk_size_of(const char *record) { %s return %d; }
""".replace("NOW", NOW)


class Finding(Case):
    def setUp(self) -> None:
        self.folder = Path(tempfile.mkdtemp())
        self.addCleanup(shutil.rmtree, self.folder)

    def tries(self, python: Path, **environment: str) -> Tuple[int, str]:
        """Imports the module in a program of its own; gives the status and what was said."""
        kept = {name: value for name, value in os.environ.items() if name != _library.ENVIRONMENT}
        kept.pop("LD_LIBRARY_PATH", None)
        kept.update(environment, PYTHONPATH=str(python), PYTHONDONTWRITEBYTECODE="1")
        words = "import eskelvor; print('version', eskelvor.library_version)"
        ran = subprocess.run(
            [sys.executable, "-c", words], env=kept, stdout=subprocess.PIPE, stderr=subprocess.STDOUT, cwd=self.folder
        )
        return ran.returncode, ran.stdout.decode("utf-8").strip().splitlines()[-1]

    def copied(self) -> Path:
        shutil.copytree(ROOT / "python" / "eskelvor", self.folder / "eskelvor")
        return self.folder

    def test_by_the_environment(self) -> None:
        said = self.tries(ROOT / "python", ESKELVOR_LIBRARY=str(LIBRARY))
        self.assertEqual(said, (0, "version " + _library.library_version))

    def test_beside_the_module(self) -> None:
        python = self.copied()
        shutil.copy(LIBRARY, python / "eskelvor" / _library.SONAME)
        self.assertEqual(self.tries(python), (0, "version " + _library.library_version))

    def test_by_the_loader(self) -> None:
        shutil.copy(LIBRARY, self.folder / _library.SONAME)
        said = self.tries(ROOT / "python", LD_LIBRARY_PATH=str(self.folder))
        self.assertEqual(said, (0, "version " + _library.library_version))

    def test_the_environment_goes_first(self) -> None:
        python = self.copied()
        (python / "eskelvor" / _library.SONAME).write_bytes(b"no library")
        said = self.tries(python, ESKELVOR_LIBRARY=str(LIBRARY), LD_LIBRARY_PATH=str(self.folder))
        self.assertEqual(said, (0, "version " + _library.library_version))
        status, line = self.tries(python)
        self.assertEqual(status, 1)
        self.assertIn("LibraryError", line)

    def test_none_at_all(self) -> None:
        python = self.copied()
        file = python / "eskelvor" / "_library.py"
        source = file.read_text(encoding="utf-8")
        self.assertIn('SONAME = "libeskelvor.so.', source)
        # A name that no loader finds, also where the library is installed on this machine.
        file.write_text(source.replace('SONAME = "libeskelvor.so.', 'SONAME = "libnowhere.so.'), encoding="utf-8")
        status, line = self.tries(python)
        self.assertEqual(status, 1)
        self.assertIn("LibraryError", line)
        self.assertIn("set ESKELVOR_LIBRARY to the file libnowhere.so.4", line)
        status, line = self.tries(ROOT / "python", ESKELVOR_LIBRARY=str(self.folder / "nowhere.so"))
        self.assertEqual(status, 1)
        self.assertIn("nowhere.so", line)


class Refusing(Case):
    """Libraries that this module must not use, each built for the purpose."""

    def setUp(self) -> None:
        self.folder = Path(tempfile.mkdtemp())
        self.addCleanup(shutil.rmtree, self.folder)

    def built(self, name: str, source: str) -> str:
        library, file = self.folder / (name + ".so"), self.folder / (name + ".c")
        file.write_text(source, encoding="ascii")
        compiler = os.environ.get("CC", "cc")
        subprocess.run([compiler, "-shared", "-fPIC", "-o", str(library), str(file)], check=True)
        return str(library)

    def refuses(self, words: str, library: str) -> None:
        with self.assertRaises(_library.LibraryError) as caught:
            _library.load(library)
        self.assertIn(words, str(caught.exception))

    def calls(self) -> str:
        skip = ("esk_version", "esk_size_of")
        return "".join("void %s(void) {}\n" % call for call in _library.CALLS if call not in skip)

    def sizes(self, but: str) -> str:
        records = _library.RECORDS.items()
        return " ".join('ONE("%s", %d)' % (name, ctypes.sizeof(one)) for name, one in records if name != but)

    def test_versions(self) -> None:
        versions: Dict[str, str] = {
            "older": OLDER, "before": "%d.9.0" % (MAJOR - 1), "newer": "%d.0.0" % (MAJOR + 1), "oldest": "2.9.0",
            "none": "", "words": "three", "short": str(MAJOR),
        }
        for name, version in versions.items():
            library = self.built(name, STUB % (version, 16) + self.calls())
            self.refuses("is version %s; this module is for %d.%d" % (version, MAJOR, MINOR), library)

    def test_without_a_version(self) -> None:
        self.refuses("has no esk_version", self.built("before", "int esk_apply;"))

    def test_without_a_call(self) -> None:
        self.refuses("has no esk_packed_read", self.built("calls", STUB % (NOW, 16)))
        for call in (name for name in _library.CALLS if name.startswith(("esk_journal_", "esk_section", "esk_commute", "esk_gust", "esk_diff", "esk_office", "esk_sheet_"))):
            others = self.calls().replace("void %s(void) {}\n" % call, "")
            self.refuses("has no " + call, self.built(call, STUB % (NOW, 16) + others))

    def test_other_sizes(self) -> None:
        first = self.built("first", STUB % ("%d.%d.1" % (MAJOR, MINOR + 1), 24) + self.calls())
        self.refuses("esk_answer has 24 bytes there and 16 here", first)
        second = self.built("second", STUB % (NOW, 16) + self.calls())
        self.refuses("esk_figure has 0 bytes there and 8 here", second)
        for size in (0, 24, 40):
            third = self.built("third%d" % size, SIZES % (self.sizes("esk_gust_answer"), size) + self.calls())
            self.refuses("esk_gust_answer has %d bytes there and 8 here" % size, third)

    def test_the_sound_one_passes(self) -> None:
        self.assertEqual(_library.load(str(LIBRARY))[1], _library.library_version)
