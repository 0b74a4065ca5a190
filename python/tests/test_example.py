"""examples/coldest.py: what it prints of the night in examples/, of damaged ones and without a file. README's program."""

import re
import subprocess
import sys
from typing import Tuple

from known import EXAMPLES, FULL, PRINTED, ROOT, Case

NIGHT = """\
AU0137 YMML to YPAD: -47.1 degrees C at 34100 feet, of 13 levels
EU0245 EKCH to BIRK: -52.3 degrees C at 28900 feet, of 14 levels
US1180 KJFK to EGLL: -48.4 degrees C at 31500 feet, of 10 levels
AU0137 YPAD to YPPH: -36.0 degrees C at 28900 feet, of 12 levels
EU0301 LFPG to LEMD: no temperature in 2 observations
"""
THREE = """\
XY0001 ABCD to EFGH: 0.0 degrees C at 0 feet, of 1 levels
AU0137 YMML to YPAD: 2.1 degrees C at -1000 feet, of 1 levels
"""
REFUSED = "refused: report 5 from byte 880 on: code 4 at byte 39: a byte that is not allowed in its field\n"


class Coldest(Case):
    def run_it(self, *words: str) -> Tuple[int, str, str]:
        ran = subprocess.run(
            [sys.executable, str(EXAMPLES / "coldest.py"), *words], stdout=subprocess.PIPE, stderr=subprocess.PIPE
        )
        return ran.returncode, ran.stdout.decode(), ran.stderr.decode()

    def test_the_night(self) -> None:
        self.assertEqual(self.run_it(str(EXAMPLES / "night.reports")), (1, NIGHT, REFUSED))

    def test_others(self) -> None:
        self.assertEqual(self.run_it(str(EXAMPLES / "three.reports")), (0, THREE, ""))
        self.assertEqual(self.run_it(), (2, "", "usage: coldest.py FILE\n"))

    def test_zero_is_not_missing(self) -> None:
        self.assertIn(b"A  K  K    K  K K", PRINTED)  # an ascent at 0.0 degrees
        self.assertIn(b"A K K  K HKKLT0", FULL)
        status, out, _ = self.run_it(str(EXAMPLES / "damaged.reports"))
        self.assertEqual(status, 1)
        self.assertIn("XY0001 ABCD to EFGH: 0.0 degrees C at 0 feet, of 1 levels\n", out)


class Readme(Case):
    def test_its_program(self) -> None:
        found = re.findall(r"```python\n(.*?)```", (ROOT / "README.md").read_text(encoding="utf-8"), flags=re.S)
        self.assertEqual(len(found), 1)
        ran = subprocess.run([sys.executable, "-c", found[0]], cwd=ROOT, stdout=subprocess.PIPE, check=True)
        said = ran.stdout.decode().splitlines()
        self.assertEqual(said[0], "-37.416666666666664 20140 -27.5")
        self.assertEqual(said[-6:], [
            "the hour is in the hours of silence",
            "5 22 a number outside its range",
            "b'AWR049999199000000000/' b'AWR049999199000000000/'",
            "0 AU0137 b'AWR049999099000000000/'",
            "False",
            "396",
        ])
