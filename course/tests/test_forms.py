"""Results in their forms, pages and merges, made of results that no machine gave.

It needs no program and no compiler.
"""

import base64
import gzip
import json
import pathlib
import re
import sys
import tempfile
import unittest
import xml.etree.ElementTree
import zlib

HERE = pathlib.Path(__file__).resolve().parent
sys.path.insert(0, str(HERE.parent))

import grade  # noqa: E402
import merge  # noqa: E402
import pack  # noqa: E402

RUBRIC = """\
title = "Lab <&> \\"util\\""
points = 7

[[test]]
name = "one <&>"
points = 5
type = ["ls"]
part_of = "a & b"

[[test]]
name = "two"
points = 2
type = ["ls"]
hidden = true
"""
ALL_BYTES = "".join(map(chr, range(256)))


def grading(outcomes):
    """The results of a submission that printed all bytes."""
    with tempfile.TemporaryDirectory() as folder:
        path = pathlib.Path(folder) / "rubric.toml"
        path.write_text(RUBRIC)
        rubric = grade.read_rubric(str(path))
    results = []
    for test, outcome in zip(rubric.tests, outcomes):
        is_passed = outcome is grade.Outcome.PASSED
        words = [] if is_passed else [f"BAD  {grade.printable(ALL_BYTES)}", "    MISSING '</failure>]]>'"]
        results.append(
            grade.Result(test, outcome, test.points if is_passed else 0, words, ALL_BYTES * 200, steps=12, runs=2)
        )
    return grade.Grading(rubric, pathlib.Path("ada"), "ada", "1.0.0", results, "0" * 64)


class Forms(unittest.TestCase):
    def test_gradescope(self):
        result = grade.gradescope(grading([grade.Outcome.PASSED, grade.Outcome.FAILED]))
        self.assertEqual([result["score"], result["max_score"]], [5, 7])
        self.assertEqual([test["status"] for test in result["tests"]], ["passed", "failed"])
        self.assertEqual([test["visibility"] for test in result["tests"]], ["visible", "after_published"])
        console = result["tests"][0]["extra_data"]["console"]
        self.assertTrue(console.endswith("\n(cut after 20000 characters)"))
        self.assertRegex(json.dumps(result), r"^[ -~]*$")

    def test_junit(self):
        text = grade.junit(grading([grade.Outcome.FAILED, grade.Outcome.ERROR]))
        suite = xml.etree.ElementTree.fromstring(text)[0]
        self.assertEqual(
            [suite.get(key) for key in ("name", "tests", "failures", "errors")], ['Lab <&> "util"', "2", "1", "1"]
        )
        self.assertEqual([case[0].tag for case in suite], ["failure", "error"])
        self.assertEqual(suite[0].get("name"), "one <&>")
        self.assertIn("MISSING '</failure>]]>'", suite[0][0].text)

    def test_own_form(self):
        lines = list(grade.own_form(grading([grade.Outcome.PASSED, grade.Outcome.PASSED]), grade.Colours(False)))
        self.assertEqual(lines[0], "== Test one <&> == one <&>: OK (0 ms, 12 steps)")
        self.assertEqual(lines[2], "Score: 7/7")

    def test_needed_parts(self):
        results = grading([grade.Outcome.PASSED, grade.Outcome.PASSED]).results
        grade.forfeit_parts(results)
        self.assertEqual([result.points for result in results], [5, 2])


class Pages(unittest.TestCase):
    def test_sum_of_an_image(self):
        image = b"\0" * 1000 + bytes(range(256)) * 3 + b"\0" * 7
        mark = 0x811C9DC5
        for byte in image:
            mark = (mark ^ byte) * 0x01000193 % (1 << 32)
        self.assertEqual(grade.mark_of(image), mark)

    def test_link(self):
        letters = grade.fragment(b"image", 256, "step 3\n").removeprefix("#session=")
        packed = base64.urlsafe_b64decode(letters + "=" * (-len(letters) % 4))
        self.assertEqual(zlib.decompress(packed, wbits=-15), b"boot %08x 256\nstep 3\n" % grade.mark_of(b"image"))

    def test_image_of_the_page(self):
        page = (HERE.parent.parent / "web" / "index.html").read_text()
        page = page.replace('id="packed-image">', 'id="packed-image">H4sI')
        made = grade.machine_page(page, b"image", 256, "step 3\n")
        packed = re.search(r'id="packed-image">([^<]*)<', made)[1]
        self.assertEqual(gzip.decompress(base64.b64decode(packed)), b"image")
        start = made.index("location.hash = ")
        self.assertLess(start, made.index('<script type="module">'))
        self.assertIn(grade.fragment(b"image", 256, "step 3\n"), made)

    def test_overview_is_escaped(self):
        graded = grading([grade.Outcome.FAILED, grade.Outcome.FAILED])
        sections = [
            grade.section(at, result, [], not result.test.hidden) for at, result in enumerate(graded.results, 1)
        ]
        page = grade.overview(graded, sections)
        self.assertIn("one &lt;&amp;&gt;: failed, 0 of 5 points", page)
        self.assertIn("a hidden test: failed, 0 of 2 points", page)
        self.assertNotIn("two", page)


class Merges(unittest.TestCase):
    def test_merge(self):
        with tempfile.TemporaryDirectory() as name:
            folder = pathlib.Path(name)
            for submission, outcome in (("bob, b", grade.Outcome.FAILED), ("ada", grade.Outcome.PASSED)):
                result = grade.gradescope(grading([outcome, grade.Outcome.PASSED]))
                grade.write_whole(str(folder / f"{submission}.json"), json.dumps(result))
            self.assertEqual(merge.main([name]), 0)
            lines = (folder / "grades.csv").read_text().splitlines()
            self.assertEqual(lines, ["submission,score,max_score,one <&>,two", "ada,7,7,5,2", '"bob, b",2,7,0,2'])
            suites = xml.etree.ElementTree.parse(folder / "class.xml").getroot()
            self.assertEqual([suite.get("failures") for suite in suites], ["0", "1"])
            (folder / "eve.json").write_text("{")
            self.assertEqual(merge.main([name]), 3)


class Packs(unittest.TestCase):
    def test_what_the_page_judges(self):
        test = {"name": "one", "points": 1, "type": ["ls"]}
        cases = {
            "check: the page can't judge by that": {"check": "file:name"},
            "(?i)ls: the page has other regular expressions": {"match": ["(?i)ls"]},
        }
        for fault, more in cases.items():
            self.assertEqual(pack.fault_of({"programs": ["ls"], "test": [test | more]}), fault)
        self.assertIsNone(pack.fault_of({"programs": ["ls"], "test": [test | {"not": ["^(?:a|b)$"]}]}))
        self.assertEqual(pack.fault_of({"programs": [], "test": [test]}), "programs: one is wanted")


if __name__ == "__main__":
    unittest.main()
