"""What is around the calls: which library is loaded, the table of remedies, the wheel."""

import csv
import hashlib
import base64
import inspect
import io
import os
import pathlib
import re
import shutil
import subprocess
import sys
import tempfile
import unittest
import zipfile

HERE = pathlib.Path(__file__).resolve().parent
SOURCES = HERE.parent
TOP = SOURCES.parent
if not os.environ.get("HWTOOL_TEST_INSTALLED"):
    sys.path.insert(0, str(SOURCES))

import hwtool  # noqa: E402
from hwtool import _library, _remedies  # noqa: E402


class Readme(unittest.TestCase):
    def test_calls(self):
        """README lists each call of the package as it is made, and no other."""
        rows = re.findall(r"^- (`\w+\(.*?`): ", (SOURCES / "README.md").read_text(encoding="utf-8"), re.M)
        public = {name: getattr(hwtool, name) for name in hwtool.__all__ if inspect.isfunction(getattr(hwtool, name))}
        calls = [
            f"{name}{inspect.Signature([it.replace(annotation=it.empty) for it in inspect.signature(call).parameters.values()])}"
            for name, call in public.items()
        ]  # fmt: skip
        self.assertEqual(sorted(re.findall(r"`(.*?)`", " ".join(rows))), sorted(re.sub(r"b''", 'b""', it) for it in calls))

    def test_answers(self):
        """It names each type of an answer."""
        text = (SOURCES / "README.md").read_text(encoding="utf-8")
        types = [it for it in hwtool.__all__ if inspect.isclass(getattr(hwtool, it)) and it not in ("Kind", "ProofKind", "Case")]
        self.assertEqual([it for it in types if not re.search(rf"\b{it}\b", text)], [])


class Remedies(unittest.TestCase):
    def test_up_to_date(self):
        """The table is what docs/REFUSALS.md makes."""
        done = subprocess.run([sys.executable, str(SOURCES / "make_remedies.py"), "--check"], capture_output=True, text=True)
        self.assertEqual((done.returncode, done.stderr), (0, ""))

    def test_rows(self):
        """Each row of the document is a case, and no other is."""
        rows = re.findall(r"^\| (\d+) (\w+) \|", (TOP / "docs" / "REFUSALS.md").read_text(encoding="utf-8"), re.M)
        cases = [(str(number), case.name) for number in _remedies.CASES for case in hwtool.explain(number)]
        self.assertEqual(sorted(cases), sorted(rows))

    def test_own_words(self):
        """A remedy stands for itself."""
        for number in _remedies.CASES:
            for case in hwtool.explain(number):
                self.assertTrue(case.part and case.name and case.when and case.remedy)
                # 27 is never told: the number of what refuses the item is
                self.assertTrue(number == 27 or not re.match("as [0-9t]", case.remedy), case)

    def test_names(self):
        """The library names each refusal of the table as the table does, and none beside."""
        for number in [*range(400), 2**32 - 1, 2**32, 2**32 + 20, -1, 10**30]:
            cases = hwtool.explain(number)
            if cases:
                self.assertEqual({case.name for case in cases}, {hwtool.name(number)})
            else:
                with self.assertRaisesRegex(LookupError, f"no refusal has the number {number}$"):
                    hwtool.name(number)

    def test_explain(self):
        # as `hwtool explain 23` tells, and 22, whose first remedy is that of 21
        self.assertEqual(
            hwtool.explain(23),
            (
                (
                    "Texts of models", "UnknownOperator", "the form is no word of the format",
                    "use a form that FORMATS lists; for `udivo` put `zero`: unsigned division never overflows",
                ),
            ),
        )
        self.assertEqual(
            hwtool.explain(22)[0].remedy,
            "`hwtool fit FILE >NEW` makes them words, and what is judged over that holds of the model; "
            "in Yosys, `memory_map` before `write_btor`",
        )
        self.assertEqual(hwtool.explain(7000), ())


class Library(unittest.TestCase):
    def setUp(self):
        folder = tempfile.TemporaryDirectory()
        self.addCleanup(folder.cleanup)
        self.folder = pathlib.Path(folder.name)

    def loaded(self, package, library=None):
        """What stands on standard output and error where a package is loaded that stands in this folder."""
        environment = {name: value for name, value in os.environ.items() if name not in ("HWTOOL_LIBRARY", "PYTHONPATH")}
        if library is not None:
            environment["HWTOOL_LIBRARY"] = str(library)
        code = f"import sys; sys.path.insert(0, {str(package)!r}); import hwtool; print(hwtool._library.PLACE, hwtool.name(23))"
        done = subprocess.run([sys.executable, "-c", code], capture_output=True, text=True, env=environment, cwd=self.folder)
        return done.stdout.strip(), done.stderr.strip().split("\n")[-1]

    def copied(self, into):
        """A copy of the package without a library."""
        package = self.folder / into
        ignored = shutil.ignore_patterns("libhwtool.so*", "__pycache__")
        shutil.copytree(pathlib.Path(_library.__file__).parent, package / "hwtool", ignore=ignored)
        return package

    def test_order(self):
        package = self.copied("python")
        real = os.path.realpath(_library.PLACE)
        out, err = self.loaded(package)
        if _library.ctypes.util.find_library("hwtool") is None:
            self.assertEqual(out, "")
            self.assertRegex(err, "^ImportError: hwtool: there is no libhwtool.so: HWTOOL_LIBRARY is not set, ")
        (self.folder / "release").mkdir()
        released = self.folder / "release" / "libhwtool.so"
        shutil.copy(real, released)
        self.assertEqual(self.loaded(package), (f"{released} UnknownOperator", ""))
        beside = package / "hwtool" / "libhwtool.so.2"
        shutil.copy(real, beside)
        self.assertEqual(self.loaded(package), (f"{beside} UnknownOperator", ""))
        self.assertEqual(self.loaded(package, released), (f"{released} UnknownOperator", ""))
        self.assertEqual(self.loaded(package, ""), (f"{beside} UnknownOperator", ""))

    def test_in_another_folder(self):
        """A folder `release` is that of a repository only where the package stands in `python`."""
        package = self.copied("lib/site-packages")
        (self.folder / "lib" / "release").mkdir()
        (self.folder / "lib" / "release" / "libhwtool.so").write_bytes(b"none")
        self.assertNotIn("can't be loaded", self.loaded(package)[1])

    def test_not_loaded(self):
        """A library that is named, or stands beside the package, and is none is not passed over."""
        package = self.copied("python")
        missing = self.folder / "nothere.so"
        out, err = self.loaded(package, missing)
        self.assertEqual((out, err.split(" can't be loaded: ")[0]), ("", f"ImportError: hwtool: {missing}"))
        broken = package / "hwtool" / "libhwtool.so"
        broken.write_bytes(b"")
        out, err = self.loaded(package)
        self.assertEqual((out, err.split(" can't be loaded: ")[0]), ("", f"ImportError: hwtool: {broken}"))
        other = _library.ctypes.util.find_library("c")
        self.assertEqual(self.loaded(package, other), ("", f"ImportError: hwtool: {other} has no call hwtool_check_btor"))

    def test_version(self):
        self.assertRegex(hwtool.version(), r"^\d+\.\d+\.\d+")
        self.assertEqual(hwtool.version(), hwtool.__version__)
        header = (TOP / "include" / "hwtool.h").read_text(encoding="utf-8")
        self.assertEqual(re.search(r'#define HWTOOL_VERSION "(.*)"', header)[1], hwtool.__version__)


class Wheel(unittest.TestCase):
    def setUp(self):
        folder = tempfile.TemporaryDirectory()
        self.addCleanup(folder.cleanup)
        self.folder = pathlib.Path(folder.name)

    def made(self, call, library=None):
        """What a call of the backend makes, and what it says; as pip calls it, in the folder of the sources."""
        environment = {**os.environ, "PYTHONDONTWRITEBYTECODE": "1", "HWTOOL_LIBRARY": str(library or _library.PLACE)}
        done = subprocess.run(
            [sys.executable, "-c", f"import wheel_backend; print(wheel_backend.{call}({str(self.folder)!r}))"],
            cwd=SOURCES, capture_output=True, text=True, env=environment,
        )  # fmt: skip
        return done.stdout.strip(), done.stderr.strip()

    def test_wheel(self):
        before = sorted(SOURCES.rglob("*"))
        name, err = self.made("build_wheel")
        self.assertEqual(sorted(SOURCES.rglob("*")), before)
        self.assertEqual(err, "")
        self.assertRegex(name, rf"^hwtool-{re.escape(hwtool.__version__)}-py3-none-linux_(x86_64|aarch64)\.whl$")
        with zipfile.ZipFile(self.folder / name) as wheel:
            self.assertIsNone(wheel.testzip())
            names = wheel.namelist()
            record = next(it for it in names if it.endswith(".dist-info/RECORD"))
            rows = list(csv.reader(io.StringIO(wheel.read(record).decode())))
            self.assertEqual([row[0] for row in rows], names)
            for path, digest, length in rows[:-1]:
                content = wheel.read(path)
                self.assertEqual(digest, "sha256=" + base64.urlsafe_b64encode(hashlib.sha256(content).digest()).decode().rstrip("="))
                self.assertEqual(int(length), len(content))
            self.assertTrue({"hwtool/__init__.py", "hwtool/py.typed", "hwtool/libhwtool.so"} <= set(names))
            self.assertEqual(wheel.read("hwtool/NOTICES"), (TOP / "release" / "NOTICES").read_bytes())
            wheel.extractall(self.folder / "site")
        environment = {name: value for name, value in os.environ.items() if name not in ("HWTOOL_LIBRARY", "PYTHONPATH")}
        code = (
            "import sys; sys.path.insert(0, 'site'); import hwtool, importlib.metadata as m; "
            "print(hwtool._library.PLACE, hwtool.lower(b''), m.version('hwtool'))"
        )
        done = subprocess.run([sys.executable, "-c", code], cwd=self.folder, env=environment, capture_output=True, text=True)
        place = self.folder.resolve() / "site" / "hwtool" / "libhwtool.so"
        self.assertEqual((done.stdout, done.stderr), (f"{place} b'aag 0 0 0 0 0\\n' {hwtool.__version__}\n", ""))

    def test_same_bytes(self):
        first = (self.folder / self.made("build_wheel")[0]).read_bytes()
        self.assertEqual((self.folder / self.made("build_wheel")[0]).read_bytes(), first)

    def test_editable(self):
        name, err = self.made("build_editable")
        self.assertEqual((name, err), (f"hwtool-{hwtool.__version__}-py3-none-any.whl", ""))
        with zipfile.ZipFile(self.folder / name) as wheel:
            self.assertEqual(wheel.read("hwtool.pth").decode(), f"{SOURCES}\n")

    def test_no_library(self):
        missing = self.folder / "nothere.so"
        told = f"hwtool: {missing} is not there; set HWTOOL_LIBRARY to the libhwtool.so that is to be installed"
        self.assertEqual(self.made("build_wheel", missing), ("", told))
        missing.write_bytes(b"no library")
        self.assertEqual(self.made("build_wheel", missing), ("", f"hwtool: {missing} is no library of linux_x86_64 or linux_aarch64"))
        self.assertIn("UnsupportedOperation", self.made("build_sdist")[1])


if __name__ == "__main__":
    unittest.main()
