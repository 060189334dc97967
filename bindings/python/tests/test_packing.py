"""What build_backend.py packs: the same bytes wherever it stands, what METADATA tells, and which wheels it does not make."""

import base64
import csv
import email
import hashlib
import importlib.util
import io
import os
import shutil
import subprocess
import sys
import tarfile
import tempfile
import unittest
import zipfile
from pathlib import Path

try:
    import tomllib
except ImportError:
    tomllib = None

TOP = Path(__file__).resolve().parents[3]
BACKEND = TOP / "bindings" / "python" / "build_backend.py"
CC, ARCHIVE = os.environ.get("CC") or "cc", os.environ.get("ARCHIVE")
TIME = "1700000000"

spec = importlib.util.spec_from_file_location("build_backend", BACKEND)
backend = importlib.util.module_from_spec(spec)
spec.loader.exec_module(backend)


def copy_sources(place):
    """Copies what a wheel is built of, and gives the backend there."""
    for name in ("bindings/python", "bindings/c", "include"):
        shutil.copytree(TOP / name, place / name, ignore=shutil.ignore_patterns("out", "__pycache__", "*.so"))
    for name in ("CHANGELOG.md", "LICENSE-APACHE", "LICENSE-MIT"):
        shutil.copyfile(TOP / name, place / name)
    return place / "bindings" / "python" / "build_backend.py"


def run_backend(backend_file, *words, umask=0o022, **variables):
    """Runs the backend, which compiles quickly, and is watched by no sanitizer. A variable of None is not set."""
    without = dict.fromkeys(("LD_PRELOAD", "SOURCE_DATE_EPOCH", "WHEEL_PLATFORM"))
    env = {name: value for name, value in {**os.environ, **without, "CFLAGS": "-O0", **variables}.items() if value is not None}
    return subprocess.run(
        ["sh", "-c", 'umask "$0" && exec "$@"', oct(umask)[2:], sys.executable, "-B", str(backend_file), *map(str, words)],
        env=env, capture_output=True, text=True, check=False)


@unittest.skipUnless(ARCHIVE and shutil.which(CC) and shutil.which("readelf"), "there is no ARCHIVE, no C compiler or no readelf")
class Wheels(unittest.TestCase):
    @classmethod
    def setUpClass(cls):
        folder = tempfile.TemporaryDirectory()
        cls.addClassCleanup(folder.cleanup)
        cls.folder = Path(folder.name)
        cls.wheels = []
        for place, words in (("one", {}), ("another place", {"umask": 0o077, "TZ": "Asia/Tokyo"})):
            file = copy_sources(cls.folder / place)
            said = run_backend(file, "--wheel", cls.folder / place / "made", SOURCE_DATE_EPOCH=TIME, **words)
            if said.returncode != 0:
                raise AssertionError(said.stderr)
            cls.wheels.append(cls.folder / place / "made" / said.stdout.strip())
        cls.wheel = zipfile.ZipFile(cls.wheels[0])
        cls.addClassCleanup(cls.wheel.close)

    def in_info(self, name):
        """A file of dist-info, as text."""
        return self.wheel.read(f"influxdb_line_protocol-{backend.version()}.dist-info/{name}").decode()

    def test_the_same_bytes_wherever_it_is_built(self):
        names = {wheel.name for wheel in self.wheels}
        self.assertEqual(names, {f"influxdb_line_protocol-{backend.version()}-cp38-abi3-manylinux2014_x86_64.whl"})
        self.assertEqual(self.wheels[0].read_bytes(), self.wheels[1].read_bytes())
        for entry in self.wheel.infolist():
            with self.subTest(file=entry.filename):
                self.assertEqual((entry.date_time, entry.external_attr >> 16, entry.create_system), ((2023, 11, 14, 22, 13, 20), 0o100644, 3))

    def test_what_the_wheel_tells(self):
        self.assertEqual(self.in_info("METADATA"), backend.metadata())
        self.assertEqual(email.message_from_string(self.in_info("WHEEL"))["Tag"], "cp38-abi3-manylinux2014_x86_64")
        for licence in ("LICENSE-APACHE", "LICENSE-MIT"):
            self.assertEqual(self.in_info(licence), (TOP / licence).read_text(encoding="utf-8"))

    def test_each_file_has_its_sum(self):
        told = {name: (digest, size) for name, digest, size in csv.reader(io.StringIO(self.in_info("RECORD")))}
        self.assertEqual(list(told), self.wheel.namelist())
        for name, (digest, size) in told.items():
            data = self.wheel.read(name)
            sum_of = "sha256=" + base64.urlsafe_b64encode(hashlib.sha256(data).digest()).rstrip(b"=").decode()
            self.assertEqual((digest, size), ("", "") if name.endswith("/RECORD") else (sum_of, str(len(data))), name)

    def test_the_package_is_whole(self):
        package = TOP / "bindings" / "python" / "src" / "line_protocol"
        sources = {f"line_protocol/{path.name}" for path in package.iterdir() if path.suffix in (".py", ".pyi", ".typed")}
        self.assertEqual({name for name in self.wheel.namelist() if "dist-info" not in name}, {*sources, "line_protocol/_fast.abi3.so"})

    def test_another_platform(self):
        file = self.folder / "one" / "bindings" / "python" / "build_backend.py"
        said = run_backend(file, "--wheel", self.folder / "own", WHEEL_PLATFORM="linux_x86_64")
        self.assertEqual(said.stdout, f"influxdb_line_protocol-{backend.version()}-cp38-abi3-linux_x86_64.whl\n", said.stderr)
        for words, why in (({"WHEEL_PLATFORM": "a-b"}, "WHEEL_PLATFORM is 'a-b', and must be like linux_x86_64"),
                           ({"SOURCE_DATE_EPOCH": "now"}, "SOURCE_DATE_EPOCH is 'now', and must be a number of seconds"),
                           ({"ARCHIVE": "/no/such.a"}, "there is no /no/such.a")):
            said = run_backend(file, "--wheel", self.folder / "no", **words)
            with self.subTest(words=words):
                self.assertEqual((said.returncode, said.stdout, said.stderr.count("\n")), (1, "", 1))
                self.assertIn(f"influxdb-line-protocol: {why}", said.stderr)

    def test_another_processor(self):
        """Where the compiler is one for ARM, this Python's headers are not taken."""
        file, stub = self.folder / "one" / "bindings" / "python" / "build_backend.py", self.folder / "stub"
        stub.write_text("#!/bin/sh\necho aarch64-linux-gnu\n")
        stub.chmod(0o755)
        said = run_backend(file, "--wheel", self.folder / "no", CC=str(stub), PYTHON_ROOT=str(self.folder))
        self.assertEqual((said.returncode, said.stdout, said.stderr.count("\n")), (1, "", 1))
        self.assertIn(f"there is no {self.folder}/usr/include/aarch64-linux-gnu/python3.*/pyconfig.h", said.stderr)


class Sources(unittest.TestCase):
    """The packed sources, unpacked where no archive is."""

    RT = '#!/bin/sh\necho "proved by a stub"\nmkdir -p out\n[ "$(basename "$PWD")" != lp_c ] || cp "$BUILT" out/liblp_c.a\n'

    @classmethod
    def setUpClass(cls):
        folder = tempfile.TemporaryDirectory()
        cls.addClassCleanup(folder.cleanup)
        cls.folder = Path(folder.name)
        for place, words in (("one", {}), ("two", {"umask": 0o077, "TZ": "Asia/Tokyo"})):
            said = run_backend(BACKEND, "--sdist", cls.folder / place, SOURCE_DATE_EPOCH=TIME, **words)
            if (said.returncode, said.stdout) != (0, f"influxdb_line_protocol-{backend.version()}.tar.gz\n"):
                raise AssertionError(said.stderr)
        cls.packed = cls.folder / "one" / said.stdout.strip()
        with tarfile.open(cls.packed) as packed:
            cls.entries = packed.getmembers()
            packed.extractall(cls.folder)
        cls.top = cls.folder / cls.packed.name[: -len(".tar.gz")]
        cls.file = cls.top / "bindings" / "python" / "build_backend.py"
        cls.file.write_text(cls.file.read_text().replace("/opt/rattle/bin", "/no/kit/bin"))

    def test_the_same_bytes_each_time(self):
        self.assertEqual(self.packed.read_bytes(), (self.folder / "two" / self.packed.name).read_bytes())
        for entry in self.entries:
            told = (entry.mtime, entry.uid, entry.gid, entry.uname, entry.mode, entry.isfile())
            self.assertEqual(told, (int(TIME), 0, 0, "", 0o755 if os.access(self.folder / entry.name, os.X_OK) else 0o644, True), entry.name)

    def test_what_is_packed(self):
        names = [entry.name.split("/", 1)[1] for entry in self.entries]
        self.assertEqual(names, sorted(names))
        crates = {name.split("/")[1] for name in names if name.startswith("crates/")}
        lines = (self.top / "crates.txt").read_text().splitlines()
        self.assertEqual({line.split(":")[0].split()[0] for line in lines}, crates)
        self.assertTrue({"lp_c", "lp_format", "influxdb_line_protocol"} <= crates)
        self.assertFalse({"lp_relay", "lp_checks"} & crates)
        self.assertEqual([name for name in names if "/out/" in name or name.endswith((".so", ".pyc"))], [])
        self.assertEqual((self.top / "PKG-INFO").read_text(encoding="utf-8"), backend.metadata())

    def test_nothing_to_build_of(self):
        for words in ({"ARCHIVE": None, "PATH": "/usr/bin:/bin"}, {"ARCHIVE": "", "PATH": "/usr/bin:/bin"}):
            said = run_backend(self.file, "--wheel", self.folder / "no", **words)
            self.assertEqual((said.returncode, said.stdout), (1, ""))
            self.assertRegex(said.stderr, r"\Ainfluxdb-line-protocol: there is no /.*liblp_c\.a, which is the library, and no rt, which proves "
                             r"and makes it: set ARCHIVE to a liblp_c\.a .*, install a wheel, or put the Rattle kit into /no/kit\n\Z")

    @unittest.skipUnless(ARCHIVE and shutil.which(CC) and shutil.which("bash"), "there is no ARCHIVE, no C compiler or no bash")
    def test_built_by_the_kit_or_of_an_archive(self):
        kit = self.folder / "kit"
        kit.mkdir()
        (kit / "rt").write_text(self.RT)
        (kit / "rt").chmod(0o755)
        failing = {"ARCHIVE": None, "PATH": f"{kit}:/usr/bin:/bin", "BUILT": "/no/such.a"}
        said = run_backend(self.file, "--wheel", self.folder / "no", **failing)
        self.assertEqual(said.returncode, 1)
        self.assertRegex(said.stderr, r"\ninfluxdb-line-protocol: /.*/build\.sh did not make /.*, which is the library; what it said is above\n\Z")
        for words in ({"ARCHIVE": ARCHIVE}, {**failing, "BUILT": ARCHIVE}, {"ARCHIVE": None}):
            said = run_backend(self.file, "--wheel", self.folder / "made", WHEEL_PLATFORM="linux_x86_64", **words)
            self.assertEqual(said.stdout, f"influxdb_line_protocol-{backend.version()}-cp38-abi3-linux_x86_64.whl\n", said.stderr)
        shutil.rmtree(self.top / "crates" / "lp_c" / "out")

    @unittest.skipUnless(ARCHIVE and shutil.which(CC), "there is no ARCHIVE or no C compiler")
    def test_an_editable_wheel_has_the_way_to_the_sources(self):
        program = "import build_backend, sys; print(build_backend.build_editable(sys.argv[1]))"
        made = subprocess.run(
            [sys.executable, "-B", "-c", program, str(self.folder)], cwd=self.file.parent, env={**os.environ, "CFLAGS": "-O0"},
            capture_output=True, text=True, check=True)
        with zipfile.ZipFile(self.folder / made.stdout.strip()) as wheel:
            self.assertEqual(
                [name for name in wheel.namelist() if "dist-info" not in name], ["__editable__.influxdb_line_protocol.pth"])
            self.assertEqual(wheel.read("__editable__.influxdb_line_protocol.pth").decode(), f"{self.file.parent / 'src'}\n")
        self.assertTrue((self.file.parent / "src" / "line_protocol" / "_fast.abi3.so").is_file())


class Metadata(unittest.TestCase):
    TOLD = email.message_from_string(backend.metadata())

    def test_the_page_is_the_description(self):
        page = (BACKEND.parent / "README.md").read_text(encoding="utf-8")
        self.assertEqual(self.TOLD.get_payload(), page)
        self.assertEqual(self.TOLD["Description-Content-Type"], "text/markdown; charset=UTF-8")

    def test_what_is_told(self):
        self.assertEqual((self.TOLD["Name"], self.TOLD["Version"]), ("influxdb-line-protocol", backend.version()))
        self.assertEqual((self.TOLD["License"], self.TOLD["Requires-Python"]), ("MIT OR Apache-2.0", ">=3.8"))
        self.assertEqual(self.TOLD.get_all("Provides-Extra"), ["numpy", "pandas", "dask"])
        self.assertIn('pandas; extra == "pandas"', self.TOLD.get_all("Requires-Dist"))

    @unittest.skipIf(tomllib is None, "Python has no reader of TOML")
    def test_pyproject_is_read_as_it_is(self):
        text = (BACKEND.parent / "pyproject.toml").read_text(encoding="utf-8")
        own = tomllib.loads(text)["project"]
        [maintainer] = own.pop("maintainers")
        parts = {f"project.{name}": own.pop(name) for name in ("license", "urls", "optional-dependencies")}
        tables = backend.project()
        tables.pop("build-system")
        self.assertEqual(tables, {"project": own, "project.maintainers": maintainer, **parts})


@unittest.skipUnless(shutil.which(CC) and shutil.which("readelf"), "there is no C compiler or no readelf")
class Platforms(unittest.TestCase):
    def extension_over(self, version, library="libc.so.6"):
        """An extension that asks for a symbol of this version of a library."""
        folder = tempfile.TemporaryDirectory()
        self.addCleanup(folder.cleanup)
        place = Path(folder.name)
        (place / "map").write_text(f"{version} {{ newer_call; }};\n")
        for name, text in (("lib", "void newer_call(void) {}\n"), ("made", "void newer_call(void);\nvoid made(void) { newer_call(); }\n")):
            (place / f"{name}.c").write_text(text)
        command = [CC, "-shared", "-fPIC", "-nostdlib"]
        subprocess.run(
            [*command, f"-Wl,-soname,{library}", f"-Wl,--version-script,{place / 'map'}", place / "lib.c", "-o", place / "lib.so"], check=True)
        subprocess.run([*command, place / "made.c", place / "lib.so", "-o", place / "made.so"], check=True)
        return place / "made.so"

    def test_what_manylinux_has(self):
        for version in ("GLIBC_2.2.5", "GLIBC_2.17", "GCC_4.8.0"):
            backend.check_extension(self.extension_over(version))

    def test_what_it_has_on_arm64(self):
        backend.check_extension(self.extension_over("GLIBC_2.17", "ld-linux-aarch64.so.1"), "aarch64")
        with self.assertRaisesRegex(SystemExit, r"asks for ld-linux-x86-64\.so\.2, which manylinux2014_aarch64 does not promise"):
            backend.check_extension(self.extension_over("GLIBC_2.17", "ld-linux-x86-64.so.2"), "aarch64")

    def test_what_it_has_not(self):
        for words, why in (
                (("GLIBC_2.18",), r"asks for GLIBC_2\.18 \(newer_call\), and manylinux2014_x86_64 has GLIBC_2\.17: build on an older system"),
                (("GLIBC_2.100",), r"asks for GLIBC_2\.100 \(newer_call\)"), (("GLIBC_3",), r"asks for GLIBC_3 \(newer_call\)"),
                (("GLIBC_PRIVATE",), r"asks for GLIBC_PRIVATE \(newer_call\)"), (("GCC_5.0",), r"asks for GCC_5\.0 \(newer_call\)"),
                (("GLIBC_2.2.5", "libasan.so.8"), r"asks for libasan\.so\.8, which manylinux2014_x86_64 does not promise")):
            with self.subTest(words=words), self.assertRaisesRegex(SystemExit, why):
                backend.check_extension(self.extension_over(*words))
