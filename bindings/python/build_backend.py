#!/usr/bin/env python3
"""Builds the package by the C compiler of this machine, with nothing but Python: what pip calls to make a wheel, and

    python3 build_backend.py FOLDER [--refuse]    puts the built package into FOLDER, for PYTHONPATH; src will do
    python3 build_backend.py --wheel FOLDER       makes a wheel in FOLDER, and prints its name
    python3 build_backend.py --sdist FOLDER       packs the sources there, those of the library among them

It takes the archive that bindings/build.sh makes, and lets that make it where there is none, but the kit: ARCHIVE names another archive. CC names
the compiler, and CFLAGS more of its flags. With --refuse each request of the library for memory can be refused, for the tests. If CC compiles
for another processor, it takes the headers that Debian's package libpython3-dev has for that: PYTHON_ROOT names a folder that this was unpacked
into with what it depends on, / by default.

A wheel is for each Linux of manylinux2014, as `readelf` sees of the extension, or is not made: WHEEL_PLATFORM names another platform, for
which nothing is looked at. The same sources, archive and compiler give the same bytes: the time of all files is SOURCE_DATE_EPOCH, or else
that of the commit, or of CHANGELOG.md. What pyproject.toml says of the project is said there alone.
"""

from __future__ import annotations

import ast
import base64
import gzip
import hashlib
import io
import os
import re
import shlex
import shutil
import stat
import subprocess
import sys
import sysconfig
import tarfile
import tempfile
import time
import zipfile
from pathlib import Path
from typing import Any, Dict, Iterator, List, NoReturn, Optional, Tuple

HERE = Path(__file__).resolve().parent
TOP = HERE.parent.parent
PACKAGE = "line_protocol"
EXTENSION = "_fast.abi3.so"
NAME = "influxdb_line_protocol"

MANYLINUX = "manylinux2014"
LOADERS = {"x86_64": "ld-linux-x86-64.so.2", "aarch64": "ld-linux-aarch64.so.1"}
"""The processors of its platforms that wheels are made for, and the loader of each."""

NEWEST = {"GLIBC": (2, 17), "GCC": (4, 8, 0)}
"""The newest versions of symbols that a machine of such a platform has for sure (PEP 599)."""

LIBRARIES = frozenset("libc.so.6 libm.so.6 libpthread.so.0 libdl.so.2 librt.so.1 libgcc_s.so.1".split())
"""Libraries that it has, beside the loader."""

ARCHIVE = TOP / "crates" / "lp_c" / "out" / "liblp_c.a"
KIT = "/opt/rattle/bin"

PACKED = ["CHANGELOG.md", "LICENSE-APACHE", "LICENSE-MIT", "bin/setup", "bin/take", "launch.sh", "include/influxdb_line_protocol.h", "bindings/build.sh",
          *(f"bindings/c/{name}" for name in ("empty.c", "heap.c", "shown.map")), "docs/python.md",
          *(f"bindings/python/{name}" for name in ("README.md", "build_backend.py", "example.py", "fast", "pyproject.toml", "shown.map", "src"))]
"""What the sources of the package are, beside the crates: what builds it and the library, and its page."""

OLDEST = 315532800
"""The year 1980, before which a zip file has no times."""


def _fail(why: str) -> NoReturn:
    raise SystemExit(f"influxdb-line-protocol: {why}")


def version() -> str:
    """The newest version that CHANGELOG.md names."""
    if not (TOP / "CHANGELOG.md").is_file():
        _fail(f"{HERE} is no folder of the repository, which has the library: pip builds there from version 21.3 on")
    found = re.search(r"^## (\d+\.\d+\.\d+)$", (TOP / "CHANGELOG.md").read_text(encoding="utf-8"), flags=re.M)
    if not found:
        _fail("CHANGELOG.md names no version")
    return found[1]


def _archive() -> Path:
    """The library. It is made where there is none, but the kit."""
    given = os.environ.get("ARCHIVE")
    if given and not Path(given).is_file():
        _fail(f"there is no {given}, which ARCHIVE names as the library")
    if given or ARCHIVE.is_file():
        return Path(given or ARCHIVE).absolute()
    if shutil.which("rt", path=os.pathsep.join([os.environ.get("PATH", os.defpath), KIT])) is None:
        _fail(
            f"there is no {ARCHIVE}, which is the library, and no rt, which proves and makes it: set ARCHIVE to a liblp_c.a that was made "
            f"elsewhere, install a wheel, or put the Rattle kit into {Path(KIT).parent}")
    if subprocess.run([str(TOP / "bindings" / "build.sh")], stdout=sys.stderr, check=False).returncode != 0 or not ARCHIVE.is_file():
        _fail(f"{TOP / 'bindings' / 'build.sh'} did not make {ARCHIVE}, which is the library; what it said is above")
    return ARCHIVE


def _compiler() -> List[str]:
    """The words that call the compiler."""
    return shlex.split(os.environ.get("CC") or "cc")


def _own_platform() -> str:
    """The platform of machines like this one."""
    return re.sub("[-.]", "_", sysconfig.get_platform())


def _platform() -> str:
    """The platform that the compiler compiles for."""
    own = _own_platform()
    try:
        said = subprocess.run(
            [*_compiler(), "-dumpmachine"], stdout=subprocess.PIPE, stderr=subprocess.DEVNULL, universal_newlines=True, check=True).stdout
    except (OSError, subprocess.CalledProcessError):
        return own
    machine = said.partition("-")[0]
    return f"linux_{machine}" if "linux" in said and machine in LOADERS and own.replace("linux_", "") in LOADERS else own


def _headers() -> List[str]:
    """The flags that name the folders of Python's headers: of this Python, or of Debian's for another processor."""
    if _platform() == _own_platform():
        include = Path(sysconfig.get_path("include"))
        if not (include / "Python.h").is_file():
            _fail(f"there is no {include / 'Python.h'}: the headers of Python come with it, or in Debian with python3-dev")
        return [f"-I{include}"]
    machine = _platform().replace("linux_", "")
    root = Path(os.environ.get("PYTHON_ROOT") or "/", "usr", "include")
    found = sorted(root.glob(f"{machine}-linux-gnu/python3.*/pyconfig.h"))
    if not found:
        _fail(f"there is no {root}/{machine}-linux-gnu/python3.*/pyconfig.h, by which the extension is compiled for {machine}: Debian's package "
              "libpython3-dev for that processor has it, and PYTHON_ROOT names a folder into which it was unpacked")
    return [f"-I{root / found[-1].parent.name}", f"-idirafter{root}"]


def _needed() -> Tuple[Path, List[str]]:
    """The archive, and the flags that name the folders of Python's headers."""
    version()
    return _archive(), _headers()


def compile_extension(out: Path, is_refusing: bool = False) -> None:
    """Compiles the extension into a file."""
    archive, headers = _needed()
    compiler = _compiler()
    flags = ["-std=c11", "-O2", "-Wall", "-Wextra", "-fPIC", "-shared", *shlex.split(os.environ.get("CFLAGS", ""))]
    shown = ["-DLP_REFUSE"] if is_refusing else [f"-Wl,--version-script,{HERE / 'shown.map'}"]
    sources = [*sorted((HERE / "fast").glob("*.c")), TOP / "bindings" / "c" / "heap.c"]
    command = [*compiler, *flags, *shown, *headers, f"-I{TOP / 'include'}", *map(str, sources), str(archive), "-o", str(out)]
    if shutil.which(compiler[0]) is None:
        _fail(f"there is no {compiler[0]}, which compiles the extension: CC names another C compiler")
    done = subprocess.run(command, stdout=subprocess.PIPE, stderr=subprocess.STDOUT, universal_newlines=True, check=False)
    if done.returncode != 0:
        _fail(f"{' '.join(command)}\n{done.stdout}")


def check_version(extension: Path) -> None:
    """Ends if the library in an extension that this Python loads is of another version than the package."""
    if _platform() != _own_platform():
        return
    program = ("import sys, importlib.util as util; spec = util.spec_from_file_location('_fast', sys.argv[1]); "
               "fast = util.module_from_spec(spec); spec.loader.exec_module(fast); print(fast.version())")
    done = subprocess.run(
        [sys.executable, "-c", program, str(extension)], stdout=subprocess.PIPE, stderr=subprocess.PIPE, universal_newlines=True, check=False)
    lacks = re.search(r"undefined symbol: (lp_\w+)", done.stderr)
    number = int(done.stdout) if done.stdout.strip().isdigit() else None
    found = version() if number is None else f"{number // 10_000}.{number // 100 % 100}.{number % 100}"
    if lacks or found != version():
        _fail(f"{_archive()} {f'has no {lacks[1]}' if lacks else f'is of version {found}'}, and the package is of version {version()}: "
              "bindings/build.sh makes an archive of this version")


def build_into(folder: Path, is_refusing: bool = False) -> None:
    """Puts the built package into a folder."""
    package = folder / PACKAGE
    package.mkdir(parents=True, exist_ok=True)
    for path in sorted((HERE / "src" / PACKAGE).iterdir()):
        if path.suffix in (".py", ".pyi", ".typed") and package.resolve() != HERE / "src" / PACKAGE:
            shutil.copyfile(path, package / path.name)
    compile_extension(package / EXTENSION, is_refusing)
    check_version(package / EXTENSION)


# What is told of the project.


def project() -> Dict[str, Dict[str, Any]]:
    """The tables of pyproject.toml. Its values are spelled so that they are values of Python too, since 3.8 has no reader of TOML."""
    tables: Dict[str, Dict[str, Any]] = {}
    for told in re.split(r"\n+(?=[\w\[])", (HERE / "pyproject.toml").read_text(encoding="utf-8").strip()):
        if told.startswith("["):
            tables[told.strip("[]")] = table = {}
        else:
            key, value = told.split(" = ", 1)
            table[key] = ast.literal_eval(value)
    return tables


def _told() -> Iterator[Tuple[str, str]]:
    """The lines of METADATA before the page."""
    tables = project()
    own = tables["project"]
    yield from [("Metadata-Version", "2.1"), ("Name", own["name"]), ("Version", version()), ("Summary", own["description"])]
    yield "Home-page", tables["project.urls"]["Homepage"]
    yield "Keywords", ",".join(own["keywords"])
    yield "Maintainer", tables["project.maintainers"]["name"]
    yield "Maintainer-email", tables["project.maintainers"]["email"]
    yield "License", tables["project.license"]["text"]
    yield from (("Classifier", classifier) for classifier in own["classifiers"])
    yield "Requires-Python", own["requires-python"]
    for extra, needed in tables["project.optional-dependencies"].items():
        yield "Provides-Extra", extra
        yield from (("Requires-Dist", f'{one}; extra == "{extra}"') for one in needed)
    yield "Description-Content-Type", "text/markdown; charset=UTF-8"


def metadata() -> str:
    """METADATA: what pyproject.toml says, and the page of the package."""
    lines = "".join(f"{name}: {value}\n" for name, value in _told())
    return lines + "\n" + (HERE / project()["project"]["readme"]).read_text(encoding="utf-8")


def epoch() -> int:
    """The time of all files that are packed, in seconds."""
    given = os.environ.get("SOURCE_DATE_EPOCH")
    if given is None and (TOP / ".git").exists() and shutil.which("git"):
        command = ["git", "-C", str(TOP), "log", "-1", "--format=%ct"]
        given = subprocess.run(command, stdout=subprocess.PIPE, universal_newlines=True, check=False).stdout.strip() or None
    if given is None:
        given = str(int((TOP / "CHANGELOG.md").stat().st_mtime))
    if not re.fullmatch("[0-9]{1,10}", given):
        _fail(f"SOURCE_DATE_EPOCH is {given!r}, and must be a number of seconds")
    return max(int(given), OLDEST)


# A wheel.


def check_extension(extension: Path, machine: str = "x86_64") -> None:
    """Ends if an extension asks for a library, or for a version of a symbol, that not every Linux of manylinux2014 on this processor has."""
    platform = f"{MANYLINUX}_{machine}"
    advice = "build on an older system, or set WHEEL_PLATFORM=linux_x86_64 for a wheel that is for machines like this one alone"
    if shutil.which("readelf") is None:
        _fail(f"there is no readelf, which tells what glibc the wheel asks for: binutils has it. Else {advice}")
    command = ["readelf", "--wide", "--dynamic", "--version-info", "--dyn-syms", str(extension)]
    told = subprocess.run(
        command, stdout=subprocess.PIPE, universal_newlines=True, check=True, env={**os.environ, "LC_ALL": "C"}).stdout
    for library in re.findall(r"\(NEEDED\).*\[(.*)\]", told):
        if library not in {*LIBRARIES, LOADERS[machine]}:
            _fail(f"the extension asks for {library}, which {platform} does not promise: {advice}")
    for family, number in sorted(set(re.findall(r"Name: (GLIBC|GCC)_(\S+)", told))):
        parts = tuple(map(int, number.split("."))) if re.fullmatch(r"\d+(\.\d+)*", number) else None
        if parts is None or parts > NEWEST[family]:
            symbols = sorted(set(re.findall(rf"(\S+)@{family}_{re.escape(number)}(?!\S)", told)))
            has = ".".join(map(str, NEWEST[family]))
            _fail(f"the extension asks for {family}_{number} ({', '.join(symbols)}), and {platform} has {family}_{has}: {advice}")


def _told_platform(extension: Path) -> str:
    """The platform that a wheel with this extension names."""
    given, built_for = os.environ.get("WHEEL_PLATFORM"), _platform()
    machine = built_for.replace("linux_", "")
    if given and not re.fullmatch(r"\w+", given):
        _fail(f"WHEEL_PLATFORM is {given!r}, and must be like linux_x86_64")
    if given or machine not in LOADERS:
        return given or built_for
    check_extension(extension, machine)
    return f"{MANYLINUX}_{machine}"


def _info() -> str:
    return f"{NAME}-{version()}.dist-info"


def _record(contents: Dict[str, bytes]) -> bytes:
    """RECORD: each file with its sum and its length."""
    rows = []
    for path, data in contents.items():
        digest = base64.urlsafe_b64encode(hashlib.sha256(data).digest()).rstrip(b"=").decode()
        rows.append(f"{path},sha256={digest},{len(data)}\n")
    return "".join([*rows, f"{_info()}/RECORD,,\n"]).encode()


def _write_wheel(contents: Dict[str, bytes], folder: str, platform: str) -> str:
    """Makes a wheel of files, and gives its name."""
    tag, info, at = f"cp38-abi3-{platform}", _info(), time.gmtime(epoch())[:6]
    contents = dict(sorted(contents.items()))
    contents[f"{info}/METADATA"] = metadata().encode()
    contents[f"{info}/WHEEL"] = f"Wheel-Version: 1.0\nGenerator: build_backend\nRoot-Is-Purelib: false\nTag: {tag}\n".encode()
    for licence in ("LICENSE-APACHE", "LICENSE-MIT"):
        contents[f"{info}/{licence}"] = (TOP / licence).read_bytes()
    contents[f"{info}/RECORD"] = _record(contents)
    name = f"{NAME}-{version()}-{tag}.whl"
    with zipfile.ZipFile(os.path.join(folder, name), "w", zipfile.ZIP_DEFLATED) as wheel:
        for path, data in contents.items():
            entry = zipfile.ZipInfo(path, at)
            entry.compress_type, entry.create_system, entry.external_attr = zipfile.ZIP_DEFLATED, 3, (stat.S_IFREG | 0o644) << 16
            wheel.writestr(entry, data)
    return name


# The sources.


def _below(crate: str) -> Dict[str, str]:
    """The lines of crates.txt of a crate and of those on which it stands, by their names."""
    lines = {line.split(":")[0].split()[0]: line for line in (TOP / "crates.txt").read_text(encoding="utf-8").splitlines() if ":" in line}
    found: Dict[str, str] = {}
    wanted = [crate]
    while wanted:
        name = wanted.pop()
        if name not in found and (TOP / "crates" / name).is_dir():
            found[name] = lines[name]
            wanted += lines[name].split(":", 1)[1].split()
    return {name: line for name, line in lines.items() if name in found}


def _files_of(place: Path) -> Iterator[Path]:
    """A file, or those of a folder, but for what is made."""
    if place.is_file():
        yield place
        return
    for path in sorted(place.iterdir()):
        if path.name not in ("out", "must-fail", "__pycache__") and not path.name.startswith(".") and path.suffix != ".so":
            yield from _files_of(path)


def _sources() -> Dict[str, Tuple[bytes, bool]]:
    """The bytes of each file of the sources by its name, and whether it is a program."""
    crates = _below("lp_c")
    places = [TOP / name for name in PACKED] + [TOP / "crates" / name for name in crates]
    found = {
        path.relative_to(TOP).as_posix(): (path.read_bytes(), os.access(path, os.X_OK)) for place in places for path in _files_of(place)}
    told = (HERE / "pyproject.toml").read_text(encoding="utf-8")
    told = told.replace('backend-path = ["."]', 'backend-path = ["bindings/python"]').replace('"README.md"', '"bindings/python/README.md"')
    made = {"pyproject.toml": told, "PKG-INFO": metadata(), "crates.txt": "".join(f"{line}\n" for line in crates.values())}
    found.update((name, (text.encode(), False)) for name, text in made.items())
    return dict(sorted(found.items()))


# What pip calls (PEP 517 and PEP 660).


def build_wheel(wheel_directory: str, config_settings: Any = None, metadata_directory: Optional[str] = None) -> str:
    with tempfile.TemporaryDirectory() as folder:
        build_into(Path(folder))
        platform = _told_platform(Path(folder, PACKAGE, EXTENSION))
        contents = {path.relative_to(folder).as_posix(): path.read_bytes() for path in Path(folder).rglob("*") if path.is_file()}
    return _write_wheel(contents, wheel_directory, platform)


def prepare_metadata_for_build_wheel(metadata_directory: str, config_settings: Any = None) -> str:
    _needed()
    folder = Path(metadata_directory) / _info()
    folder.mkdir()
    (folder / "METADATA").write_text(metadata(), encoding="utf-8")
    return folder.name


def build_editable(wheel_directory: str, config_settings: Any = None, metadata_directory: Optional[str] = None) -> str:
    compile_extension(HERE / "src" / PACKAGE / EXTENSION)
    check_version(HERE / "src" / PACKAGE / EXTENSION)
    contents = {f"__editable__.{NAME}.pth": os.fsencode(HERE / "src") + b"\n"}
    return _write_wheel(contents, wheel_directory, _platform())


prepare_metadata_for_build_editable = prepare_metadata_for_build_wheel


def build_sdist(sdist_directory: str, config_settings: Any = None) -> str:
    if not (TOP / "crates.txt").is_file():
        _fail(f"{HERE} is no folder of the repository, which has the library")
    name, made, at = f"{NAME}-{version()}", io.BytesIO(), epoch()
    with tarfile.open(fileobj=made, mode="w", format=tarfile.PAX_FORMAT) as packed:
        for path, (data, is_program) in _sources().items():
            entry = tarfile.TarInfo(f"{name}/{path}")
            entry.size, entry.mtime, entry.mode = len(data), at, 0o755 if is_program else 0o644
            packed.addfile(entry, io.BytesIO(data))
    with open(os.path.join(sdist_directory, f"{name}.tar.gz"), "wb") as file, gzip.GzipFile("", "wb", fileobj=file, mtime=at) as packing:
        packing.write(made.getvalue())
    return f"{name}.tar.gz"


def main(arguments: List[str]) -> None:
    folders = [one for one in arguments if not one.startswith("--")]
    options = [one for one in arguments if one.startswith("--")]
    packers = {"--wheel": build_wheel, "--sdist": build_sdist}
    if len(folders) != 1 or len(options) > 1 or not {*options} <= {"--refuse", *packers}:
        sys.exit("usage: build_backend.py FOLDER [--refuse], or build_backend.py --wheel|--sdist FOLDER")
    if options and options[0] in packers:
        Path(folders[0]).mkdir(parents=True, exist_ok=True)
        print(packers[options[0]](folders[0]))
    else:
        build_into(Path(folders[0]), options == ["--refuse"])


if __name__ == "__main__":
    main(sys.argv[1:])
