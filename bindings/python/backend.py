"""Builds the wheel and the sdist of nm_set by PEP 517 and PEP 660, with the standard library alone:
it needs no network and no package.

A C compiler makes one extension: the calls for keys, and inside it the library for C, whose proved
code is assembly text. From Python 3.11 on it is compiled for the limited API, and before for the
running Python alone. Without the headers of Python, or with NM_SET_PURE in the environment, the
wheel is for each Python: it has the library beside the modules, and makes those calls by ctypes.
Without a compiler the wheel has no library, and the module looks for one that c/install has
installed.
"""

from __future__ import annotations

import base64
import gzip
import hashlib
import io
import os
import re
import shlex
import shutil
import subprocess
import sys
import sysconfig
import tarfile
import tempfile
import zipfile
from collections.abc import Iterator
from pathlib import Path
from typing import Optional

HERE = Path(__file__).resolve().parent
NATIVE = HERE / "native"  # in an sdist: the library's files, as the repository has them
TIME = (1980, 1, 1, 0, 0, 0)
LIMITED = (3, 11)  # the first Python whose limited API has buffers
LIST = "dist/files.txt"


def _value(name: str) -> str:
    """What a line of pyproject.toml gives a name."""
    text = (HERE / "pyproject.toml").read_text(encoding="utf-8")
    found = re.search(rf'^{name} = "(.*)"$', text, re.MULTILINE)
    if not found:
        raise ValueError(f"pyproject.toml has no {name}")
    return found[1]


def _metadata() -> str:
    lines = [
        "Metadata-Version: 2.1",
        f"Name: {_value('name')}",
        f"Version: {_value('version')}",
        f"Summary: {_value('description')}",
        f"Requires-Python: {_value('requires-python')}",
        "License: MIT",
        "Author: Tigqomuzo maintainers",
        "Description-Content-Type: text/markdown",
    ]
    readme = (HERE / "README.md").read_text(encoding="utf-8")
    return "\n".join(lines) + "\n\n" + readme


# ---- what is compiled ----


def _top() -> Path:
    """The folder from which the list of files counts, in the sdist or in the checkout."""
    return NATIVE if NATIVE.is_dir() else HERE.parent.parent


def _listed(kind: str) -> list[str]:
    """The places of the library's files of a kind."""
    file = _top() / LIST
    if not file.is_file():
        return []
    lines = file.read_text(encoding="utf-8").splitlines()
    return [place for word, _, place in (line.partition(" ") for line in lines) if word == kind]


def _compare_texts() -> None:
    """Raises an error if an assembly text has not the checksum of the list."""
    for line in _listed("sum"):
        place, _, listed = line.partition(" ")
        text = _top() / place
        if place not in _listed("source") or not text.is_file():
            continue
        found = hashlib.sha256(text.read_bytes()).hexdigest()
        if found != listed:
            raise ValueError(
                f"{place} is not the text that c/build has made: its SHA-256 is {found}, and {LIST} "
                f"has {listed}. Take both files from the repository again, or make both by c/build"
            )


def _header() -> list[str]:
    """The words by which the compiler finds nm_set.h."""
    own = _top() / "c" / "include"
    if (own / "nm_set.h").is_file():
        return [f"-I{own}"]
    if shutil.which("pkg-config") is None:
        return []
    asked = ["pkg-config", "--cflags", "nm_set"]
    told = subprocess.run(asked, capture_output=True, text=True, check=False)
    return shlex.split(told.stdout)


def _is_limited() -> bool:
    return sys.version_info >= LIMITED and not sysconfig.get_config_var("Py_GIL_DISABLED")


def _native_name() -> str:
    return f"_native{'.abi3.so' if _is_limited() else sysconfig.get_config_var('EXT_SUFFIX')}"


def _library_name() -> str:
    """The soname of the library, which before 1.0.0 has two numbers."""
    major, minor, _ = _value("version").split(".")
    return f"libnm_set.so.{f'0.{minor}' if major == '0' else major}"


def _platform(files: list[Path]) -> str:
    """For which machines these compiled files are. Those for Linux run with the greatest version of
    glibc that they name, and later ones: each names the versions whose symbols it needs."""
    platform = re.sub(r"[-.]", "_", sysconfig.get_platform())
    texts = [path.read_bytes() for path in files]
    named = [found for text in texts for found in re.findall(rb"\0GLIBC_(\d+)\.(\d+)", text)]
    if not named or not platform.startswith("linux_"):
        return platform
    major, minor = max((int(major), int(minor)) for major, minor in named)
    return f"manylinux_{major}_{minor}_{platform[len('linux_'):]}"


def _tag(files: list[Path]) -> str:
    """For which Pythons and machines a wheel with these compiled files is."""
    if not files:
        return "py3-none-any"
    platform = _platform(files)
    if _native_name() not in [path.name for path in files]:
        return f"py3-none-{platform}"
    python = "cp" + "".join(map(str, LIMITED if _is_limited() else sys.version_info[:2]))
    return f"{python}-{'abi3' if _is_limited() else python}-{platform}"


def _run(what: str, made: Path, *words: str) -> Optional[Path]:
    """Makes a shared object by the compiler, or returns None after it has printed why it cannot."""
    compiler = os.environ.get("CC") or sysconfig.get_config_var("CC") or "cc"
    command = [*shlex.split(compiler), "-O2", "-fPIC", "-shared", "-pthread", *_header(), *words]
    try:
        told = subprocess.run(
            [*command, "-o", str(made)], capture_output=True, text=True, check=False
        )
        fault = told.stderr.strip() if told.returncode else ""
    except OSError as error:
        fault = str(error)
    if fault or not made.is_file():
        print(f"nm_set: {what} not compiled: {fault}", file=sys.stderr)
        return None
    return made


def _library_words() -> list[str]:
    """The words by which the compiler makes the library of its listed sources, or none if it
    cannot be made."""
    sources = [str(_top() / place) for place in _listed("source")]
    missing = [source for source in sources if not Path(source).is_file()]
    if missing or not sources:
        print(f"nm_set: the library was not compiled: no {missing or LIST}", file=sys.stderr)
        return []
    _compare_texts()
    return ["-std=gnu11", *sources, "-Wl,-z,relro", "-Wl,-z,now"]


def _compile_library(folder: Path, library: list[str]) -> Optional[Path]:
    """The library as a file of its own, or None if it cannot be made."""
    name = _library_name()
    words = [*library, f"-Wl,-soname,{name}", "-Wl,-z,defs"]
    return _run("the library was", folder / name, *words) if library else None


def _compile_extension(folder: Path, library: list[str]) -> Optional[Path]:
    """The calls in C with the library inside, or None if they cannot be compiled."""
    if os.environ.get("NM_SET_PURE"):
        return None
    limited = "".join(f"{number:02x}" for number in LIMITED)
    words = [f"-DPy_LIMITED_API=0x{limited}0000"] if _is_limited() else []
    words += [f"-I{sysconfig.get_path(name)}" for name in ("include", "platinclude")]
    words += [*map(str, sorted((HERE / "nm_set").glob("_native*.c"))), *library]
    return _run("the calls are those by ctypes, because C was", folder / _native_name(), *words)


def _compiled(folder: Path) -> list[Path]:
    """What can be compiled, in this folder: the extension, or else the library."""
    library = _library_words()
    made = _compile_extension(folder, library) or _compile_library(folder, library)
    return [made] if made else []


# ---- the wheel ----


def _licence() -> Iterator[bytes]:
    for folder in (HERE, HERE.parent.parent):
        if (folder / "LICENSE").is_file():
            yield (folder / "LICENSE").read_bytes()
            return


def _described(stem: str, tag: str) -> dict[str, bytes]:
    """What a wheel has beside its modules."""
    files = {f"{stem}.dist-info/LICENSE": text for text in _licence()}
    pure = "true" if tag.endswith("any") else "false"
    wheel = f"Wheel-Version: 1.0\nGenerator: nm_set\nRoot-Is-Purelib: {pure}\nTag: {tag}\n"
    files[f"{stem}.dist-info/METADATA"] = _metadata().encode()
    files[f"{stem}.dist-info/WHEEL"] = wheel.encode()
    return files


def _row(name: str, content: bytes) -> str:
    digest = base64.urlsafe_b64encode(hashlib.sha256(content).digest()).rstrip(b"=").decode()
    return f"{name},sha256={digest},{len(content)}\n"


def _is_program(path: str) -> bool:
    return ".so" in Path(path).suffixes


def _write(folder: str, modules: dict[str, bytes], tag: str) -> str:
    """Writes a wheel with these files into a folder, and returns its name."""
    stem = f"{_value('name')}-{_value('version')}"
    files = {**modules, **_described(stem, tag)}
    record = f"{stem}.dist-info/RECORD"
    rows = "".join(_row(name, content) for name, content in files.items()) + f"{record},,\n"
    name = f"{stem}-{tag}.whl"
    with zipfile.ZipFile(Path(folder) / name, "w", zipfile.ZIP_DEFLATED) as wheel:
        for path, content in [*files.items(), (record, rows.encode())]:
            it = zipfile.ZipInfo(path, TIME)
            it.external_attr = (0o755 if _is_program(path) else 0o644) << 16
            wheel.writestr(it, content)
    return name


def build_wheel(
    wheel_directory: str,
    config_settings: object = None,
    metadata_directory: object = None,
) -> str:
    """Writes the wheel into a folder, and returns its name."""
    sources = sorted((HERE / "nm_set").glob("*.py")) + [HERE / "nm_set" / "py.typed"]
    files = {f"nm_set/{path.name}": path.read_bytes() for path in sources}
    with tempfile.TemporaryDirectory() as room:
        made = _compiled(Path(room))
        files.update({f"nm_set/{path.name}": path.read_bytes() for path in made})
        tag = _tag(made)
    return _write(wheel_directory, files, tag)


def build_editable(
    wheel_directory: str,
    config_settings: object = None,
    metadata_directory: object = None,
) -> str:
    """Writes a wheel by which Python finds the module in its place, and compiles there what the
    module needs. Returns its name."""
    _compiled(HERE / "nm_set")
    path = f"{HERE}\n".encode()
    return _write(wheel_directory, {"nm_set.pth": path}, "py3-none-any")


# ---- the sdist ----


def _sources() -> dict[str, bytes]:
    """The files of the sdist: those of this folder, and in `native` those of the library."""
    names = ["backend.py", "pyproject.toml", "README.md"]
    for folder, kinds in (("nm_set", ("*.py", "*.c", "*.h", "py.typed")), ("tests", ("*.py",))):
        names += [str(it.relative_to(HERE)) for kind in kinds for it in (HERE / folder).glob(kind)]
    files = {name: (HERE / name).read_bytes() for name in names}
    for place in [LIST, *_listed("source"), *_listed("header")]:
        files[f"native/{place}"] = (_top() / place).read_bytes()
    files.update({"LICENSE": text for text in _licence()})
    files["PKG-INFO"] = _metadata().encode()
    return files


def build_sdist(sdist_directory: str, config_settings: object = None) -> str:
    """Writes the sdist into a folder, always with the same bytes, and returns its name. It has the
    library's code, so that a wheel can be built of it alone."""
    stem = f"{_value('name')}-{_value('version')}"
    whole = io.BytesIO()
    with tarfile.open(fileobj=whole, mode="w", format=tarfile.PAX_FORMAT) as archive:
        for name, content in sorted(_sources().items()):
            entry = tarfile.TarInfo(f"{stem}/{name}")
            entry.size, entry.mode = len(content), 0o644
            archive.addfile(entry, io.BytesIO(content))
    name = f"{stem}.tar.gz"
    (Path(sdist_directory) / name).write_bytes(gzip.compress(whole.getvalue(), mtime=0))
    return name


def get_requires_for_build_wheel(config_settings: object = None) -> list[str]:
    """Nothing is needed."""
    return []


get_requires_for_build_editable = get_requires_for_build_wheel
get_requires_for_build_sdist = get_requires_for_build_wheel
