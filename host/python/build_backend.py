"""Builds the package `reaction` for pip, by the standard library and the machine's C compiler alone.

The engine is the archive that the repository has; the compiler makes a shared object of it.

    python3 build_backend.py FILE        writes the shared object, for tests on the sources
"""

from __future__ import annotations

import base64
import gzip
import hashlib
import io
import os
import platform
import re
import shlex
import shutil
import subprocess
import sys
import tarfile
import tempfile
import zipfile
from pathlib import Path
from typing import Any, Dict, List, NoReturn, Optional

HERE = Path(__file__).resolve().parent
PACKAGE = HERE / "reaction"
OBJECT = "libreaction.so"
# The archive of a source distribution, which has no repository around it.
ENCLOSED = Path("archive") / "libreaction.a"
SUMMARY = "The proved reaction engine of a rigging plugin"
TAG = "py3-none-linux_x86_64"
# All files have this time, so that the same sources make the same bytes.
DAY = (1980, 1, 1, 0, 0, 0)
SECONDS = 315_532_800

NO_ARCHIVE = """There is no archive of the engine, neither {} nor {}.
`rt lib` in crates/abi makes it; REACTION_ARCHIVE_DIR names another folder.
A pip before 21.3 copies this folder before it builds: there REACTION_ARCHIVE_DIR has to name the
repository's folder dist, from the root of the file system on."""

Settings = Optional[Dict[str, Any]]
Folder = Optional[str]


def fail(message: str) -> NoReturn:
    """Ends the build; pip shows the message."""
    raise SystemExit(f"\n{message}\n")


def version() -> str:
    """The version that the package says it is."""
    found = re.search(r'^__version__ = "(.+)"$', (PACKAGE / "__init__.py").read_text("utf-8"), re.MULTILINE)
    return found.group(1) if found else "0"


NAME = f"reaction-{version()}"
INFO = f"{NAME}.dist-info"


def archive() -> Path:
    """The archive, by the rule of host/build.rs; that of a source distribution goes before those."""
    named = os.environ.get("REACTION_ARCHIVE_DIR")
    if named is not None:
        candidates = [Path(named, "libabi.a"), Path(named, "libreaction.a")]
    else:
        root = HERE.parent.parent
        candidates = [root / "crates" / "abi" / "out" / "libabi.a", root / "dist" / "libreaction.a"]
        candidates[:0] = [HERE / ENCLOSED] if (HERE / ENCLOSED).is_file() else []
    there = [path for path in candidates if path.is_file()]
    if not there:
        fail(NO_ARCHIVE.format(*candidates))
    return there[0]


def make_shared_object(path: Path) -> None:
    """Makes the shared object of the archive, all of it, as nothing here asks for its functions yet."""
    if (platform.system(), platform.machine()) != ("Linux", "x86_64"):
        fail(f"The archive is for x86-64 Linux, and this is {platform.machine()} {platform.system()}.")
    compiler = shlex.split(os.environ.get("CC") or "cc")
    if shutil.which(compiler[0]) is None:
        fail(f"There is no C compiler {compiler[0]}: install one, or name it in CC.")
    whole = ["-Wl,--whole-archive", str(archive()), "-Wl,--no-whole-archive"]
    command = [*compiler, "-shared", "-o", str(path), *whole]
    done = subprocess.run(command, stdout=subprocess.PIPE, stderr=subprocess.STDOUT, text=True)
    if done.returncode != 0:
        fail(f"{shlex.join(command)} failed:\n{done.stdout}")


def shared_object() -> bytes:
    """The bytes of the shared object."""
    with tempfile.TemporaryDirectory() as folder:
        path = Path(folder, OBJECT)
        make_shared_object(path)
        return path.read_bytes()


def metadata() -> bytes:
    """The package's METADATA, which is the PKG-INFO of a source distribution too."""
    head = [
        "Metadata-Version: 2.1",
        "Name: reaction",
        f"Version: {version()}",
        f"Summary: {SUMMARY}",
        "Requires-Python: >=3.9",
        "Description-Content-Type: text/markdown",
    ]
    return ("\n".join(head) + "\n\n" + (HERE / "README.md").read_text("utf-8")).encode()


def infos() -> Dict[str, bytes]:
    """The files that describe a wheel, but for its RECORD."""
    wheel = ["Wheel-Version: 1.0", f"Generator: {NAME}", "Root-Is-Purelib: false", f"Tag: {TAG}"]
    return {f"{INFO}/METADATA": metadata(), f"{INFO}/WHEEL": ("\n".join(wheel) + "\n").encode()}


def sources() -> List[Path]:
    """The files of the package, but for the shared object."""
    return sorted([*PACKAGE.glob("*.py"), PACKAGE / "py.typed"])


def write_wheel(folder: str, files: Dict[str, bytes]) -> str:
    """Writes a wheel with these files, what describes them, and its RECORD; returns its name."""
    files = {**files, **infos()}
    record = ""
    for path, content in files.items():
        digest = base64.urlsafe_b64encode(hashlib.sha256(content).digest()).rstrip(b"=").decode()
        record += f"{path},sha256={digest},{len(content)}\n"
    files[f"{INFO}/RECORD"] = f"{record}{INFO}/RECORD,,\n".encode()
    name = f"{NAME}-{TAG}.whl"
    with zipfile.ZipFile(Path(folder, name), "w") as wheel:
        for path, content in files.items():
            entry = zipfile.ZipInfo(path, DAY)
            # A plain file, executable only where it is loaded.
            entry.external_attr = (0o100755 if path.endswith(".so") else 0o100644) << 16
            wheel.writestr(entry, content)
    return name


def build_wheel(
    wheel_directory: str, config_settings: Settings = None, metadata_directory: Folder = None
) -> str:
    """A wheel of the package with the shared object in it."""
    files = {f"reaction/{path.name}": path.read_bytes() for path in sources()}
    return write_wheel(wheel_directory, {**files, f"reaction/{OBJECT}": shared_object()})


def build_editable(
    wheel_directory: str, config_settings: Settings = None, metadata_directory: Folder = None
) -> str:
    """A wheel that names this folder; the shared object is made beside the sources."""
    make_shared_object(PACKAGE / OBJECT)
    return write_wheel(wheel_directory, {"reaction.pth": f"{HERE}\n".encode()})


def prepare_metadata_for_build_wheel(metadata_directory: str, config_settings: Settings = None) -> str:
    """What describes the wheel, without the wheel."""
    for path, content in infos().items():
        target = Path(metadata_directory, path)
        target.parent.mkdir(exist_ok=True)
        target.write_bytes(content)
    return INFO


prepare_metadata_for_build_editable = prepare_metadata_for_build_wheel


def build_sdist(sdist_directory: str, config_settings: Settings = None) -> str:
    """The sources with the archive, so that they can be installed where the repository is not."""
    paths = [*sources(), HERE / "README.md", HERE / "build_backend.py", HERE / "pyproject.toml"]
    files = {str(path.relative_to(HERE)): path.read_bytes() for path in paths}
    files.update({str(ENCLOSED): archive().read_bytes(), "PKG-INFO": metadata()})
    name = f"{NAME}.tar.gz"
    packed = gzip.GzipFile(Path(sdist_directory, name), "wb", mtime=SECONDS)
    with packed, tarfile.open(fileobj=packed, mode="w", format=tarfile.PAX_FORMAT) as sdist:
        for path, content in sorted(files.items()):
            entry = tarfile.TarInfo(f"{NAME}/{path}")
            entry.size, entry.mtime = len(content), SECONDS
            sdist.addfile(entry, io.BytesIO(content))
    return name


if __name__ == "__main__":
    if len(sys.argv) != 2:
        sys.exit("usage: build_backend.py FILE")
    make_shared_object(Path(sys.argv[1]))
