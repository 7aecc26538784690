"""Builds the package with nothing but Python's own library: the shared library, and a wheel around it.

The shared library is linked from libredstartgilt.a, the proved library, or taken as it is. REDSTARTGILT_LIB, where set, names
a folder that has libredstartgilt.so or libredstartgilt.a; otherwise `rt lib`, run in crates/redstartgilt, proves what
has changed since it was last proved and writes the archive.

    python3 build_backend.py FOLDER    writes libredstartgilt.so to a folder
"""

from __future__ import annotations

import base64
import hashlib
import io
import os
import re
import shutil
import subprocess
import sys
import sysconfig
import tarfile
import tempfile
import zipfile
from pathlib import Path
from typing import Any, Dict, Optional

HERE = Path(__file__).resolve().parent
TOP = HERE.parent.parent
PACKAGE = "redstartgilt"
FOLDER = TOP / "crates" / PACKAGE
ARCHIVE = "libredstartgilt.a"
LIBRARY = "libredstartgilt.so"
FOLDER_VARIABLE = "REDSTARTGILT_LIB"


def _fail(message: str) -> SystemExit:
    return SystemExit(f"{PACKAGE}: {message}")


def _say(message: str) -> None:
    """To the terminal itself where there is one, as pip holds back what a build writes."""
    try:
        with open("/dev/tty", "w") as terminal:
            terminal.write(f"{PACKAGE}: {message}\n")
    except OSError:
        print(f"{PACKAGE}: {message}", file=sys.stderr)


def _archive() -> Path:
    """The archive that `rt` writes, proved."""
    if not (TOP / "crates.txt").is_file():
        raise _fail(f"{HERE} is not in the repository of the library; set {FOLDER_VARIABLE} to the folder of {ARCHIVE}")
    _say("rt proves the library; the first time this takes some minutes")
    try:
        proved = subprocess.run(["rt", "lib"], cwd=FOLDER)
    except OSError as error:
        raise _fail(
            f"cannot run `rt`, the Rattle toolchain's command ({error}): put it on the path, or set {FOLDER_VARIABLE} to a "
            f"folder that has {ARCHIVE} or {LIBRARY}"
        ) from None
    if proved.returncode:
        raise _fail(f"`rt lib` in {FOLDER} failed")
    return FOLDER / "out" / ARCHIVE


def _source() -> Path:
    """The archive or the shared library to take."""
    folder = os.environ.get(FOLDER_VARIABLE)
    if not folder:
        return _archive()
    # pip builds in this folder, and a relative one is meant from where the user is.
    for start in (Path(os.environ.get("PWD", ".")), Path.cwd()):
        for name in (LIBRARY, ARCHIVE):
            if (start / folder / name).is_file():
                return start / folder / name
    raise _fail(f"{FOLDER_VARIABLE} is {folder}, which has neither {LIBRARY} nor {ARCHIVE}")


def build_library(folder: Path) -> Path:
    """Writes the shared library to a folder."""
    source, library = _source(), folder / LIBRARY
    if source.name == LIBRARY:
        shutil.copyfile(source, library)
        return library
    command = ["gcc", "-shared", "-Wl,--whole-archive", str(source), "-Wl,--no-whole-archive", "-o", str(library)]
    try:
        linked = subprocess.run(command)
    except OSError as error:
        raise _fail(f"cannot run gcc, which links {LIBRARY} ({error})") from None
    if linked.returncode:
        raise _fail(f"gcc did not link {LIBRARY} from {source}")
    return library


def _project(field: str) -> str:
    """A field of pyproject.toml that is a string."""
    found = re.search(rf'^{field} = "(.*)"$', (HERE / "pyproject.toml").read_text(), re.MULTILINE)
    assert found is not None, field
    return found.group(1)


def _metadata() -> str:
    return (
        f"Metadata-Version: 2.1\nName: {PACKAGE}\nVersion: {_project('version')}\nSummary: {_project('description')}\n"
        f"License: MIT\nRequires-Python: {_project('requires-python')}\nDescription-Content-Type: text/markdown\n\n"
        + (HERE / "README.md").read_text()
    )


def _files() -> Dict[str, bytes]:
    """The package's files, without the shared library."""
    found = [file for file in sorted((HERE / PACKAGE).iterdir()) if file.suffix in (".py", ".typed")]
    return {f"{PACKAGE}/{file.name}": file.read_bytes() for file in found}


def _name() -> str:
    return f"{PACKAGE}-{_project('version')}"


def _tag() -> str:
    return "py3-none-" + re.sub(r"[-.]", "_", sysconfig.get_platform())


def _info() -> Dict[str, bytes]:
    """What a wheel says of itself."""
    form = f"Wheel-Version: 1.0\nGenerator: build_backend\nRoot-Is-Purelib: false\nTag: {_tag()}\n"
    return {f"{_name()}.dist-info/METADATA": _metadata().encode(), f"{_name()}.dist-info/WHEEL": form.encode()}


def prepare_metadata_for_build_wheel(metadata_directory: str, config_settings: Any = None) -> str:
    """Without this pip would build the wheel twice, and so prove twice."""
    for path, data in _info().items():
        file = Path(metadata_directory) / path
        file.parent.mkdir(exist_ok=True)
        file.write_bytes(data)
    return f"{_name()}.dist-info"


def build_wheel(wheel_directory: str, config_settings: Any = None, metadata_directory: Optional[str] = None) -> str:
    """The wheel of this machine's platform, for every Python from 3.9 on."""
    files = {**_files(), **_info()}
    with tempfile.TemporaryDirectory() as folder:
        files[f"{PACKAGE}/{LIBRARY}"] = build_library(Path(folder)).read_bytes()
    record = f"{_name()}.dist-info/RECORD"
    sums = "".join(f"{path},sha256={_sum(data)},{len(data)}\n" for path, data in files.items())
    files[record] = f"{sums}{record},,\n".encode()
    wheel = f"{_name()}-{_tag()}.whl"
    with zipfile.ZipFile(Path(wheel_directory) / wheel, "w", zipfile.ZIP_DEFLATED) as archive:
        for path, data in files.items():
            archive.writestr(path, data)
    return wheel


def _sum(data: bytes) -> str:
    return base64.urlsafe_b64encode(hashlib.sha256(data).digest()).rstrip(b"=").decode()


def build_sdist(sdist_directory: str, config_settings: Any = None) -> str:
    """The sources, without the proved library: what installs them must have it by REDSTARTGILT_LIB."""
    name = _name()
    files = _files()
    files.update({path: (HERE / path).read_bytes() for path in ("pyproject.toml", "build_backend.py", "README.md")})
    files["PKG-INFO"] = _metadata().encode()
    with tarfile.open(Path(sdist_directory) / f"{name}.tar.gz", "w:gz") as archive:
        for path, data in files.items():
            entry = tarfile.TarInfo(f"{name}/{path}")
            entry.size = len(data)
            archive.addfile(entry, io.BytesIO(data))
    return f"{name}.tar.gz"


if __name__ == "__main__":
    if len(sys.argv) != 2:
        raise SystemExit(__doc__)
    print(build_library(Path(sys.argv[1])))
