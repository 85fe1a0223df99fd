"""Makes the wheel of the package, for pip (PEP 517 and 660). It needs the standard library alone, leaves nothing in its folder,
and takes along the library that the repository has released, or the one that HWTOOL_LIBRARY names, with the terms of what is in it. The
same files make the same wheel."""

import base64
import hashlib
import os
import pathlib
import re
import zipfile

HERE = pathlib.Path(__file__).resolve().parent
PACKAGE = HERE / "hwtool"
(VERSION,) = re.findall(r'^__version__ = "(.*)"$', (PACKAGE / "__init__.py").read_text(encoding="utf-8"), re.M)
INFO = f"hwtool-{VERSION}.dist-info"
# The platforms of libraries, by the number of their machine in ELF.
PLATFORMS = {62: "linux_x86_64", 183: "linux_aarch64"}


class UnsupportedOperation(Exception):
    """What this backend does not make."""


def _library():
    """The library that the wheel takes along, the terms of what is in it, and the platform that it is of."""
    file = pathlib.Path(os.environ.get("HWTOOL_LIBRARY") or HERE.parent / "release" / "libhwtool.so")
    if not file.is_file():
        raise SystemExit(f"hwtool: {file} is not there; set HWTOOL_LIBRARY to the libhwtool.so that is to be installed")
    library = file.read_bytes()
    platform = PLATFORMS.get(int.from_bytes(library[18:20], "little"))
    if library[:4] != b"\x7fELF" or platform is None:
        raise SystemExit(f"hwtool: {file} is no library of {' or '.join(PLATFORMS.values())}")
    notices = next((it for it in (file.parent / "NOTICES", HERE.parent / "release" / "NOTICES") if it.is_file()), None)
    if notices is None:
        raise SystemExit(f"hwtool: no NOTICES, the terms of what is in {file}, stands beside it")
    return library, notices.read_bytes(), platform


def _metadata(tag):
    """What a wheel says of itself."""
    head = f"""\
Metadata-Version: 2.1
Name: hwtool
Version: {VERSION}
Summary: BTOR2 models, AIGER circuits and their witnesses: proved calls
License: MIT
Requires-Python: >=3.9
Description-Content-Type: text/markdown

"""
    yield "METADATA", head.encode() + (HERE / "README.md").read_bytes()
    yield "WHEEL", f"Wheel-Version: 1.0\nGenerator: hwtool\nRoot-Is-Purelib: false\nTag: {tag}\n".encode()
    if (HERE.parent / "LICENSE").is_file():
        yield "LICENSE", (HERE.parent / "LICENSE").read_bytes()


def _write(folder, tag, files):
    """Writes a wheel of these files, and answers its name."""
    name, record = f"hwtool-{VERSION}-{tag}.whl", ""
    with zipfile.ZipFile(pathlib.Path(folder) / name, "w") as wheel:

        def put(path, content):
            info = zipfile.ZipInfo(path)
            info.external_attr = 0o100644 << 16
            wheel.writestr(info, content, zipfile.ZIP_DEFLATED)

        for path, content in [*files, *((f"{INFO}/{part}", content) for part, content in _metadata(tag))]:
            digest = base64.urlsafe_b64encode(hashlib.sha256(content).digest()).rstrip(b"=").decode()
            record += f"{path},sha256={digest},{len(content)}\n"
            put(path, content)
        put(f"{INFO}/RECORD", f"{record}{INFO}/RECORD,,\n")
    return name


def build_wheel(wheel_directory, config_settings=None, metadata_directory=None):
    """The package, with the library beside it."""
    library, notices, platform = _library()
    sources = sorted(it for it in PACKAGE.iterdir() if it.suffix == ".py" or it.name == "py.typed")
    files = [*((f"hwtool/{it.name}", it.read_bytes()) for it in sources), ("hwtool/libhwtool.so", library), ("hwtool/NOTICES", notices)]
    return _write(wheel_directory, f"py3-none-{platform}", files)


def build_editable(wheel_directory, config_settings=None, metadata_directory=None):
    """A pointer to the package where it stands, which takes the library from release/."""
    return _write(wheel_directory, "py3-none-any", [("hwtool.pth", f"{HERE}\n".encode())])


def build_sdist(sdist_directory, config_settings=None):
    """None is made: the sources are the repository."""
    raise UnsupportedOperation("the sources of hwtool are its repository")
