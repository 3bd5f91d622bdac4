"""Builds the package's wheel and its source archive with the standard library alone, so that pip
needs no network.

The shared library of out/ at the top of the checkout, or of FAULTSIM_LIBRARY, goes into the wheel.
The wheel's tag has the C library that it needs, and its version ends in +unproved if the library's
release does. An editable package is that of the checkout, with its out/.
"""

import base64
import ctypes
import hashlib
import io
import os
import pathlib
import platform
import re
import tarfile
import zipfile

HERE = pathlib.Path(__file__).resolve().parent
NAME = "faultsim"
PACKAGE = HERE / "src" / NAME
VERSION = re.search(r'^__version__ = "(.*)"$', (PACKAGE / "__init__.py").read_text(), re.M)[1]
SUMMARY = "Fault simulation of combinational circuits and of circuits with full scan"


def _library():
    named = os.environ.get("FAULTSIM_LIBRARY")
    path = pathlib.Path(named) if named else HERE.parents[1] / "out" / "libfaultsim.so"
    if not path.exists():
        raise SystemExit(
            f"there is no {path}: contrib/build-library makes it in out/, "
            "or FAULTSIM_LIBRARY names it"
        )
    return path


def _license():
    """The licence of the checkout, or of a source archive."""
    found = (it / "LICENSE" for it in (HERE, HERE.parents[1]) if (it / "LICENSE").exists())
    return next(found).read_bytes()


def _version_of(library):
    """The wheel's version. The library must be of the same release."""
    call = ctypes.CDLL(str(library)).fs_release
    call.restype = ctypes.c_char_p
    release = call().decode()
    if release.split(" ")[0] != VERSION:
        raise SystemExit(f"{library} is of the release {release}, and the package of {VERSION}")
    return f"{VERSION}+unproved" if release.endswith("(unproved)") else VERSION


def _platform_of(library):
    """The wheel's platform: the highest version of the C library that the shared library needs."""
    needs = re.findall(rb"GLIBC_(\d+)\.(\d+)\b", library.read_bytes())
    major, minor = max((int(first), int(second)) for first, second in needs)
    return f"manylinux_{major}_{minor}_{platform.machine()}"


def _metadata(version):
    return (
        f"Metadata-Version: 2.1\nName: {NAME}\nVersion: {version}\nSummary: {SUMMARY}\n"
        "License: MIT\nRequires-Python: >=3.9\n"
    ).encode()


def get_requires_for_build_wheel(config_settings=None):
    return []


def get_requires_for_build_sdist(config_settings=None):
    return []


def get_requires_for_build_editable(config_settings=None):
    return []


def _sources():
    return [it for it in sorted(PACKAGE.iterdir()) if it.suffix in (".py", ".typed")]


def build_wheel(wheel_directory, config_settings=None, metadata_directory=None):
    library = _library()
    files = {f"{NAME}/{path.name}": path.read_bytes() for path in _sources()}
    files[f"{NAME}/libfaultsim.so"] = library.read_bytes()
    return _write(wheel_directory, files, _version_of(library), _platform_of(library))


def build_editable(wheel_directory, config_settings=None, metadata_directory=None):
    files = {f"{NAME}.pth": f"{HERE / 'src'}\n".encode()}
    return _write(wheel_directory, files, VERSION, "any")


def build_sdist(sdist_directory, config_settings=None):
    """Writes the source archive. To build a wheel of it takes FAULTSIM_LIBRARY."""
    files = {f"src/{NAME}/{path.name}": path.read_bytes() for path in _sources()}
    for name in ("backend.py", "pyproject.toml"):
        files[name] = (HERE / name).read_bytes()
    files |= {"LICENSE": _license(), "PKG-INFO": _metadata(VERSION)}
    folder = f"{NAME}-{VERSION}"
    with tarfile.open(pathlib.Path(sdist_directory) / f"{folder}.tar.gz", "w:gz") as made:
        for name, data in files.items():
            entry = tarfile.TarInfo(f"{folder}/{name}")
            entry.size = len(data)
            made.addfile(entry, io.BytesIO(data))
    return f"{folder}.tar.gz"


def _write(wheel_directory, files, version, system):
    """Writes a wheel of these files for a system, or for any. Returns its name."""
    info, tag = f"{NAME}-{version}.dist-info", f"py3-none-{system}"
    files[f"{info}/METADATA"] = _metadata(version)
    files[f"{info}/licenses/LICENSE"] = _license()
    files[f"{info}/WHEEL"] = (
        f"Wheel-Version: 1.0\nGenerator: backend\nRoot-Is-Purelib: {str(system == 'any').lower()}\n"
        f"Tag: {tag}\n"
    ).encode()
    lines = []
    for name, data in files.items():
        digest = base64.urlsafe_b64encode(hashlib.sha256(data).digest()).rstrip(b"=").decode()
        lines.append(f"{name},sha256={digest},{len(data)}\n")
    files[f"{info}/RECORD"] = ("".join(lines) + f"{info}/RECORD,,\n").encode()
    wheel = f"{NAME}-{version}-{tag}.whl"
    with zipfile.ZipFile(pathlib.Path(wheel_directory) / wheel, "w", zipfile.ZIP_DEFLATED) as made:
        for name, data in files.items():
            made.writestr(name, data)
    return wheel
