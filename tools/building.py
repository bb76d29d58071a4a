"""Builds the wheel of cobtool for pip and pipx, with the standard library alone: no network and no setuptools is needed.

pyproject.toml names this module as its build backend (PEP 517). The wheel has the package, the program `cobtool`, its
manual page, and its completion for bash; the source archive has what the wheel is built of.
"""
import base64
import hashlib
import io
import os
import tarfile
import zipfile

from cobench_tools import VERSION, guide

HERE = os.path.dirname(os.path.abspath(__file__))
NAME = f"cobtool-{VERSION}"
SUMMARY = "Checks, exports and explains CANopen networks that are written as scripts for cobench."
METADATA = f"Metadata-Version: 2.1\nName: cobtool\nVersion: {VERSION}\nSummary: {SUMMARY}\nRequires-Python: >=3.8\n"
WHEEL = "Wheel-Version: 1.0\nGenerator: cobtool\nRoot-Is-Purelib: true\nTag: py3-none-any\n"
ENTRIES = "[console_scripts]\ncobtool = cobench_tools.main:main\n"


def package_files():
    """The files of the package, by their names in the wheel."""
    files = {}
    for folder, folders, names in os.walk(os.path.join(HERE, "cobench_tools")):
        folders[:] = sorted(name for name in folders if name != "__pycache__")
        for name in sorted(names):
            path = os.path.join(folder, name)
            with open(path, "rb") as file:
                files[os.path.relpath(path, HERE).replace(os.sep, "/")] = file.read()
    return files


def wheel_files():
    """All files of the wheel but its record."""
    files = package_files()
    files[f"{NAME}.data/data/share/man/man1/cobtool.1"] = guide.manual().encode()
    files[f"{NAME}.data/data/share/bash-completion/completions/cobtool"] = guide.completion().encode()
    for name, text in (("METADATA", METADATA), ("WHEEL", WHEEL), ("entry_points.txt", ENTRIES)):
        files[f"{NAME}.dist-info/{name}"] = text.encode()
    return files


def record_of(files):
    """The record of a wheel: the digest and the size of each file."""
    lines = []
    for name, data in files.items():
        digest = base64.urlsafe_b64encode(hashlib.sha256(data).digest()).rstrip(b"=").decode()
        lines.append(f"{name},sha256={digest},{len(data)}\n")
    return "".join(lines + [f"{NAME}.dist-info/RECORD,,\n"])


def build_wheel(wheel_directory, config_settings=None, metadata_directory=None):
    """Writes the wheel into a folder, and gives its name."""
    files, name = wheel_files(), f"{NAME}-py3-none-any.whl"
    files[f"{NAME}.dist-info/RECORD"] = record_of(files).encode()
    with zipfile.ZipFile(os.path.join(wheel_directory, name), "w", zipfile.ZIP_DEFLATED) as wheel:
        for path, data in files.items():
            wheel.writestr(zipfile.ZipInfo(path, (2000, 1, 1, 0, 0, 0)), data, zipfile.ZIP_DEFLATED)
    return name


def source_files():
    """The files of the source archive, of which the wheel can be built."""
    files = {"PKG-INFO": METADATA.encode(), **package_files()}
    for name in ("pyproject.toml", "building.py", "README.md", "cobtool"):
        with open(os.path.join(HERE, name), "rb") as file:
            files[name] = file.read()
    return files


def build_sdist(sdist_directory, config_settings=None):
    """Writes the source archive into a folder, and gives its name."""
    name = f"{NAME}.tar.gz"
    with tarfile.open(os.path.join(sdist_directory, name), "w:gz", format=tarfile.PAX_FORMAT) as archive:
        for path, data in source_files().items():
            about = tarfile.TarInfo(f"{NAME}/{path}")
            about.size, about.mode = len(data), 0o755 if path == "cobtool" else 0o644
            archive.addfile(about, io.BytesIO(data))
    return name
