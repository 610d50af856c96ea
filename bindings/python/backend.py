"""Packs yam for pip, with the standard library alone (PEP 517 and 660).

    pip install -e bindings/python      # the tree's package, which finds the tree's library
    pip install bindings/python         # a copy, for which YAM_LIBRARY names the library
"""

import base64
import hashlib
import io
import pathlib
import re
import tarfile
import zipfile

HERE = pathlib.Path(__file__).resolve().parent
PACKAGE = "yam"
DESCRIPTION = "pyproject.toml"
FILE_MODE = 0o644


def build_wheel(wheel_directory, config_settings=None, metadata_directory=None):
    """A wheel with a copy of the package."""
    return _wheel(wheel_directory, _package())


def build_editable(wheel_directory, config_settings=None, metadata_directory=None):
    """A wheel that points at the tree."""
    return _wheel(wheel_directory, {f"{PACKAGE}.pth": f"{HERE}\n".encode()})


def build_sdist(sdist_directory, config_settings=None):
    """The package with what packs it."""
    stem = _stem()
    files = {**_package(), "PKG-INFO": _metadata().encode()}
    for name in (DESCRIPTION, pathlib.Path(__file__).name):
        files[name] = (HERE / name).read_bytes()
    with tarfile.open(pathlib.Path(sdist_directory) / f"{stem}.tar.gz", "w:gz") as archive:
        for name, content in files.items():
            entry = tarfile.TarInfo(f"{stem}/{name}")
            entry.size, entry.mode = len(content), FILE_MODE
            archive.addfile(entry, io.BytesIO(content))
    return f"{stem}.tar.gz"


def _project():
    """The fields of pyproject.toml that are strings; Python 3.9 has no reader of that format."""
    text = (HERE / DESCRIPTION).read_text(encoding="utf-8")
    return dict(re.findall(r'^([a-z-]+) = "(.*)"$', text, re.MULTILINE))


def _stem():
    project = _project()
    return f"{project['name']}-{project['version']}"


def _metadata():
    project = _project()
    return (
        f"Metadata-Version: 2.1\nName: {project['name']}\nVersion: {project['version']}\n"
        f"Summary: {project['description']}\nRequires-Python: {project['requires-python']}\n"
    )


def _package():
    places = [*(HERE / PACKAGE).glob("*.py"), HERE / PACKAGE / "py.typed"]
    return {f"{PACKAGE}/{place.name}": place.read_bytes() for place in sorted(places)}


def _wheel(directory, files):
    stem = _stem()
    tag = "py3-none-any"
    info = f"{stem}.dist-info"
    kind = f"Wheel-Version: 1.0\nGenerator: yam\nRoot-Is-Purelib: true\nTag: {tag}\n"
    files = {**files, f"{info}/METADATA": _metadata().encode(), f"{info}/WHEEL": kind.encode()}
    record = ""
    for name, content in files.items():
        digest = base64.urlsafe_b64encode(hashlib.sha256(content).digest()).rstrip(b"=").decode()
        record += f"{name},sha256={digest},{len(content)}\n"
    files[f"{info}/RECORD"] = f"{record}{info}/RECORD,,\n".encode()
    with zipfile.ZipFile(pathlib.Path(directory) / f"{stem}-{tag}.whl", "w") as archive:
        for name, content in files.items():
            archive.writestr(name, content)
    return f"{stem}-{tag}.whl"
