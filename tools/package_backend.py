"""Builds the Python package `tolweddi` for pip, which calls these functions by their names (PEP 517, and PEP 660 for
`pip install -e`), as pyproject.toml says. The same sources give the same bytes."""
from __future__ import annotations

import base64
import gzip
import hashlib
import io
import pathlib
import tarfile
import tomllib
import zipfile
from typing import Any

TOOLS = pathlib.Path(__file__).resolve().parent
ROOT = TOOLS.parent
PACKAGE = TOOLS / "tolweddi"
# the earliest time that a wheel can tell
TIME = (1980, 1, 1, 0, 0, 0)
WHEEL = "Wheel-Version: 1.0\nGenerator: tolweddi\nRoot-Is-Purelib: true\nTag: py3-none-any\n"
Files = dict[str, bytes]


def project() -> dict[str, Any]:
    return tomllib.loads((ROOT / "pyproject.toml").read_text())["project"]


def name_and_version() -> str:
    return f"{project()['name']}-{project()['version']}"


def metadata() -> bytes:
    fields = {"Name": "name", "Version": "version", "Summary": "description", "Requires-Python": "requires-python"}
    lines = ["Metadata-Version: 2.1", *(f"{field}: {project()[key]}" for field, key in fields.items())]
    return "".join(f"{line}\n" for line in lines).encode()


def modules() -> Files:
    """The files of the package, by their places below tools/."""
    paths = [path for path in PACKAGE.rglob("*") if path.suffix == ".py" or path.name == "py.typed"]
    if not paths:
        raise FileNotFoundError(f"{PACKAGE} has no modules")
    return {path.relative_to(TOOLS).as_posix(): path.read_bytes() for path in paths}


def record(files: Files, its_name: str) -> bytes:
    """The list of a wheel: each file's place, sum and size, and its own place."""
    lines = []
    for place, content in sorted(files.items()):
        digest = base64.urlsafe_b64encode(hashlib.sha256(content).digest()).rstrip(b"=").decode()
        lines.append(f"{place},sha256={digest},{len(content)}")
    return "".join(f"{line}\n" for line in [*lines, f"{its_name},,"]).encode()


def write_wheel(folder: str, files: Files) -> str:
    about = f"{name_and_version()}.dist-info"
    files = {**files, f"{about}/METADATA": metadata(), f"{about}/WHEEL": WHEEL.encode()}
    files[f"{about}/RECORD"] = record(files, f"{about}/RECORD")
    name = f"{name_and_version()}-py3-none-any.whl"
    with zipfile.ZipFile(pathlib.Path(folder) / name, "w", zipfile.ZIP_DEFLATED) as wheel:
        for place, content in sorted(files.items()):
            entry = zipfile.ZipInfo(place, TIME)
            entry.external_attr = 0o100644 << 16
            entry.compress_type = zipfile.ZIP_DEFLATED
            wheel.writestr(entry, content)
    return name


def build_wheel(wheel_directory: str, config_settings: Any = None, metadata_directory: str | None = None) -> str:
    return write_wheel(wheel_directory, modules())


def build_editable(wheel_directory: str, config_settings: Any = None, metadata_directory: str | None = None) -> str:
    """A wheel that has Python look for the package where it stands. (It finds the other modules of tools/ too.)"""
    return write_wheel(wheel_directory, {"tolweddi.pth": f"{TOOLS}\n".encode()})


def build_sdist(sdist_directory: str, config_settings: Any = None) -> str:
    """The sources of the package with what builds it."""
    top = name_and_version()
    files = {f"tools/{place}": content for place, content in modules().items()}
    files |= {place: (ROOT / place).read_bytes() for place in ("pyproject.toml", f"tools/{pathlib.Path(__file__).name}")}
    files["PKG-INFO"] = metadata()
    packed = io.BytesIO()
    with tarfile.open(fileobj=packed, mode="w", format=tarfile.PAX_FORMAT) as archive:
        for place, content in sorted(files.items()):
            entry = tarfile.TarInfo(f"{top}/{place}")
            entry.size = len(content)
            archive.addfile(entry, io.BytesIO(content))
    (pathlib.Path(sdist_directory) / f"{top}.tar.gz").write_bytes(gzip.compress(packed.getvalue(), mtime=0))
    return f"{top}.tar.gz"


def get_requires_for_build_wheel(config_settings: Any = None) -> list[str]:
    return []


get_requires_for_build_editable = get_requires_for_build_wheel
get_requires_for_build_sdist = get_requires_for_build_wheel
