"""Builds the wheel for pip (PEP 517). A backend of our own needs no package from a registry: setuptools before
version 70 needs `wheel`, and pip fetches both unless it is told not to."""
from __future__ import annotations

import base64
import hashlib
import pathlib
import tomllib
import zipfile

FOLDER = pathlib.Path(__file__).resolve().parent
WHEEL = "Wheel-Version: 1.0\nGenerator: build_wheel\nRoot-Is-Purelib: true\nTag: py3-none-any\n"


def _metadata(project: dict[str, str]) -> str:
    return (
        f"Metadata-Version: 2.1\nName: {project['name']}\nVersion: {project['version']}\n"
        f"Summary: {project['description']}\nRequires-Python: {project['requires-python']}\n"
    )


def _record(files: dict[str, bytes], own: str) -> bytes:
    """The wheel's list of its files with their digests, its own line without one."""
    lines = []
    for name, data in files.items():
        digest = base64.urlsafe_b64encode(hashlib.sha256(data).digest()).rstrip(b"=").decode()
        lines.append(f"{name},sha256={digest},{len(data)}\n")
    return "".join([*lines, f"{own},,\n"]).encode()


def build_wheel(wheel_directory: str, config_settings: object = None, metadata_directory: object = None) -> str:
    """Writes the wheel to the folder and answers its name."""
    project = tomllib.loads((FOLDER / "pyproject.toml").read_text())["project"]
    stem = f"{project['name']}-{project['version']}"
    sources = [*FOLDER.glob("taskgraph/*.py"), FOLDER / "taskgraph/py.typed"]
    files = {path.relative_to(FOLDER).as_posix(): path.read_bytes() for path in sorted(sources)}
    files[f"{stem}.dist-info/METADATA"] = _metadata(project).encode()
    files[f"{stem}.dist-info/WHEEL"] = WHEEL.encode()
    record = f"{stem}.dist-info/RECORD"
    files[record] = _record(files, record)
    with zipfile.ZipFile(pathlib.Path(wheel_directory, f"{stem}-py3-none-any.whl"), "w", zipfile.ZIP_DEFLATED) as wheel:
        for name, data in files.items():
            wheel.writestr(name, data)
    return f"{stem}-py3-none-any.whl"
