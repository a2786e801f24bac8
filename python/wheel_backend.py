"""Makes the wheel and the source archive of this package, as pip asks for them, with the standard library alone.

It reads the plain `key = "value"` lines of pyproject.toml and takes every file of the folder `livingstone`.
"""

from __future__ import annotations

import base64
import hashlib
import re
import tarfile
import zipfile
from pathlib import Path
from typing import Any, Dict, List, Tuple

_HERE = Path(__file__).resolve().parent


def _project() -> Tuple[Dict[str, str], Dict[str, str]]:
    """The tables [project] and [project.scripts]."""
    tables: Dict[str, Dict[str, str]] = {}
    table = ""
    for line in (_HERE / "pyproject.toml").read_text(encoding="utf-8").splitlines():
        head = re.fullmatch(r"\[(.+)\]", line)
        pair = re.fullmatch(r'([a-z-]+) = "([^"\\]*)"', line)
        if head:
            table = head.group(1)
        elif pair:
            tables.setdefault(table, {})[pair.group(1)] = pair.group(2)
    return tables["project"], tables["project.scripts"]


def _sources() -> List[Path]:
    found = sorted((_HERE / "livingstone").rglob("*"))
    return [path for path in found if path.suffix in (".py", ".typed")]


def _metadata(project: Dict[str, str]) -> str:
    return (
        f"Metadata-Version: 2.1\nName: {project['name']}\nVersion: {project['version']}\n"
        f"Summary: {project['description']}\nRequires-Python: {project['requires-python']}\n"
    )


def build_wheel(wheel_directory: str, config_settings: Any = None, metadata_directory: Any = None) -> str:
    project, scripts = _project()
    stem = f"{project['name']}-{project['version']}"
    info = f"{stem}.dist-info"
    files = {path.relative_to(_HERE).as_posix(): path.read_bytes() for path in _sources()}
    files[f"{info}/METADATA"] = _metadata(project).encode()
    files[f"{info}/WHEEL"] = b"Wheel-Version: 1.0\nGenerator: livingstone\nRoot-Is-Purelib: true\nTag: py3-none-any\n"
    points = "".join(f"{name} = {place}\n" for name, place in scripts.items())
    files[f"{info}/entry_points.txt"] = f"[console_scripts]\n{points}".encode()
    record = ""
    for name, data in files.items():
        digest = base64.urlsafe_b64encode(hashlib.sha256(data).digest()).rstrip(b"=").decode()
        record += f"{name},sha256={digest},{len(data)}\n"
    files[f"{info}/RECORD"] = f"{record}{info}/RECORD,,\n".encode()
    name = f"{stem}-py3-none-any.whl"
    with zipfile.ZipFile(Path(wheel_directory) / name, "w", zipfile.ZIP_DEFLATED) as wheel:
        for path, data in files.items():
            wheel.writestr(path, data)
    return name


def build_sdist(sdist_directory: str, config_settings: Any = None) -> str:
    project, _ = _project()
    stem = f"{project['name']}-{project['version']}"
    with tarfile.open(Path(sdist_directory) / f"{stem}.tar.gz", "w:gz") as archive:
        for path in [*_sources(), *(_HERE / name for name in ("pyproject.toml", "README.md", "wheel_backend.py"))]:
            archive.add(path, f"{stem}/{path.relative_to(_HERE).as_posix()}")
    return f"{stem}.tar.gz"
