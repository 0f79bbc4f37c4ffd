"""Makes the wheel of this folder with Python's standard library alone, so that pip needs no network for it.

The package has no requirements, so a wheel is its files and libkroft.so, with three texts beside them. The library is for
x86-64 Linux with glibc 2.17 or later, and so is the wheel; it goes with any Python.
"""

import base64
import hashlib
import os
import re
import subprocess
import tempfile
import zipfile
from pathlib import Path
from typing import Any, Dict, List, Optional

HERE = Path(__file__).resolve().parent
Settings = Optional[Dict[str, Any]]
NAME = "kroft"
LIBRARY = "libkroft.so"
# An older pip knows the second name alone.
LINUX = ["manylinux_2_17_x86_64", "manylinux2014_x86_64"]
ANY = ["any"]


def project_value(key: str) -> str:
    """A text of the [project] table, which has one line for each."""
    found = re.search(rf'^{key} = "(.*)"$', (HERE / "pyproject.toml").read_text("utf-8"), re.MULTILINE)
    if not found:
        raise ValueError(f"pyproject.toml has no {key}")
    return found.group(1)


def metadata() -> str:
    return (
        f"Metadata-Version: 2.1\nName: {NAME}\nVersion: {project_value('version')}\n"
        f"Summary: {project_value('description')}\nRequires-Python: {project_value('requires-python')}\n"
    )


def record_line(name: str, data: bytes) -> str:
    digest = base64.urlsafe_b64encode(hashlib.sha256(data).digest()).rstrip(b"=").decode("ascii")
    return f"{name},sha256={digest},{len(data)}\n"


def wheel_text(platforms: List[str]) -> str:
    purity = "true" if platforms == ANY else "false"
    tags = "".join(f"Tag: py3-none-{platform}\n" for platform in platforms)
    return f"Wheel-Version: 1.0\nGenerator: wheel_backend\nRoot-Is-Purelib: {purity}\n{tags}"


def library() -> bytes:
    """libkroft.so: that of KROFT_LIB, a folder or the file, or else what the checkout's ./kroft-lib leaves."""
    if os.environ.get("KROFT_LIB"):
        named = Path(os.environ["KROFT_LIB"]).resolve()  # (pip calls this in the folder of this file)
        return (named if named.is_file() else named / LIBRARY).read_bytes()
    command = HERE.parents[1] / "kroft-lib"
    if not command.is_file():
        raise FileNotFoundError(f"no {command}, as with pip before 21.3: set KROFT_LIB to the whole path of the folder of ./kroft-lib")
    with tempfile.TemporaryDirectory() as folder:
        subprocess.run([str(command), "--target", "x86_64-linux", folder], check=True)
        return (Path(folder) / LIBRARY).read_bytes()


def write_wheel(directory: str, modules: Dict[str, bytes], platforms: List[str]) -> str:
    """Writes the wheel with these files and the texts about them. The file's name."""
    version = project_value("version")
    about = f"{NAME}-{version}.dist-info"
    files = dict(modules)
    files[f"{about}/METADATA"] = metadata().encode("utf-8")
    files[f"{about}/WHEEL"] = wheel_text(platforms).encode("ascii")
    record = "".join(record_line(name, data) for name, data in files.items()) + f"{about}/RECORD,,\n"
    files[f"{about}/RECORD"] = record.encode("utf-8")
    wheel = f"{NAME}-{version}-py3-none-{'.'.join(platforms)}.whl"
    with zipfile.ZipFile(Path(directory) / wheel, "w", zipfile.ZIP_DEFLATED) as archive:
        for name, data in files.items():
            archive.writestr(zipfile.ZipInfo(name, (1980, 1, 1, 0, 0, 0)), data)
    return wheel


def get_requires_for_build_wheel(config_settings: Settings = None) -> List[str]:
    return []


def get_requires_for_build_editable(config_settings: Settings = None) -> List[str]:
    return []


def build_wheel(wheel_directory: str, config_settings: Settings = None, metadata_directory: Optional[str] = None) -> str:
    """The wheel of the package: its modules, the mark that they have types, and the library."""
    paths = sorted(path for path in (HERE / NAME).iterdir() if path.suffix == ".py" or path.name == "py.typed")
    modules = {f"{NAME}/{path.name}": path.read_bytes() for path in paths}
    modules[f"{NAME}/{LIBRARY}"] = library()
    return write_wheel(wheel_directory, modules, LINUX)


def build_editable(wheel_directory: str, config_settings: Settings = None, metadata_directory: Optional[str] = None) -> str:
    """A wheel that only points here: `pip install -e`."""
    return write_wheel(wheel_directory, {f"{NAME}.pth": f"{HERE}\n".encode("utf-8")}, ANY)
