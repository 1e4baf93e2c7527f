"""Makes the packages that pip installs, as PEP 517 asks, by the standard library alone.

A wheel is a zip file of the package and of three files that say what it is; an sdist is a tar file of this folder.
"""

import base64
import hashlib
import io
import re
import tarfile
import zipfile
from pathlib import Path

HERE = Path(__file__).resolve().parent
VERSION = re.search(r'^version = "(.*)"$', (HERE / "pyproject.toml").read_text(), re.MULTILINE).group(1)
NAME = f"annotate_client-{VERSION}"
METADATA = f"""Metadata-Version: 2.1
Name: annotate-client
Version: {VERSION}
Summary: A client of the annotation server
License: MIT OR Apache-2.0
Requires-Python: >=3.9
"""
WHEEL = """Wheel-Version: 1.0
Generator: build_wheel
Root-Is-Purelib: true
Tag: py3-none-any
"""


def _write_wheel(folder, files):
    """Writes a wheel with these files, each as its name and its bytes, and with the record of their sums."""
    files = {**files, f"{NAME}.dist-info/METADATA": METADATA.encode(), f"{NAME}.dist-info/WHEEL": WHEEL.encode()}
    record = f"{NAME}.dist-info/RECORD"
    rows = [f"{record},,"]
    for name, content in files.items():
        digest = base64.urlsafe_b64encode(hashlib.sha256(content).digest()).decode().rstrip("=")
        rows.append(f"{name},sha256={digest},{len(content)}")
    wheel = f"{NAME}-py3-none-any.whl"
    with zipfile.ZipFile(Path(folder) / wheel, "w", zipfile.ZIP_DEFLATED) as archive:
        for name, content in {**files, record: "\n".join(rows).encode() + b"\n"}.items():
            archive.writestr(name, content)
    return wheel


def build_wheel(wheel_directory, config_settings=None, metadata_directory=None):
    """The package itself."""
    package = HERE / "annotate_client"
    files = [it for it in sorted(package.iterdir()) if it.suffix == ".py" or it.name == "py.typed"]
    return _write_wheel(wheel_directory, {f"annotate_client/{it.name}": it.read_bytes() for it in files})


def build_editable(wheel_directory, config_settings=None, metadata_directory=None):
    """For `pip install -e`: a file that names this folder, from which Python then takes the package."""
    return _write_wheel(wheel_directory, {"annotate_client.pth": f"{HERE}\n".encode()})


def build_sdist(sdist_directory, config_settings=None):
    """This folder, with what it is."""
    with tarfile.open(Path(sdist_directory) / f"{NAME}.tar.gz", "w:gz") as archive:
        about = tarfile.TarInfo(f"{NAME}/PKG-INFO")
        about.size = len(METADATA.encode())
        archive.addfile(about, io.BytesIO(METADATA.encode()))
        for name in ("README.md", "annotate_client", "build_wheel.py", "pyproject.toml", "tests"):
            archive.add(HERE / name, f"{NAME}/{name}", filter=lambda it: None if "__pycache__" in it.name else it)
    return f"{NAME}.tar.gz"
