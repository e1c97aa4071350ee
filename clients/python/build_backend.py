"""Builds the package for pip, with the standard library alone: the modules as they are, and the four files that a wheel has beside them."""

import base64
import hashlib
import tarfile
import zipfile
from pathlib import Path

HERE = Path(__file__).resolve().parent
NAME, VERSION = "hprof", "0.1.0"
STEM = f"{NAME}-{VERSION}"
METADATA = f"""Metadata-Version: 2.1
Name: {NAME}
Version: {VERSION}
Summary: Asks hprof about Java heap dumps, and answers with typed values
Requires-Python: >=3.8
"""
WHEEL = "Wheel-Version: 1.0\nGenerator: build_backend\nRoot-Is-Purelib: true\nTag: py3-none-any\n"


def sources():
    """The files of the package."""
    return sorted(path for path in (HERE / NAME).rglob("*") if path.suffix == ".py" or path.name == "py.typed")


def record(name, data):
    """The line of a file in the list of a wheel."""
    digest = base64.urlsafe_b64encode(hashlib.sha256(data).digest()).rstrip(b"=").decode("ascii")
    return f"{name},sha256={digest},{len(data)}"


def build_wheel(wheel_directory, config_settings=None, metadata_directory=None):
    """Writes the wheel, and returns its name."""
    info = f"{STEM}.dist-info"
    files = {path.relative_to(HERE).as_posix(): path.read_bytes() for path in sources()}
    files.update({f"{info}/METADATA": METADATA.encode(), f"{info}/WHEEL": WHEEL.encode()})
    listed = [record(name, data) for name, data in files.items()] + [f"{info}/RECORD,,"]
    files[f"{info}/RECORD"] = ("\n".join(listed) + "\n").encode()
    wheel = f"{STEM}-py3-none-any.whl"
    with zipfile.ZipFile(Path(wheel_directory) / wheel, "w", zipfile.ZIP_DEFLATED) as archive:
        for name, data in files.items():
            archive.writestr(name, data)
    return wheel


def build_sdist(sdist_directory, config_settings=None):
    """Writes the archive of the sources, and returns its name."""
    archive_name = f"{STEM}.tar.gz"
    with tarfile.open(Path(sdist_directory) / archive_name, "w:gz") as archive:
        for path in [HERE / "pyproject.toml", Path(__file__).resolve(), *sources()]:
            archive.add(path, f"{STEM}/{path.relative_to(HERE).as_posix()}")
    return archive_name
