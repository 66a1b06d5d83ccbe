"""Builds the package `sms` with nothing but Python (PEP 517 and 660): wheels, source archives and editable installs.

A wheel takes the shared library into itself where SMS_LIBRARY names it; else the package looks for it when it is
imported.
"""

from __future__ import annotations

import base64
import gzip
import hashlib
import io
import os
import re
import sysconfig
import tarfile
import zipfile
from pathlib import Path

HERE = Path(__file__).resolve().parent
FIELDS = dict(re.findall(r'^([a-z-]+) = "(.*)"$', (HERE / "pyproject.toml").read_text(encoding="utf-8"), re.MULTILINE))
NAME, VERSION = FIELDS["name"], FIELDS["version"]
METADATA = (
    f"Metadata-Version: 2.1\nName: {NAME}\nVersion: {VERSION}\nSummary: {FIELDS['description']}\n"
    f"Requires-Python: {FIELDS['requires-python']}\n"
).encode()
IN_SDIST = ("pyproject.toml", "backend.py", "README.md", "src/sms/*", "tests/*.py", "examples/*.py")


def build_wheel(wheel_directory, config_settings=None, metadata_directory=None) -> str:
    files = {f"sms/{it.name}": it.read_bytes() for it in _there("src/sms/*")}
    library = os.environ.get("SMS_LIBRARY")
    if library:
        files["sms/libsms.so"] = _library(library)
    platform = sysconfig.get_platform().replace("-", "_").replace(".", "_") if library else "any"
    return _wheel(wheel_directory, f"py3-none-{platform}", files)


def build_editable(wheel_directory, config_settings=None, metadata_directory=None) -> str:
    return _wheel(wheel_directory, "py3-none-any", {f"{NAME}.pth": f"{HERE / 'src'}\n".encode()})


def build_sdist(sdist_directory, config_settings=None) -> str:
    top = f"{NAME}-{VERSION}"
    files = {str(it.relative_to(HERE)): it.read_bytes() for pattern in IN_SDIST for it in _there(pattern)}
    room = io.BytesIO()
    with tarfile.open(fileobj=room, mode="w", format=tarfile.PAX_FORMAT) as archive:
        for path, data in {"PKG-INFO": METADATA, **files}.items():
            member = tarfile.TarInfo(f"{top}/{path}")
            member.size = len(data)
            archive.addfile(member, io.BytesIO(data))
    (Path(sdist_directory) / f"{top}.tar.gz").write_bytes(gzip.compress(room.getvalue(), mtime=0))
    return f"{top}.tar.gz"


def _there(pattern: str) -> list[Path]:
    return [it for it in sorted(HERE.glob(pattern)) if it.is_file()]


def _library(path: str) -> bytes:
    """The library; a path from elsewhere than the root would be looked up in this folder, not in the caller's."""
    if not os.path.isabs(path):
        raise SystemExit(f"SMS_LIBRARY is a path from the root, and not {path}")
    if not os.path.isfile(path):
        raise SystemExit(f"SMS_LIBRARY names {path}, which is not there: c/build.sh makes it (docs/C.md)")
    return Path(path).read_bytes()


def _wheel(folder: str, tag: str, files: dict[str, bytes]) -> str:
    info = f"{NAME}-{VERSION}.dist-info"
    files[f"{info}/METADATA"] = METADATA
    files[f"{info}/WHEEL"] = f"Wheel-Version: 1.0\nGenerator: sms\nRoot-Is-Purelib: false\nTag: {tag}\n".encode()
    record = "".join(f"{path},sha256={_sum(data)},{len(data)}\n" for path, data in files.items())
    files[f"{info}/RECORD"] = f"{record}{info}/RECORD,,\n".encode()
    wheel = f"{NAME}-{VERSION}-{tag}.whl"
    with zipfile.ZipFile(Path(folder) / wheel, "w", zipfile.ZIP_DEFLATED) as it:
        for path, data in files.items():
            it.writestr(zipfile.ZipInfo(path, (2000, 1, 1, 0, 0, 0)), data)
    return wheel


def _sum(data: bytes) -> str:
    return base64.urlsafe_b64encode(hashlib.sha256(data).digest()).rstrip(b"=").decode()
