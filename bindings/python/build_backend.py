"""Builds the wheel with the standard library alone, so that `pip install PATH` fetches nothing. pip calls these functions (PEP 517)."""
import base64
import hashlib
import re
import tarfile
import zipfile
from pathlib import Path

HERE = Path(__file__).resolve().parent
NAME = "obolspindle"
VERSION = re.search(r'^version = "(.*)"$', (HERE / "pyproject.toml").read_text(encoding="utf-8"), re.M)[1]
SUMMARY = re.search(r'^description = "(.*)"$', (HERE / "pyproject.toml").read_text(encoding="utf-8"), re.M)[1]
METADATA = "Metadata-Version: 2.1\nName: %s\nVersion: %s\nSummary: %s\nLicense: Apache-2.0\nRequires-Python: >=3.8\n" % (NAME, VERSION, SUMMARY)


def build_wheel(wheel_directory, config_settings=None, metadata_directory=None):
    info = "%s-%s.dist-info" % (NAME, VERSION)
    files = {"spindle/" + path.name: path.read_bytes() for path in sorted((HERE / "spindle").glob("*.py"))}
    files[info + "/METADATA"] = METADATA.encode()
    files[info + "/WHEEL"] = b"Wheel-Version: 1.0\nGenerator: %s\nRoot-Is-Purelib: true\nTag: py3-none-any\n" % NAME.encode()
    lines = []
    for name, data in files.items():
        digest = base64.urlsafe_b64encode(hashlib.sha256(data).digest()).rstrip(b"=").decode()
        lines.append("%s,sha256=%s,%d\n" % (name, digest, len(data)))
    files[info + "/RECORD"] = "".join([*lines, info + "/RECORD,,\n"]).encode()
    wheel = "%s-%s-py3-none-any.whl" % (NAME, VERSION)
    with zipfile.ZipFile(Path(wheel_directory, wheel), "w", zipfile.ZIP_DEFLATED) as archive:
        for name, data in files.items():
            archive.writestr(name, data)
    return wheel


def build_sdist(sdist_directory, config_settings=None):
    folder = "%s-%s" % (NAME, VERSION)
    with tarfile.open(Path(sdist_directory, folder + ".tar.gz"), "w:gz") as archive:
        for name in ("pyproject.toml", "build_backend.py", "README.md", "spindle"):
            archive.add(HERE / name, folder + "/" + name, filter=lambda item: None if "__pycache__" in item.name else item)
    return folder + ".tar.gz"
