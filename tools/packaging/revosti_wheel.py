"""Makes the wheel of the Python packages (PEP 517), with the standard library alone, so that pip fetches nothing.

The wheel has the modules below tools/ and the shared object: the one that REVOSTI_SHARED names, or that of the repository, which is built
where it is not up to date."""

import base64
import hashlib
import os
import re
import subprocess
import zipfile
from pathlib import Path

TOOLS = Path(__file__).resolve().parents[1]
ROOT = TOOLS.parent
PACKAGES = [name for name in ("revosti", "revosti_command") if (TOOLS / name).is_dir()]
VERSION = re.search(r'^__version__ = "(.*)"$', (TOOLS / "revosti/__init__.py").read_text(encoding="utf-8"), re.M)[1]
TAG = "py3-none-linux_x86_64"
INFO = f"revosti-{VERSION}.dist-info"
METADATA = f"""Metadata-Version: 2.1
Name: revosti
Version: {VERSION}
Summary: Marks strike sheets of travelling-salesman instances, with proved functions
Requires-Python: >=3.10
"""
WHEEL = f"""Wheel-Version: 1.0
Generator: revosti_wheel
Root-Is-Purelib: false
Tag: {TAG}
"""
COMMANDS = """[console_scripts]
revosti = revosti_command.main:main
"""


class UnsupportedOperation(Exception):
    """There is no source distribution: the repository is one."""


def build_sdist(sdist_directory, config_settings=None):
    """PEP 517 asks for this hook."""
    raise UnsupportedOperation("Revosti is installed from its repository")


def prepare_metadata_for_build_wheel(metadata_directory, config_settings=None):
    """What pip reads before it has the wheel made."""
    folder = Path(metadata_directory) / INFO
    folder.mkdir()
    for name, data in information().items():
        (Path(metadata_directory) / name).write_bytes(data)
    return INFO


def build_wheel(wheel_directory, config_settings=None, metadata_directory=None):
    """Writes the wheel and answers its name."""
    files = {**modules(), "revosti/librevosti.so": shared_object().read_bytes(), **information()}
    lines = "".join(f"{name},sha256={digest(data)},{len(data)}\n" for name, data in files.items())
    files[f"{INFO}/RECORD"] = f"{lines}{INFO}/RECORD,,\n".encode()
    name = f"revosti-{VERSION}-{TAG}.whl"
    with zipfile.ZipFile(Path(wheel_directory) / name, "w", zipfile.ZIP_DEFLATED) as wheel:
        for file, data in files.items():
            wheel.writestr(file, data)
    return name


def modules():
    """The files of the packages, by their names in the wheel."""
    files = (file for name in PACKAGES for file in sorted((TOOLS / name).rglob("*")) if file.is_file() and "__pycache__" not in file.parts)
    return {file.relative_to(TOOLS).as_posix(): file.read_bytes() for file in files if file.suffix != ".so"}


def information():
    """What the wheel says of itself."""
    texts = {"METADATA": METADATA, "WHEEL": WHEEL} | ({"entry_points.txt": COMMANDS} if "revosti_command" in PACKAGES else {})
    return {f"{INFO}/{name}": text.encode() for name, text in texts.items()}


def shared_object():
    """The path of the shared object."""
    named = os.environ.get("REVOSTI_SHARED")
    if not named and subprocess.run([TOOLS / "build", "library"], check=False).returncode:
        raise SystemExit("the shared object cannot be built; REVOSTI_SHARED may name one")
    return Path(named) if named else ROOT / "target/librevosti.so"


def digest(data):
    """The sum of a file as RECORD has it."""
    return base64.urlsafe_b64encode(hashlib.sha256(data).digest()).rstrip(b"=").decode()
