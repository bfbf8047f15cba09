"""Makes the wheel of `reassign_tools` for `pip install` (PEP 517), with python's standard library alone.

The same sources make the same bytes: files stand in order, with one time.
"""
import base64
import hashlib
import os
import tomllib
import zipfile

from reassign_tools import __version__
from reassign_tools.__main__ import TOOLS

HERE = os.path.dirname(os.path.realpath(__file__))
PACKAGE = "reassign_tools"
TIME = (1980, 1, 1, 0, 0, 0)


def project():
    with open(os.path.join(HERE, "pyproject.toml"), "rb") as file:
        return tomllib.load(file)["project"]


def sources():
    """The files of the package, with their texts."""
    walked = os.walk(os.path.join(HERE, PACKAGE))
    found = [os.path.relpath(os.path.join(at, name), HERE) for at, _, names in walked for name in names]
    for name in sorted(found):
        if name.endswith((".py", "py.typed")):
            with open(os.path.join(HERE, name), "rb") as file:
                yield name, file.read()
    yield f"{PACKAGE}/VERSION", f"{__version__}\n".encode()


def information(folder):
    """What stands beside the package in a wheel."""
    about = project()
    metadata = (f"Metadata-Version: 2.1\nName: {about['name']}\nVersion: {__version__}\nSummary: {about['description']}\n"
                f"Requires-Python: {about['requires-python']}\nLicense: {about['license']['text']}\n")
    yield f"{folder}/METADATA", metadata.encode()
    wheel = f"Wheel-Version: 1.0\nGenerator: {os.path.basename(__file__)}\nRoot-Is-Purelib: true\nTag: py3-none-any\n"
    yield f"{folder}/WHEEL", wheel.encode()
    scripts = "".join(f"reassign-{tool} = {PACKAGE}.{tool}:main\n" for tool in TOOLS)
    yield f"{folder}/entry_points.txt", f"[console_scripts]\n{scripts}".encode()


def recorded(name, text):
    digest = base64.urlsafe_b64encode(hashlib.sha256(text).digest()).decode().rstrip("=")
    return f"{name},sha256={digest},{len(text)}\n"


def build_wheel(wheel_directory, config_settings=None, metadata_directory=None):
    name = f"{PACKAGE}-{__version__}"
    folder = f"{name}.dist-info"
    files = [*sources(), *information(folder)]
    record = "".join(recorded(*file) for file in files) + f"{folder}/RECORD,,\n"
    wheel = f"{name}-py3-none-any.whl"
    with zipfile.ZipFile(os.path.join(wheel_directory, wheel), "w", zipfile.ZIP_DEFLATED) as archive:
        for at, text in [*files, (f"{folder}/RECORD", record.encode())]:
            entry = zipfile.ZipInfo(at, TIME)
            entry.external_attr = 0o644 << 16
            archive.writestr(entry, text, zipfile.ZIP_DEFLATED)
    return wheel
