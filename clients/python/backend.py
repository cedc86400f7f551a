"""Makes the wheel of this folder by the standard library alone, so that pip needs no network (PEP 517, PEP 660)."""
import base64
import hashlib
import os
import tarfile
import zipfile

HERE = os.path.dirname(os.path.abspath(__file__))
NAME, VERSION = "vulzhorn", "0.1.0"
FULL_NAME = f"{NAME}-{VERSION}"
WHEEL = "Wheel-Version: 1.0\nGenerator: vulzhorn\nRoot-Is-Purelib: true\nTag: py3-none-any\n"
METADATA = f"Metadata-Version: 2.1\nName: {NAME}\nVersion: {VERSION}\nRequires-Python: >=3.8\n"


def _package():
    folder = os.path.join(HERE, NAME)
    for name in sorted(os.listdir(folder)):
        if name.endswith((".py", ".typed", ".json")):
            with open(os.path.join(folder, name), "rb") as file:
                yield f"{NAME}/{name}", file.read()


def _wheel(folder, files):
    info = f"{FULL_NAME}.dist-info"
    files = [*files, (f"{info}/METADATA", METADATA.encode()), (f"{info}/WHEEL", WHEEL.encode())]
    record = f"{info}/RECORD"
    lines = [f"{name},sha256={base64.urlsafe_b64encode(hashlib.sha256(octets).digest()).decode().rstrip('=')},{len(octets)}"
             for name, octets in files]
    wheel = f"{FULL_NAME}-py3-none-any.whl"
    with zipfile.ZipFile(os.path.join(folder, wheel), "w", zipfile.ZIP_DEFLATED) as archive:
        for name, octets in [*files, (record, "\n".join([*lines, f"{record},,"]).encode())]:
            archive.writestr(name, octets)
    return wheel


def build_wheel(wheel_directory, config_settings=None, metadata_directory=None):
    return _wheel(wheel_directory, _package())


def build_editable(wheel_directory, config_settings=None, metadata_directory=None):
    return _wheel(wheel_directory, [(f"{NAME}.pth", f"{HERE}\n".encode())])


def build_sdist(sdist_directory, config_settings=None):
    name = f"{FULL_NAME}.tar.gz"
    with tarfile.open(os.path.join(sdist_directory, name), "w:gz") as archive:
        for path in ["pyproject.toml", "backend.py", *(name for name, _ in _package())]:
            archive.add(os.path.join(HERE, path), f"{FULL_NAME}/{path}")
    return name
