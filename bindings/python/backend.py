"""Builds the wheel that `pip install ./bindings/python` installs. It needs nothing that has to be fetched.

The same library and the same version make the same bytes. The version is that of the file VERSION at the top of the repository.
"""
import base64
import hashlib
import os
import sysconfig
import zipfile

HERE = os.path.dirname(os.path.abspath(__file__))
TOP = os.path.dirname(os.path.dirname(HERE))
MODULES = ("__init__", "events", "faults", "images", "library", "programs", "schedules", "shown")
FILES = [*(f"cathompi/{name}.py" for name in MODULES), "cathompi/py.typed", "cathompi/libxv6.so"]
NAME = "cathompi"
SUMMARY = "xv6 as a pure machine that is proved correct"
EPOCH = (1980, 1, 1, 0, 0, 0)


def build_wheel(wheel_directory, config_settings=None, metadata_directory=None):
    """Writes the wheel into a directory, and returns its name."""
    platform = (config_settings or {}).get("platform") or sysconfig.get_platform()
    tag = "py3-none-" + platform.replace("-", "_").replace(".", "_")
    version = read(os.path.join(TOP, "VERSION")).decode().strip()
    info = f"{NAME}-{version}.dist-info"
    texts = {
        f"{info}/METADATA": f"Metadata-Version: 2.1\nName: {NAME}\nVersion: {version}\nSummary: {SUMMARY}\nRequires-Python: >=3.8\n",
        f"{info}/WHEEL": f"Wheel-Version: 1.0\nGenerator: {NAME}\nRoot-Is-Purelib: false\nTag: {tag}\n",
    }
    if not os.path.exists(os.path.join(HERE, FILES[-1])):
        raise FileNotFoundError("bindings/python/cathompi/libxv6.so is not there: make library at the top of the repository puts it there")
    contents = {name: read(os.path.join(HERE, name)) for name in FILES}
    contents.update((name, text.encode()) for name, text in texts.items())
    record = f"{info}/RECORD"
    contents[record] = "".join([*map(row, contents.items()), f"{record},,\n"]).encode()
    wheel = f"{NAME}-{version}-{tag}.whl"
    with zipfile.ZipFile(os.path.join(wheel_directory, wheel), "w") as archive:
        for name, data in contents.items():
            entry = zipfile.ZipInfo(name, EPOCH)
            entry.external_attr = 0o644 << 16
            archive.writestr(entry, data, zipfile.ZIP_DEFLATED)
    return wheel


def read(path):
    with open(path, "rb") as file:
        return file.read()


def row(item):
    """A file's line of the list of files."""
    name, data = item
    digest = base64.urlsafe_b64encode(hashlib.sha256(data).digest()).rstrip(b"=").decode()
    return f"{name},sha256={digest},{len(data)}\n"
