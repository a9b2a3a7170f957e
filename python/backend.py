"""A build backend that needs nothing beside Python (PEP 517): the wheel is the module and its metadata."""
import base64
import hashlib
import os
import re
import zipfile

NAME = "h264v"
with open(os.path.join(NAME, "__init__.py"), encoding="utf-8") as module:
    VERSION = re.search(r'^__version__ = "(.*)"$', module.read(), re.M)[1]
INFO = f"{NAME}-{VERSION}.dist-info"
METADATA = f"Metadata-Version: 2.1\nName: {NAME}\nVersion: {VERSION}\nSummary: A proved verifier and decoder of H.264 byte streams\nRequires-Python: >=3.8\n"
WHEEL = "Wheel-Version: 1.0\nGenerator: backend\nRoot-Is-Purelib: true\nTag: py3-none-any\n"


def build_wheel(folder, config_settings=None, metadata_directory=None):
    name = f"{NAME}-{VERSION}-py3-none-any.whl"
    with open(os.path.join(NAME, "__init__.py"), "rb") as file:
        files = {f"{NAME}/__init__.py": file.read(), f"{INFO}/METADATA": METADATA.encode(), f"{INFO}/WHEEL": WHEEL.encode()}
    record = ""
    for path, data in files.items():
        digest = base64.urlsafe_b64encode(hashlib.sha256(data).digest()).rstrip(b"=").decode()
        record += f"{path},sha256={digest},{len(data)}\n"
    files[f"{INFO}/RECORD"] = f"{record}{INFO}/RECORD,,\n".encode()
    with zipfile.ZipFile(os.path.join(folder, name), "w") as wheel:
        for path, data in files.items():
            wheel.writestr(path, data)
    return name
