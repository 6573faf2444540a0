#!/usr/bin/env python3
"""Makes the wheel of the Python module from out/library, without a network or another package.

    python/build_wheel.py [DIR]    writes the wheel into DIR, or into out/

The version and the date of all files are those of the newest release in CHANGELOG.md, so the same
sources give the same bytes. pip uses this too, by pyproject.toml: then `build_wheel` is called.
"""
import base64
import hashlib
import os
import re
import sys
import zipfile

HERE = os.path.dirname(os.path.abspath(__file__))
TOP = os.path.dirname(HERE)
LIBRARY = os.path.join(TOP, "out", "library", "libyangcheck.so")
TAG = "py3-none-manylinux2014_x86_64"
SOURCES = ("__init__.py", "_library.py", "py.typed")

METADATA = """\
Metadata-Version: 2.1
Name: yangcheck
Version: {version}
Summary: YANG 1.1 compiler and validator of JSON documents
Requires-Python: >=3.8
Description-Content-Type: text/markdown

{description}"""
WHEEL = f"""\
Wheel-Version: 1.0
Generator: yangcheck
Root-Is-Purelib: false
Tag: {TAG}
"""


def read(path):
    """The bytes of a file."""
    with open(path, "rb") as file:
        return file.read()


def newest_release():
    """The version of the newest release, and its date."""
    text = read(os.path.join(TOP, "CHANGELOG.md")).decode()
    found = re.search(r"^## \[([0-9.]+)\] - (\d+)-(\d+)-(\d+)$", text, re.M)
    if not found:
        sys.exit("build_wheel: CHANGELOG.md names no release")
    return found[1], tuple(map(int, found.groups()[1:]))


def contents(version):
    """What is in the wheel, by the names of the files."""
    if not os.path.exists(LIBRARY):
        sys.exit("build_wheel: there is no out/library/libyangcheck.so: run tools/library first")
    found = {f"yangcheck/{name}": read(os.path.join(HERE, "yangcheck", name)) for name in SOURCES}
    found["yangcheck/libyangcheck.so"] = read(LIBRARY)
    description = read(os.path.join(TOP, "docs", "PYTHON.md")).decode()
    about = f"yangcheck-{version}.dist-info"
    found[f"{about}/METADATA"] = METADATA.format(version=version, description=description).encode()
    found[f"{about}/WHEEL"] = WHEEL.encode()
    rows = [f"{name},{checksum(data)},{len(data)}\n" for name, data in found.items()]
    found[f"{about}/RECORD"] = "".join([*rows, f"{about}/RECORD,,\n"]).encode()
    return found


def checksum(data):
    """The checksum of a file as RECORD has it."""
    return "sha256=" + base64.urlsafe_b64encode(hashlib.sha256(data).digest()).decode().rstrip("=")


def pack(files, date, path):
    """Writes files with this date as a zip archive."""
    with zipfile.ZipFile(path, "w", zipfile.ZIP_DEFLATED) as archive:
        for name, data in files.items():
            entry = zipfile.ZipInfo(name, (*date, 0, 0, 0))
            entry.external_attr = (0o100755 if name.endswith(".so") else 0o100644) << 16
            entry.compress_type, entry.create_system = zipfile.ZIP_DEFLATED, 3
            archive.writestr(entry, data)


def build_wheel(wheel_directory, config_settings=None, metadata_directory=None):
    """Makes the wheel in a folder, and returns its name."""
    del config_settings, metadata_directory
    version, date = newest_release()
    name = f"yangcheck-{version}-{TAG}.whl"
    os.makedirs(wheel_directory, exist_ok=True)
    pack(contents(version), date, os.path.join(wheel_directory, name))
    return name


def build_sdist(sdist_directory, config_settings=None):
    """There is no archive of sources: the library is built by tools/library."""
    raise NotImplementedError("build_wheel: only the wheel can be made")


def main():
    directory = sys.argv[1] if len(sys.argv) > 1 else os.path.join(TOP, "out")
    if len(sys.argv) > 2 or directory.startswith("-"):
        sys.exit("usage: python/build_wheel.py [DIR]")
    print(os.path.join(directory, build_wheel(directory)))


if __name__ == "__main__":
    main()
