"""For tools/package: makes a wheel of a program and of the Python packages of a folder, as tools/install made them.

tools/wheel.py PROGRAM PACKAGES PLATFORM FOLDER prints the path of the wheel. pip puts the program into the folder of its scripts. The
same files give the same wheel.
"""
import base64
import hashlib
import os
import sys
import zipfile

# of each file
TIME = (1980, 1, 1, 0, 0, 0)


def contents_of(path):
    with open(path, "rb") as file:
        return file.read()


def files_of(program, packages, tag):
    """The files of the wheel, by path, and the folder of those that describe it."""
    paths = [os.path.relpath(f"{at}/{it}", packages) for at, _, names in os.walk(packages) for it in names if it != "INSTALLER"]
    files = {it: contents_of(f"{packages}/{it}") for it in sorted(paths)}
    about = next(os.path.dirname(it) for it in files if it.endswith("/METADATA"))
    files[f"{about.removesuffix('.dist-info')}.data/scripts/ofswitch"] = contents_of(program)
    files[f"{about}/METADATA"] = files[f"{about}/METADATA"].replace(b"\nRequires-Python:", b"\nLicense: to be chosen; until then nothing is granted\nRequires-Python:", 1)
    files[f"{about}/WHEEL"] = f"Wheel-Version: 1.0\nGenerator: ofswitch\nRoot-Is-Purelib: false\nTag: {tag}\n".encode()
    return files, about


def row(path, data):
    digest = base64.urlsafe_b64encode(hashlib.sha256(data).digest()).rstrip(b"=").decode()
    return f"{path},sha256={digest},{len(data)}\n"


def main(program, packages, platform, folder):
    tag = f"py3-none-{platform}"
    files, about = files_of(program, packages, tag)
    files[f"{about}/RECORD"] = ("".join(row(*it) for it in files.items()) + f"{about}/RECORD,,\n").encode()
    path = f"{folder}/{about.removesuffix('.dist-info')}-{tag}.whl"
    with zipfile.ZipFile(path, "w", zipfile.ZIP_DEFLATED) as wheel:
        for name, data in files.items():
            entry = zipfile.ZipInfo(name, TIME)
            entry.external_attr = (0o100755 if "/scripts/" in name else 0o100644) << 16
            wheel.writestr(entry, data, zipfile.ZIP_DEFLATED)
    print(path)


if __name__ == "__main__":
    main(*sys.argv[1:])
