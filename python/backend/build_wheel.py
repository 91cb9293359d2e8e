"""Makes the package's files for pip (PEP 517), with only Python's standard library."""

import base64
import hashlib
import io
import pathlib
import tarfile
import tomllib
import zipfile

TOP = pathlib.Path(__file__).resolve().parent.parent
PROJECT = tomllib.loads((TOP / "pyproject.toml").read_text())["project"]
NAME = f"{PROJECT['name']}-{PROJECT['version']}"

# of each file, so that the same sources give the same bytes
TIME = (1980, 1, 1, 0, 0, 0)


def build_wheel(wheel_directory, config_settings=None, metadata_directory=None):
    files = {path.relative_to(TOP).as_posix(): path.read_bytes() for path in sources()}
    return write_wheel(wheel_directory, files)


def build_editable(wheel_directory, config_settings=None, metadata_directory=None):
    return write_wheel(wheel_directory, {f"{PROJECT['name']}.pth": f"{TOP}\n".encode()})


def build_sdist(sdist_directory, config_settings=None):
    path = pathlib.Path(sdist_directory, f"{NAME}.tar.gz")
    others = [TOP / "pyproject.toml", TOP / "README.md", *(TOP / "backend").glob("*.py")]
    with tarfile.open(path, "w:gz") as archive:
        for it in sorted([*sources(), *others]):
            archive.add(it, f"{NAME}/{it.relative_to(TOP)}", filter=without_owner)
        about = tarfile.TarInfo(f"{NAME}/PKG-INFO")
        about.size = len(metadata())
        archive.addfile(about, io.BytesIO(metadata()))
    return path.name


def sources():
    return sorted(it for it in (TOP / PROJECT["name"]).iterdir() if it.suffix in (".py", ".html", ".css", ".js") or it.name == "py.typed")


def without_owner(entry):
    entry.uid = entry.gid = entry.mtime = 0
    entry.uname = entry.gname = ""
    return entry


def metadata():
    lines = [
        "Metadata-Version: 2.1",
        f"Name: {PROJECT['name']}",
        f"Version: {PROJECT['version']}",
        f"Summary: {PROJECT['description']}",
        f"Requires-Python: {PROJECT['requires-python']}",
        f"Keywords: {','.join(PROJECT['keywords'])}",
        *(f"Classifier: {it}" for it in PROJECT["classifiers"]),
        *(f"Project-URL: {name}, {url}" for name, url in PROJECT["urls"].items()),
        "Description-Content-Type: text/markdown",
        "",
        (TOP / PROJECT["readme"]).read_text(),
    ]
    return "\n".join(lines).encode()


def entry_points():
    groups = PROJECT["entry-points"].items()
    return "".join(f"[{group}]\n" + "".join(f"{name} = {where}\n" for name, where in rows.items()) for group, rows in groups).encode()


def write_wheel(folder, files):
    info = f"{NAME}.dist-info"
    files[f"{info}/METADATA"] = metadata()
    files[f"{info}/WHEEL"] = b"Wheel-Version: 1.0\nGenerator: ofswitch\nRoot-Is-Purelib: true\nTag: py3-none-any\n"
    files[f"{info}/entry_points.txt"] = entry_points()
    rows = [f"{name},sha256={digest(data)},{len(data)}\n" for name, data in files.items()]
    files[f"{info}/RECORD"] = "".join([*rows, f"{info}/RECORD,,\n"]).encode()
    path = pathlib.Path(folder, f"{NAME}-py3-none-any.whl")
    with zipfile.ZipFile(path, "w", zipfile.ZIP_DEFLATED) as wheel:
        for name, data in files.items():
            entry = zipfile.ZipInfo(name, TIME)
            entry.external_attr = 0o100644 << 16
            wheel.writestr(entry, data, zipfile.ZIP_DEFLATED)
    return path.name


def digest(data):
    return base64.urlsafe_b64encode(hashlib.sha256(data).digest()).rstrip(b"=").decode()
