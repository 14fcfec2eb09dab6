"""Builds the wheel and the source distribution of this package, with the shared library in them.

Run it as `./build FOLDER`, or by any front end: `pip install .`, `pip install -e .`, `pip wheel .`. It needs no other
tool and no network. `CEDAR_LIBRARY` names the library. If it is not set, it is the one that `callers/run` built in
`callers/out`. If there is none, it is the one of `callers/run-unproved` in `callers/out/try`. That library is not
proved, and the wheel says so in its summary, its page and `cedar_store.__proved__`.
"""
import base64
import hashlib
import io
import os
import re
import sys
import sysconfig
import tarfile
import zipfile

HERE = os.path.dirname(os.path.abspath(__file__))
CALLERS = os.path.dirname(HERE)
UNPROVED_MARK = b"\0.cedar_unproved\0"
UNPROVED_NOTE = "**NOT PROVED:** the library in this package is tested, not proved.\n\n"


def _project():
    """Returns the fields of `pyproject.toml` that are on a line of their own, like the name and the version."""
    with open(os.path.join(HERE, "pyproject.toml"), encoding="utf-8") as file:
        return dict(re.findall(r'^([a-z-]+) = "(.*)"$', file.read(), re.M))


def _first(*paths):
    """Returns the first path that exists, or None."""
    return next((path for path in paths if path and os.path.exists(path)), None)


def _library():
    """Returns the path of the library. In an unpacked source distribution it is in the package."""
    named = os.environ.get("CEDAR_LIBRARY")
    out = os.path.join(CALLERS, "out")
    found = _first(
        named, *(() if named else (os.path.join(HERE, "cedar_store", "libcedar.so"), os.path.join(out, "libcedar.so"),
                                   os.path.join(out, "try", "libcedar.so"))))
    if not found:
        raise SystemExit("cannot find libcedar.so: run callers/run or callers/run-unproved first, or set CEDAR_LIBRARY")
    return found


def _read(*names):
    with open(os.path.join(*names), "rb") as file:
        return file.read()


def _license():
    return _read(_first(os.path.join(HERE, "LICENSE"), os.path.join(os.path.dirname(CALLERS), "LICENSE")))


def _metadata(project, is_proved):
    summary = project["description"] if is_proved else project["description"].replace("a proved", "an unproved")
    lines = [
        "Metadata-Version: 2.1",
        "Name: " + project["name"],
        "Version: " + project["version"],
        "Summary: " + summary,
        "License: Apache-2.0",
        "Requires-Python: " + project["requires-python"],
        "Description-Content-Type: text/markdown",
        "",
        ("" if is_proved else UNPROVED_NOTE) + _read(HERE, "README.md").decode(),
    ]
    return "\n".join(lines).encode()


def _modules():
    """Returns the files of the package without the library, by their names."""
    package = os.path.join(HERE, "cedar_store")
    names = [name for name in sorted(os.listdir(package)) if name.endswith(".py") or name == "py.typed"]
    return {"cedar_store/" + name: _read(package, name) for name in names}


def _record(files, info):
    lines = []
    for path, text in files.items():
        digest = base64.urlsafe_b64encode(hashlib.sha256(text).digest()).rstrip(b"=").decode()
        lines.append(f"{path},sha256={digest},{len(text)}\n")
    return ("".join(lines) + f"{info}/RECORD,,\n").encode()


def _stem(project):
    return re.sub("[-_.]+", "_", project["name"]) + "-" + project["version"]


def _write_wheel(folder, files, library):
    """Writes a wheel of some files into a folder, and returns its file name."""
    project = _project()
    tag = "py3-none-" + re.sub("[-.]", "_", sysconfig.get_platform())
    info = _stem(project) + ".dist-info"
    files[info + "/METADATA"] = _metadata(project, UNPROVED_MARK not in library)
    files[info + "/WHEEL"] = (
        f"Wheel-Version: 1.0\nGenerator: wheel_builder\nRoot-Is-Purelib: false\nTag: {tag}\n".encode()
    )
    files[info + "/LICENSE"] = _license()
    files[info + "/RECORD"] = _record(files, info)
    name = f"{_stem(project)}-{tag}.whl"
    with zipfile.ZipFile(os.path.join(folder, name), "w", zipfile.ZIP_DEFLATED) as wheel:
        for path, text in files.items():
            entry = zipfile.ZipInfo(path)
            entry.external_attr = 0o644 << 16
            entry.compress_type = zipfile.ZIP_DEFLATED
            wheel.writestr(entry, text)
    return name


def build_wheel(wheel_directory, config_settings=None, metadata_directory=None):
    """Writes the wheel into a folder, and returns its file name."""
    library = _read(_library())
    return _write_wheel(wheel_directory, {**_modules(), "cedar_store/libcedar.so": library}, library)


def build_editable(wheel_directory, config_settings=None, metadata_directory=None):
    """Writes a wheel that refers to this checkout, for `pip install -e`. The package finds its library there."""
    return _write_wheel(wheel_directory, {"cedar_store.pth": (HERE + "\n").encode()}, _read(_library()))


def build_sdist(sdist_directory, config_settings=None):
    """Writes the source distribution, with the built library in it, and returns its file name."""
    project, library = _project(), _read(_library())
    files = {name: _read(HERE, name) for name in ("README.md", "pyproject.toml", "wheel_builder.py")}
    files.update(_modules())
    files["cedar_store/libcedar.so"] = library
    files["LICENSE"] = _license()
    files["PKG-INFO"] = _metadata(project, UNPROVED_MARK not in library)
    name = _stem(project) + ".tar.gz"
    with tarfile.open(os.path.join(sdist_directory, name), "w:gz", format=tarfile.PAX_FORMAT) as archive:
        for path, text in files.items():
            entry = tarfile.TarInfo(f"{_stem(project)}/{path}")
            entry.size, entry.mode = len(text), 0o644
            archive.addfile(entry, io.BytesIO(text))
    return name


if __name__ == "__main__":
    folder = sys.argv[1] if len(sys.argv) > 1 else os.path.join(CALLERS, "out", "wheels")
    os.makedirs(folder, exist_ok=True)
    print(os.path.join(folder, build_wheel(folder)))
