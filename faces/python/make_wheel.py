#!/usr/bin/env python3
"""Makes the wheel of the Python package with the standard library alone: make_wheel.py LIBRARY.so FOLDER

The wheel has the package, the library and the headers, and is for every Python 3 on systems with the processor of this
machine and a C library that is no older than the one that the library needs, and than 2.17. Its path is written to standard output.

pip makes it by `build_wheel` from the source package that `build_sdist` makes; PFAIR_LIBRARY then names the library.
"""
import base64
import gzip
import hashlib
import io
import os
import platform
import re
import sys
import tarfile
import zipfile
from pathlib import Path

HERE = Path(__file__).resolve().parent

# In the repository the headers are in include/; in a source package they lie in the package.
FOLDERS = (HERE / "pfair", HERE.parents[1] / "include")
HEADERS = ("pfair.h", "pfair_shared.h")

METADATA = """\
Metadata-Version: 2.1
Name: pfair
Version: {version}
Summary: PD2 schedules of periodic tasks on many processors, each of them proved
Keywords: real-time,scheduling,multiprocessor,pfair,PD2
Requires-Python: >=3.9
Classifier: Development Status :: 4 - Beta
Classifier: Intended Audience :: Developers
Classifier: Intended Audience :: Education
Classifier: Intended Audience :: Science/Research
Classifier: Operating System :: POSIX :: Linux
Classifier: Programming Language :: Python :: 3
Classifier: Topic :: Scientific/Engineering
Classifier: Typing :: Typed
Description-Content-Type: text/markdown

{description}"""

WHEEL = """\
Wheel-Version: 1.0
Generator: make_wheel
Root-Is-Purelib: false
Tag: {tag}
"""

# The oldest version of the C library that a tag names.
OLDEST = (2, 17)


def header(name: str) -> bytes:
    return next(it / name for it in FOLDERS if (it / name).is_file()).read_bytes()


def version() -> str:
    return re.search(r'#define PFAIR_VERSION "(.*)"', header(HEADERS[0]).decode())[1]  # type: ignore[index]


def metadata() -> bytes:
    return METADATA.format(version=version(), description=(HERE / "README.md").read_text(encoding="utf-8")).encode()


def tag_of(library: bytes) -> str:
    """The tag of a wheel with this library: its processor, and the C library of which it names versions."""
    needed = {(int(major), int(minor)) for major, minor in re.findall(rb"\0GLIBC_(\d+)\.(\d+)", library)}
    major, minor = max({OLDEST} | needed)
    return f"py3-none-manylinux_{major}_{minor}_{platform.machine()}"


def package_files() -> "dict[str, bytes]":
    """The package, with the headers."""
    files = {f"pfair/{it.name}": it.read_bytes() for it in sorted((HERE / "pfair").glob("*.py"))}
    return {**files, "pfair/py.typed": b"", **{f"pfair/{it}": header(it) for it in HEADERS}}


def record_of(name: str, data: bytes) -> str:
    digest = base64.urlsafe_b64encode(hashlib.sha256(data).digest()).rstrip(b"=").decode()
    return f"{name},sha256={digest},{len(data)}\n"


def build_wheel(folder: str, config_settings: object = None, metadata_directory: object = None) -> str:
    """Makes the wheel with the library that PFAIR_LIBRARY names, as pip asks for it; its name."""
    named = os.environ.get("PFAIR_LIBRARY", "")
    if not os.path.isfile(named):
        sys.exit("pfair: set PFAIR_LIBRARY to the path of libpfair.so.0, which tools/install puts into lib/")
    library = Path(named).read_bytes()
    tag, info = tag_of(library), f"pfair-{version()}.dist-info"
    files = {**package_files(), "pfair/libpfair.so": library, f"{info}/METADATA": metadata()}
    files[f"{info}/WHEEL"] = WHEEL.format(tag=tag).encode()
    records = "".join(record_of(name, data) for name, data in files.items())
    files[f"{info}/RECORD"] = f"{records}{info}/RECORD,,\n".encode()
    path = Path(folder) / f"pfair-{version()}-{tag}.whl"
    with zipfile.ZipFile(path, "w", zipfile.ZIP_DEFLATED) as wheel:
        for name, data in files.items():
            entry = zipfile.ZipInfo(name, (2000, 1, 1, 0, 0, 0))
            entry.external_attr = 0o644 << 16
            wheel.writestr(entry, data, zipfile.ZIP_DEFLATED)
    return path.name


def build_sdist(folder: str, config_settings: object = None) -> str:
    """Makes the source package, which has no library; its name."""
    name = f"pfair-{version()}"
    files = {**package_files(), "PKG-INFO": metadata()}
    files.update({it: (HERE / it).read_bytes() for it in ("README.md", "make_wheel.py", "pyproject.toml")})
    for part in ("examples", "tests"):
        files.update({f"{part}/{it.name}": it.read_bytes() for it in sorted((HERE / part).glob("*.py"))})
    room = io.BytesIO()
    with tarfile.open(fileobj=room, mode="w", format=tarfile.PAX_FORMAT) as archive:
        for path, data in sorted(files.items()):
            entry = tarfile.TarInfo(f"{name}/{path}")
            entry.size, entry.mtime = len(data), int(os.environ.get("SOURCE_DATE_EPOCH", 946684800))
            archive.addfile(entry, io.BytesIO(data))
    (Path(folder) / f"{name}.tar.gz").write_bytes(gzip.compress(room.getvalue(), 9, mtime=0))
    return f"{name}.tar.gz"


def main(library: str, folder: str) -> None:
    os.environ["PFAIR_LIBRARY"] = library
    print(Path(folder) / build_wheel(folder))


if __name__ == "__main__":
    if len(sys.argv) != 3:
        sys.exit(__doc__)
    main(*sys.argv[1:])
