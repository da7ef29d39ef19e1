"""The files of an installation of pfair: what they hold, where they stand below a prefix, how they are put there and taken away.

The list of an installation, share/doc/pfair/BUILD, says what was built, by which toolchain, and whether it was proved. Behind
these lines, which begin with '#', each file has its SHA-256: `sha256sum -c share/doc/pfair/BUILD` below the prefix tries them.
"""
import hashlib
import os
import pathlib
import re
from dataclasses import dataclass

import completions
from build_record import LIBRARIES, toolchain
from help_text import read_help, version_of
from manual import manual
from programs import TOP, said_by

DOCUMENTS = "share/doc/pfair"
LIST = f"{DOCUMENTS}/BUILD"
NAME_OF_SHARED = "libpfair.so.0"

# Where each shell looks for completions, below a prefix.
COMPLETIONS = {
    "share/bash-completion/completions/pfair": completions.bash,
    "share/zsh/site-functions/_pfair": completions.zsh,
    "share/fish/vendor_completions.d/pfair.fish": completions.fish,
}

PKG_CONFIG = """\
prefix=${{pcfiledir}}/../..
libdir=${{prefix}}/lib
includedir=${{prefix}}/include

Name: pfair
Description: The planner's desk of Zuthlemyr: PD2 schedules of periodic tasks on many processors
Version: {version}
Cflags: -I${{includedir}}
Libs: -L${{libdir}} -lpfair
"""

CMAKE = """\
# The targets pfair::pfair, the shared library, and pfair::static.
get_filename_component(_pfair_prefix "${{CMAKE_CURRENT_LIST_DIR}}/../../.." ABSOLUTE)
foreach(_pfair_kind shared static)
    if(_pfair_kind STREQUAL "shared")
        set(_pfair_target pfair::pfair)
        set(_pfair_file "${{_pfair_prefix}}/lib/{shared}")
    else()
        set(_pfair_target pfair::static)
        set(_pfair_file "${{_pfair_prefix}}/lib/libpfair.a")
    endif()
    if(NOT TARGET ${{_pfair_target}})
        string(TOUPPER ${{_pfair_kind}} _pfair_linked)
        add_library(${{_pfair_target}} ${{_pfair_linked}} IMPORTED)
        set_target_properties(${{_pfair_target}} PROPERTIES
            IMPORTED_LOCATION "${{_pfair_file}}"
            INTERFACE_INCLUDE_DIRECTORIES "${{_pfair_prefix}}/include")
    endif()
endforeach()
"""

# Before 1.0 one minor version works with each library of that version.
CMAKE_VERSION = """\
set(PACKAGE_VERSION "{version}")
set(PACKAGE_VERSION_COMPATIBLE FALSE)
set(PACKAGE_VERSION_EXACT FALSE)
if(PACKAGE_FIND_VERSION VERSION_EQUAL "{version}")
    set(PACKAGE_VERSION_EXACT TRUE)
    set(PACKAGE_VERSION_COMPATIBLE TRUE)
elseif(PACKAGE_FIND_VERSION VERSION_LESS "{version}")
    if("${{PACKAGE_FIND_VERSION_MAJOR}}.${{PACKAGE_FIND_VERSION_MINOR}}" STREQUAL "{minor}")
        set(PACKAGE_VERSION_COMPATIBLE TRUE)
    endif()
endif()
"""


def glibc_needed(data):
    """The version of glibc that a program or a shared library needs; nothing of one that is linked statically."""
    found = [tuple(map(int, it)) for it in re.findall(rb"\0GLIBC_(\d+)\.(\d+)", data)]
    return "{}.{}".format(*max(found)) if found else ""


@dataclass
class File:
    """A file of an installation: its bytes, or the file that it is a link to, and whether it may be run."""
    data: bytes = b""
    link: str = ""
    may_run: bool = False


@dataclass
class Product:
    """What was built: the program, whether it was proved, and whether the libraries in out/faces belong to it."""
    program: str
    is_proved: bool
    has_libraries: bool

    def standing(self):
        return "proved" if self.is_proved else "unproved"

    def linked(self):
        needed = glibc_needed(self.program_bytes())
        return f"for glibc {needed} and later" if needed else "statically"

    def program_bytes(self):
        return pathlib.Path(self.program).read_bytes()


def commit():
    """The name of the commit, and what is told where the texts are others; nothing where there is no commit."""
    name = said_by("git", "rev-parse", "HEAD")
    changed = said_by("git", "status", "--porcelain", "--untracked-files=no")
    return f"{name} and changes that are not committed" if changed else name


def commit_seconds():
    """When the commit was made, in seconds since 1970."""
    return int(os.environ.get("SOURCE_DATE_EPOCH") or said_by("git", "log", "-1", "--format=%ct") or 0)


def library_files(version):
    """The libraries for other languages, and how other builds find them."""
    words = {"version": version, "minor": ".".join(version.split(".")[:2]), "shared": NAME_OF_SHARED}
    _, archive, shared = LIBRARIES
    return {
        **{f"include/{it}": File((TOP / "include" / it).read_bytes()) for it in ("pfair.h", "pfair_shared.h")},
        "lib/libpfair.a": File(archive.read_bytes()),
        f"lib/{NAME_OF_SHARED}": File(shared.read_bytes()),
        "lib/libpfair.so": File(link=NAME_OF_SHARED),
        "lib/pkgconfig/pfair.pc": File(PKG_CONFIG.format(**words).encode()),
        "lib/cmake/pfair/pfair-config.cmake": File(CMAKE.format(**words).encode()),
        "lib/cmake/pfair/pfair-config-version.cmake": File(CMAKE_VERSION.format(**words).encode()),
    }


def document_files():
    """README, the changes, and of docs/ and examples/ all but what only the gate compares."""
    paths = [TOP / "README.md", TOP / "CHANGELOG.md", *(TOP / "docs").iterdir()]
    paths += [it for it in (TOP / "examples").rglob("*") if it.suffix in (".c", ".csv", ".md", ".py")]
    return {f"{DOCUMENTS}/{it.relative_to(TOP)}": File(it.read_bytes()) for it in sorted(paths)}


def list_of(files, product, version):
    """The list of an installation with these files."""
    head = [f"# pfair {version}"]
    head += [f"# commit {commit() or 'none'}", f"# toolchain {toolchain()}"]
    head += [f"# program {product.standing()}, linked {product.linked()}", f"# library {'proved' if product.has_libraries else 'none'}"]
    if not product.is_proved:
        head += ["# The program was built without any proof. It checks itself as it runs, and stops where a check fails."]
    head += ["# The SHA-256 of each file:"]
    target = {path: files[f"{os.path.dirname(path)}/{it.link}"] if it.link else it for path, it in files.items()}
    sums = [f"{hashlib.sha256(it.data).hexdigest()}  {path}" for path, it in sorted(target.items())]
    return "\n".join([*head, *sums]) + "\n"


def installation(product):
    """All files of an installation, by their paths below its prefix."""
    whole, commands = read_help(product.program)
    version = version_of(product.program)
    files = {"bin/pfair": File(product.program_bytes(), may_run=True)}
    files["share/man/man1/pfair.1"] = File(manual(whole, commands, version, commit_seconds()).encode())
    files |= {path: File(made(whole, commands).encode()) for path, made in COMPLETIONS.items()}
    files |= library_files(version) if product.has_libraries else {}
    files |= document_files()
    return files | {LIST: File(list_of(files, product, version).encode())}


def put(root, path, file):
    """Puts a file in its place in one step: a program that runs is not written over."""
    place = root / path
    place.parent.mkdir(parents=True, exist_ok=True)
    waiting = place.with_name(f".{place.name}.new")
    waiting.unlink(missing_ok=True)
    if file.link:
        waiting.symlink_to(file.link)
    else:
        waiting.write_bytes(file.data)
        waiting.chmod(0o755 if file.may_run else 0o644)
    waiting.replace(place)


def listed(root):
    """The paths that the list of an installation below this folder has; none where there is no list."""
    path = root / LIST
    lines = path.read_text().splitlines() if path.is_file() else []
    return [it.split("  ", 1)[1] for it in lines if re.match(r"[0-9a-f]{64}  ", it)] + ([LIST] if lines else [])


def take_away(root, paths):
    """Removes files, and the folders of pfair's own that are then empty."""
    for path in paths:
        (root / path).unlink(missing_ok=True)
    for folder in sorted({folder for path in paths for folder in pathlib.PurePath(path).parents}, key=lambda it: -len(it.parts)):
        is_own = "pfair" in folder.parts
        if is_own and (root / folder).is_dir() and not any((root / folder).iterdir()):
            (root / folder).rmdir()
