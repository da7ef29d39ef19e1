"""The library, and the numbers, structs and calls of its headers.

All lie beside this file in a wheel. In the repository the headers are in include/, and PFAIR_LIBRARY names the library.
"""

import ctypes
import os
import re
from pathlib import Path
from typing import Any, Callable, Dict, Tuple

HERE = Path(__file__).resolve().parent


def _header(name: str) -> str:
    beside = HERE / name
    path = beside if beside.is_file() else HERE.parents[2] / "include" / name
    return path.read_text(encoding="utf-8")


_TEXT = _header("pfair.h") + _header("pfair_shared.h")

# Each number of the headers' enumerations, by its name without PFAIR_.
NUMBERS: Dict[str, int] = {
    name: int(number) for name, number in re.findall(r"^\s+PFAIR_(\w+) = (\d+)", _TEXT, re.MULTILINE)
}

ABI = int(re.search(r"^#define PFAIR_ABI (\d+)", _TEXT, re.MULTILINE)[1])  # type: ignore[index]

VERSION: str = re.search(r'^#define PFAIR_VERSION "(.*)"', _TEXT, re.MULTILINE)[1]  # type: ignore[index]

U32, U64, SIZE = ctypes.c_uint32, ctypes.c_uint64, ctypes.c_size_t


# The headers without their comments.
_CODE = re.sub(r"/\*.*?\*/", "", _TEXT, flags=re.DOTALL)

_TYPES: Dict[str, Any] = {
    "uint64_t": U64, "uint32_t": U32, "int64_t": ctypes.c_int64, "char": ctypes.c_char, "size_t": SIZE, "bool": ctypes.c_bool,
}


def _declared(text: str) -> Tuple[str, Any]:
    """The name and the type of what C declares, as `const char *script`."""
    kind, star, name = re.fullmatch(r"\s*(?:const )?(\w+) (\*?)(\w+)\s*", text).groups()  # type: ignore[union-attr]
    if not star:
        return name, _TYPES[kind]
    if kind == "void":
        return name, ctypes.c_void_p
    # Of Python's bytes the library only reads.
    return name, ctypes.c_char_p if "const char" in text else ctypes.POINTER(_TYPES[kind])


def _structs() -> None:
    """Makes a class of each struct of the headers."""
    for name, fields in re.findall(r"typedef struct (\w+) \{(.*?)\}", _CODE, re.DOTALL):
        declared = [_declared(it) for it in fields.split(";") if it.strip()]
        _TYPES[name] = type(name, (ctypes.Structure,), {"_fields_": declared})


_structs()


def struct(name: str) -> Any:
    """The class of a struct, by its name in the headers without pfair_."""
    return _TYPES[f"pfair_{name}"]


def _load() -> Dict[str, Callable[..., int]]:
    """Each call of the headers, by its name without pfair_."""
    path = os.environ.get("PFAIR_LIBRARY") or str(HERE / "libpfair.so")
    library = ctypes.CDLL(path)
    abi = library.pfair_abi() if hasattr(library, "pfair_abi") else None
    if abi != ABI:
        raise ImportError(f"{path} does not go with this package: its PFAIR_ABI is {abi}, not {ABI}", name="pfair", path=path)
    calls: Dict[str, Callable[..., int]] = {}
    for gives, name, takes in re.findall(r"^(\w+) pfair_(\w+)\((.*?)\);", _CODE, re.DOTALL | re.MULTILINE):
        call = getattr(library, f"pfair_{name}")
        call.restype = None if gives == "void" else U32
        call.argtypes = [_declared(it)[1] for it in takes.split(",") if it != "void"]
        calls[name] = call
    return calls


CALLS = _load()


def filled(name: str, element: Any, *words: Any) -> Tuple[int, Any]:
    """The status of a call, and what it fills: a room that is made as long as it asks for."""
    count, length = SIZE(), 0
    while True:
        room = (element * max(length, 1))()
        status = CALLS[name](*words, room, length, count)
        if status != NUMBERS["TOO_SHORT"]:
            return status, room[: count.value]
        length = count.value
