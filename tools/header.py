"""The headers in include/ beside the crates that have their calls: the numbers, structs and calls of one are those of the other."""
import re

from programs import TOP

# The headers, each beside the crate that has its calls.
HEADERS = {TOP / "include" / "pfair.h": "pf_c_api", TOP / "include" / "pfair_shared.h": "pf_shared_c_api"}
HEADER = next(iter(HEADERS))

# The crate of the structs that both have.
FORMS = "pf_c_forms"

# Where the crates have the numbers of the headers, and how the names begin there.
NUMBERS = {
    "pf_c_forms/src/status.rt": r"pub const (\w+): u32 = (\d+);",
    "pf_c_forms/src/raw_event.rt": r"pub const (\w+): u64 = (\d+);",
    "pf_c_forms/src/raw_change.rt": r"pub const (\w+): u64 = (\d+);",
    "pf_c_api/src/raw_look.rt": r"pub const (\w+): u64 = (\d+);",
    "pf_c_api/src/text_kind.rt": r"pub const (\w+): u64 = (\d+);",
    "pf_scenario/specs/Refusals.antt": r"edit_fault_code \(?(\w+)(?: fault\))? = (\d+)",
    "pf_admit/specs/Refusals.antt": r"denial_code (\w+) = (\d+)",
    "pf_weight/specs/Refusals.antt": r"weight_fault_code (\w+) = (\d+)",
}

# What C calls the types of the crates; the others by their names there, as pfair_bad_record for RawBadRecord.
TYPES = {
    "u8": "char", "u32": "uint32_t", "u64": "uint64_t", "i64": "int64_t", "usize": "size_t", "bool": "bool",
    "Handle": "pfair_desk", "SharedHandle": "pfair_shared", "CallerHandle": "pfair_caller", "ReaderHandle": "pfair_reader",
    "SnapshotHandle": "pfair_snapshot", "RawFigures": "pfair_task_figures", "RawLook": "pfair_picture_look", "RawSettings": "pfair_setup",
}


# The handles, whose one field is the headers' own.
HANDLES = ("pfair_desk", "pfair_shared", "pfair_caller", "pfair_reader", "pfair_snapshot")


class Differs(Exception):
    """What a header has and the crates have not, or the other way."""


def in_c(name):
    """What C calls a type."""
    return TYPES.get(name) or "pfair" + re.sub(r"(?=[A-Z])", "_", name.removeprefix("Raw")).lower()


def header_code():
    """The headers without their comments."""
    return re.sub(r"/\*.*?\*/", "", "".join(it.read_text() for it in HEADERS), flags=re.S)


def sources(*crates):
    """The texts of these crates."""
    return [it.read_text() for crate in crates for it in sorted((TOP / "crates" / crate / "src").glob("*.rt"))]


def compare(here, there, what):
    """That both have the same of everything."""
    for name in sorted({*here, *there}):
        if here.get(name) != there.get(name):
            raise Differs(f"{what} {name}: {here.get(name)} in the crates, {there.get(name)} in the headers")


def numbers():
    """The numbers, by their names in the header."""
    found = {}
    for path, pattern in NUMBERS.items():
        some = re.findall(pattern, (TOP / "crates" / path).read_text())
        if not some:
            raise Differs(f"no numbers in crates/{path}")
        for name, number in some:
            found[name if name.isupper() else re.sub(r"(?<!^)(?=[A-Z])", "_", name).upper()] = number
    compare(found, dict(re.findall(r"^\s+PFAIR_(\w+) = (\d+)", header_code(), re.M)), "the number")


def version():
    """The version, as a text and in its parts, and the number of the ABI."""
    made = (TOP / "crates" / HEADERS[HEADER] / "src" / "version.rt").read_text()
    told = re.search(r'const VERSION: &str = "(.*)"', made)[1]
    text = re.search(r'^#define PFAIR_VERSION "(.*)"', header_code(), re.M)[1]
    parts = ".".join(re.findall(r"^#define PFAIR_VERSION_\w+ (\d+)", header_code(), re.M))
    if not told == text == parts:
        raise Differs(f"the version is {told} in the crate, {text} and {parts} in the header")
    abi = re.search(r"const ABI: u32 = (\d+)", made)[1]
    if f"#define PFAIR_ABI {abi}\n" not in header_code():
        raise Differs(f"PFAIR_ABI is {abi} in the crate")


def structs():
    """The structs: their fields in order, with their types."""
    here, there = {}, {}
    for text in sources(FORMS, *HEADERS.values()):
        for name, fields in re.findall(r"#\[repr\(C\)\]\n(?:#.*\n)?pub struct (Raw\w+) \{(.*?)\n\}", text, re.S):
            here[in_c(name)] = [(in_c(kind), field) for field, kind in re.findall(r"pub (\w+): (\w+),", fields)]
    for name, fields in re.findall(r"typedef struct (\w+) \{(.*?)\}", header_code(), re.S):
        if name not in HANDLES:
            there[name] = re.findall(r"(\w+) (\w+);", fields)
    compare(here, there, "the struct")


def argument(kind):
    """What C passes for an argument of this type: a slice is a pointer and a length."""
    reference, mutable, slice, name = re.fullmatch(r"(&)?(mut )?(\[)?(\w+)\]?", kind).groups()
    if not reference:
        return [in_c(name)]
    return [f"{'' if mutable else 'const '}{in_c(name)} *", *(["size_t"] if slice else [])]


def declared():
    """The calls of the headers: what each gives, its name, and what it takes."""
    return re.findall(r"^(\w+) (pfair_\w+)\((.*?)\);", header_code(), re.S | re.M)


def calls():
    """The calls: the types of their arguments in order, but for the allocator, which C does not pass, and what they give."""
    here, there = {}, {}
    for text in sources(*HEADERS.values()):
        for name, takes, gives in re.findall(r'pub extern "C" fn (\w+)\((.*?)\)(?: -> (\w+))?\n', text, re.S):
            kinds = [kind for kind in re.findall(r"\w+: ([^,\n]+)", takes) if kind != "Global"]
            here[name] = (in_c(gives) if gives else "void", [it for kind in kinds for it in argument(kind)])
    for gives, name, takes in declared():
        gives = "uint32_t" if gives == "pfair_status" else gives
        there[name] = (gives, [re.sub(r"\s*\w+$", "", it.strip()) for it in takes.split(",") if it != "void"])
    compare(here, there, "the call")


def agrees():
    """Raises where the headers and the crates differ."""
    for part in (numbers, version, structs, calls):
        part()
