//! Links libpfair.a, and takes the numbers, structs and calls of its headers.
//!
//! The library is looked for in PFAIR_LIB_DIR, else in lib/<target>/ beside this file; the headers in PFAIR_INCLUDE_DIR,
//! else beside this file, else where the repository keeps them.
use std::path::{Path, PathBuf};
use std::{env, fs};

/// Each line `PFAIR_NAME = NUMBER` of the header's enumerations, and `#define PFAIR_ABI NUMBER`, as a constant.
fn constants(header: &str) -> String {
    let mut text = String::new();
    for line in header.lines() {
        let defined = line.strip_prefix("#define ").and_then(|it| it.split_once(' ')).filter(|it| it.0 == "PFAIR_ABI");
        let Some((name, rest)) = defined.or_else(|| line.trim().split_once(" = ")) else {
            continue;
        };
        let number: String = rest.chars().take_while(char::is_ascii_digit).collect();
        if name.starts_with("PFAIR_") && !number.is_empty() {
            text += &format!("/// `{name}` of `pfair.h`.\npub const {name}: u32 = {number};\n");
        }
    }
    text
}

/// A header without its comments, and without the functions that C makes itself.
fn code(header: &str) -> String {
    let mut parts = header.split("/*");
    let mut text = parts.next().unwrap_or_default().to_string();
    for part in parts {
        text += part.split_once("*/").expect("a comment ends").1;
    }
    text.split("static inline").next().unwrap_or_default().to_string()
}

/// The name and the type in Rust of what C declares, as `const uint8_t *room`.
fn declared(text: &str) -> (&str, String) {
    let (kind, name) = text.trim().rsplit_once(' ').expect("a type and a name");
    let (constant, kind) = kind.strip_prefix("const ").map_or((false, kind), |kind| (true, kind));
    let kind = match kind {
        "uint64_t" => "u64",
        "uint32_t" | "pfair_status" => "u32",
        "int64_t" => "i64",
        "char" => "core::ffi::c_char",
        "size_t" => "usize",
        "void" => "core::ffi::c_void",
        kind => kind,
    };
    match (name.strip_prefix('*'), constant) {
        (None, _) => (name, kind.to_string()),
        (Some(name), false) => (name, format!("*mut {kind}")),
        (Some(name), true) => (name, format!("*const {kind}")),
    }
}

/// The structs of a header. Those without a pointer are values.
fn structs(code: &str) -> String {
    let mut text = String::new();
    for part in code.split("typedef struct ").skip(1) {
        let (name, rest) = part.split_once(" {").expect("a struct has fields");
        let fields = rest.split_once('}').expect("a struct ends").0;
        let is_value = !fields.contains('*');
        let derives = if is_value { "#[derive(Clone, Copy, Debug, Default, PartialEq, Eq)]\n" } else { "" };
        text += &format!("#[repr(C)]\n{derives}pub struct {name} {{\n");
        for field in fields.split(';').filter(|it| !it.trim().is_empty()) {
            let (name, kind) = declared(field);
            text += &format!("    pub {name}: {kind},\n");
        }
        text += "}\n";
    }
    text
}

fn argument(text: &str) -> String {
    let (name, kind) = declared(text);
    format!("{name}: {kind}")
}

/// The calls of a header.
fn calls(code: &str) -> String {
    let mut text = String::from("unsafe extern \"C\" {\n");
    for part in code.split(';').filter(|it| it.contains(" pfair_") && it.trim_end().ends_with(')')) {
        let (head, rest) = part.split_once('(').expect("a call has arguments");
        let (name, kind) = declared(head.lines().last().expect("a call has a name"));
        let takes = rest.trim_end_matches(')').split(',').filter(|it| *it != "void");
        let takes: Vec<String> = takes.map(argument).collect();
        let gives = if kind.ends_with("c_void") { String::new() } else { format!(" -> {kind}") };
        text += &format!("    pub fn {name}({}){gives};\n", takes.join(", "));
    }
    text + "}\n"
}

/// The text of a header.
fn header(here: &Path, name: &str) -> String {
    let named = env::var_os("PFAIR_INCLUDE_DIR").map(PathBuf::from);
    let folders = [named, Some(here.to_path_buf()), Some(here.join("../../../include"))];
    let found = folders.into_iter().flatten().map(|it| it.join(name)).find(|it| it.is_file());
    let path = found.unwrap_or_else(|| panic!("no {name}: name its folder by PFAIR_INCLUDE_DIR"));
    println!("cargo:rerun-if-changed={}", path.display());
    fs::read_to_string(&path).expect("the header can be read")
}

fn main() {
    println!("cargo:rerun-if-env-changed=PFAIR_LIB_DIR");
    println!("cargo:rerun-if-env-changed=PFAIR_INCLUDE_DIR");
    let here = PathBuf::from(env::var_os("CARGO_MANIFEST_DIR").expect("cargo sets it"));
    let target = env::var("TARGET").expect("cargo sets it");
    let library = env::var_os("PFAIR_LIB_DIR").map_or_else(|| here.join("lib").join(target), PathBuf::from);
    println!("cargo:rerun-if-changed={}", library.join("libpfair.a").display());
    println!("cargo:rustc-link-search=native={}", library.display());
    println!("cargo:rustc-link-lib=static=pfair");

    let headers = ["pfair.h", "pfair_shared.h"].map(|it| header(&here, it));
    let out = PathBuf::from(env::var_os("OUT_DIR").expect("cargo sets it"));
    fs::write(out.join("numbers.rs"), constants(&headers.concat())).expect("the folder can be written");
    let codes = headers.map(|it| code(&it));
    let raw: String = codes.iter().map(|it| structs(it) + &calls(it)).collect();
    fs::write(out.join("raw.rs"), raw).expect("the folder can be written");
}
