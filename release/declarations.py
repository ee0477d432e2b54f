"""The header's prototypes as Rust declarations: rust/src/sys.rs of the release."""
import re

TYPES = {"uint8_t": "u8", "uint16_t": "u16", "uint32_t": "u32", "size_t": "usize"}
BEGINNING = """\
// include/heideklonk.h as Rust declarations, made with the release. That header describes each call.
#![allow(non_camel_case_types, clippy::too_many_arguments)]

#[repr(C)]
pub struct hk_part {
    pub start: *const u8,
    pub length: usize,
}

"""


def rust_type(kind):
    """C's `const uint8_t *` as `*const u8`, and so on."""
    found = re.match(r"(const )?(\w+)( ?\*)?$", kind)
    name = TYPES.get(found[2], found[2])
    return name if not found[3] else f"*{'const' if found[1] else 'mut'} {name}"


def record(text):
    """struct hk_record, field by field."""
    body = re.search(r"typedef struct hk_record \{(.*?)\} hk_record;", re.sub(r"/\*.*?\*/", "", text, flags=re.S), re.S)[1]
    fields = [f"    pub {name}: " + (f"[{TYPES[kind]}; {length}]" if length else TYPES[kind]) + ",\n"
              for kind, name, length in re.findall(r"(\w+) (\w+)(?:\[(\d+)\])?;", body)]
    return "#[repr(C)]\n#[derive(Clone, Copy, Debug, PartialEq, Eq)]\npub struct hk_record {\n" + "".join(fields) + "}\n\n"


def in_rust(text, prototypes, symbol):
    lines = [f"    pub fn {one.name}({', '.join(f'{name}: {rust_type(kind)}' for kind, name in one.parameters)}) -> {TYPES[one.result]};\n" for one in prototypes]
    return BEGINNING + record(text) + 'extern "C" {\n' + "".join(lines) + f"}}\n\npub use {symbol} as VERSION_SYMBOL;\n"
