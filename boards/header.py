"""The header's prototypes: held to the module's functions, and turned into the shim that joins the two on a 32-bit processor.

The header says size_t, which is 32 bits wide there; the module as it comes takes lengths of 64 bits, and a part as a pointer and a 64-bit length in 16 bytes. The
wide shim widens the one and narrows the other, for each prototype alike; the module made small takes both as C has them. It is compiled with the header, so that
C's own rules hold it to the prototypes.
"""
import re, sys

from module import Unexpected

# C's types of parameters, as the module has them.
TYPES = {"uint8_t": "i8", "uint16_t": "i16", "uint32_t": "i32", "size_t": "i64"}
# The archive's object that a call stands in, by the mark before its prototype; a call without one stands in the first.
OBJECTS = {"": "heideklonk", "HK_LARGE": "tables", "HK_MAKERS": "makers", "HK_TWO_PIPE": "two_pipe"}
MARK = rf"(?:({'|'.join(filter(None, OBJECTS))})\s+)?"

BEGINNING = """\
/* The library's exports on a 32-bit processor. It is the library, and asks for no version. */
#define HK_ANY_VERSION
#include "heideklonk.h"

_Static_assert(sizeof(size_t) == 4 && sizeof(void *) == 4, "a 32-bit processor");
_Static_assert(sizeof(hk_part) == 8 && __builtin_offsetof(hk_part, length) == 4, "a slice as the small module has it");
_Static_assert(sizeof(hk_record) == 32 && _Alignof(hk_record) == 4, "a record as the module has it");

#if defined(__arm__)
/* Tag_ABI_VFP_args: nothing here is a floating-point number, so it links with firmware of either convention. */
__asm__(".eabi_attribute 28, 3");
#endif
"""
WIDE_PART = """
/* size_t outside, the module's 64-bit lengths inside. */
typedef struct { const uint8_t *start; uint64_t length; } wide_part;
_Static_assert(sizeof(wide_part) == 16 && __builtin_offsetof(wide_part, length) == 8 && _Alignof(wide_part) == 8, "a slice as the module has it");
"""


class Prototype:
    def __init__(self, text):
        found = re.match(rf"{MARK}(\w+)\s+(hk_\w+)\s*\((.*)\)$", text, re.S)
        if not found:
            raise Unexpected(f"include/heideklonk.h has a prototype of another form: {text}")
        self.object, self.result, self.name = OBJECTS[found[1] or ""], found[2], found[3]
        words = [] if found[4].strip() == "void" else found[4].split(",")
        self.parameters = [self.parameter(" ".join(word.split())) for word in words]

    def parameter(self, text):
        """A parameter's type and name; an array of bytes is a pointer."""
        found = re.match(r"((?:const )?\w+ ?\*?) ?(\w+)(\[\d+\])?$", text)
        if not found:
            raise Unexpected(f"include/heideklonk.h: {self.name} has a parameter of another form: {text}")
        return found[1].strip() + (" *" if found[3] else ""), found[2]

    def signature(self):
        """Result and parameters as the module has them."""
        kinds = ["ptr" if "*" in kind else TYPES.get(kind) for kind, _ in self.parameters]
        return TYPES.get(self.result), kinds

    def shim(self):
        """The small module's function has the export's own types. The export, into which it is compiled, is to be small too."""
        name, words = self.name.removeprefix("hk_"), ", ".join(f"{kind} {word}" for kind, word in self.parameters) or "void"
        called = f"small_{name}({', '.join(word for _, word in self.parameters)})"
        return f"\n{self.result} small_{name}({words});\n__attribute__((minsize)) {self.result} {self.name}({words}) {{\n    return {called};\n}}\n"

    def wide_shim(self):
        """The wide function's prototype, and the export that calls it."""
        wide = [(kind.replace("size_t", "uint64_t").replace("hk_part", "wide_part"), name) for kind, name in self.parameters]
        parts = [name for kind, name in self.parameters if kind == "hk_part *"]
        name = self.name.removeprefix("hk_")
        lines = [f"\n{self.result} wide_{name}({', '.join(f'{kind} {word}' for kind, word in wide) or 'void'});"]
        lines.append(f"{self.result} {self.name}({', '.join(f'{kind} {word}' for kind, word in self.parameters) or 'void'}) {{")
        lines += [f"    wide_part found_{part} = {{{part}->start, {part}->length}};" for part in parts]
        lines.append(f"    {self.result} result = wide_{name}({', '.join(f'&found_{word}' if word in parts else word for _, word in self.parameters)});")
        lines += [f"    {part}->start = found_{part}.start;\n    {part}->length = (size_t)found_{part}.length;" for part in parts]
        return "\n".join([*lines, "    return result;", "}", ""])


def prototypes(text):
    """All of the header's, in its order."""
    text = re.sub(r"/\*.*?\*/", "", text, flags=re.S)
    return [Prototype(found[1]) for found in re.finditer(rf"^({MARK}\w+\s+hk_\w+\s*\([^;]*\));", text, re.M)]


def hold(found, exports):
    """The header's prototypes and the module's exports are the same, name by name and type by type."""
    names = {prototype.name for prototype in found}
    if names != exports.keys():
        raise Unexpected("include/heideklonk.h and the module have different functions: " + " ".join(sorted(names ^ exports.keys())))
    for prototype in found:
        if prototype.signature() != exports[prototype.name]:
            raise Unexpected(f"include/heideklonk.h: {prototype.name} takes or gives other types than the module's function")


def shim(found, wide):
    if wide:
        return BEGINNING + WIDE_PART + "".join(prototype.wide_shim() for prototype in found)
    return BEGINNING + "".join(prototype.shim() for prototype in found)


def whole_registers(text):
    """The header for tests on a bare machine: a result is the whole register that it comes in, and goes through `a_byte`, which tells if it is none."""
    found = [prototype for prototype in prototypes(text) if prototype.result == "uint8_t"]
    for prototype in found:
        text = re.sub(rf"^{MARK}{prototype.result}(\s+{prototype.name}\b)", r"unsigned long\2", text, flags=re.M)
    macros = "".join(f"#define {prototype.name}(...) a_byte({prototype.name}(__VA_ARGS__))\n" for prototype in found)
    return f"{text}\nuint8_t a_byte(unsigned long whole_register);\n{macros}"


if __name__ == "__main__":
    sys.stdout.write(whole_registers(sys.stdin.read()))
