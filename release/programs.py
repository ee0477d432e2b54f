"""The makers' programs for Linux: the module that the toolchain makes of a proved program, compiled for either processor and linked by itself."""
import os, re

import module
from kit import OPTIMISED, run, write
from module import Unexpected

HERE = os.path.dirname(os.path.abspath(__file__))
COMPILERS = {"x86_64-linux": "x86_64-linux-gnu-gcc", "aarch64-linux": "aarch64-linux-gnu-gcc"}
# What a module may ask for: of programs.c, of the C library, where numbers and sizes are the same on both processors, and of the compiler.
ASKED = {
    "rattle_arg", "rattle_errno", "rattle_set_errno", "rattle_open", "read", "write", "close", "__xpg_strerror_r",
    "llvm.memset.p0.i64", "llvm.memmove.p0.p0.i64", "llvm.cttz.i64", "llvm.trap",
}
# The toolchain's start looks at x86-64's features; programs.c has one without, which calls what that one does.
START = re.compile(r'^define i32 @main\(\) #\d+ \{\n.*? = call i32 (@"[\w:]+\+start")\(\)\n.*?^\}\n', re.M | re.S)
OF_START = re.compile(r"^declare [^\n]*@(?:__sysv_signal|__x86_get_cpuid_feature_leaf|__write)\([^\n]*\n", re.M)


def portable(text, name):
    """The module without what ties it to x86-64."""
    text = module.retargeted(text)
    starts = START.findall(text)
    if len(starts) != 1:
        raise Unexpected(f"{name} begins in another form")
    text = OF_START.sub("", START.sub("", text))
    text = re.sub(rf"^define internal (?=(?:noundef )?i32 {re.escape(starts[0])}\()", "define ", text, flags=re.M)
    text = text.replace(f"{starts[0]}(", "@rattle_main(").replace("@open(", "@rattle_open(")
    strange = set(re.findall(r"^declare [^\n]*@([\w.]+)\(", text, re.M)) - ASKED
    if strange:
        raise Unexpected(f"{name} asks for functions that release/programs.c does not give: {' '.join(sorted(strange))}")
    return text


def compiled(kit, name, target, room):
    """The program's bytes: static, so that it runs on every Linux of that processor."""
    source, part, made = (os.path.join(room, f"{name}-{target}{end}") for end in (".ll", ".o", ""))
    write(source, portable(kit.program(name), name))
    kit.clang(f"--target={target.removesuffix('-linux')}-unknown-linux-gnu", *OPTIMISED, "-c", "-x", "ir", source, "-o", part)
    run([COMPILERS[target], "-O2", "-static", "-s", "-Wl,--build-id=none", os.path.join(HERE, "programs.c"), part, "-o", made])
    with open(made, "rb") as file:
        return file.read()
