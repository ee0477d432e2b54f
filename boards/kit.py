"""The toolchain: its clang, what it makes of what is proved, and the modules that it hands to its clang on the way, caught there.

The library is the crate board_c, a static library, and a program is a crate of its own. Each is made by `rattle build` over the libraries that rt has proved:
rt is asked to prove them first, unless HK_PROVED is set: `yes` where that was done right before, `gate` where rt ci has done it in a checkout in which nothing was made before, so
that the programs in out/ are of that run too.
"""
import os, re, shlex, shutil, subprocess, tempfile

from module import Unexpected
from plain import lean, marked, plain

TOP = os.path.dirname(os.path.dirname(os.path.abspath(__file__)))
FOLDER = os.path.join(TOP, "target", "archive")
# The static library's crate, and its archive as the toolchain makes it; the library for C on this machine, and the programs.
LIBRARY = "board_c"
TOOLCHAIN_ARCHIVE = os.path.join(FOLDER, "libboard_c.a")
ARCHIVE = os.path.join(TOP, "target", "staticlib", "libboard.a")
PROGRAMS = os.path.join(TOP, "target", "bin")
MODULE = os.path.join(FOLDER, "module.ll")
SOURCES = [os.path.join(TOP, "crates"), os.path.join(TOP, "crates.txt")]
# As it is: nothing optimised.
KEEP = shlex.split("-O0 -Xclang -disable-llvm-passes --no-default-config -Wno-override-module")
# The same, but for what is marked to be compiled into its callers.
INLINE = shlex.split("-O0 --no-default-config -Wno-override-module")
TRIPLE = "x86_64-unknown-linux-gnu"
# How the toolchain has its clang optimise: -O3, without what it has known to be wrong.
OPTIMISED = shlex.split(
    "-O3 -ffunction-sections -fdata-sections -mllvm -trap-unreachable -mllvm -no-trap-after-noreturn -mllvm -disable-machine-licm -mllvm -disable-postra-machine-licm "
    "-mllvm -sink-common-insts=false --no-default-config -Wno-override-module"
)
OF_X86 = shlex.split("-march=x86-64 -fPIC -mllvm -no-x86-call-frame-opt")


def run(command, **options):
    done = subprocess.run(command, capture_output=True, text=True, **options)
    if done.returncode != 0:
        raise Unexpected(f"{os.path.basename(command[0])} ends with {done.returncode}:\n" + (done.stdout + done.stderr)[-2000:])
    return done.stdout


def read(path):
    with open(path, encoding="utf-8") as file:
        return file.read()


def write(path, text):
    with open(path, "w", encoding="utf-8") as file:
        file.write(text)


def find_kit():
    rt = shutil.which("rt", path=os.environ["PATH"] + os.pathsep + os.path.join(os.environ.get("RATTLE_HOME", ""), "bin"))
    if rt is None:
        raise Unexpected("rt is not found: put the toolchain's bin/ on PATH, or its folder in RATTLE_HOME")
    return rt, os.path.dirname(os.path.dirname(os.path.realpath(rt)))


def needed(top=TOP):
    """The crates of crates.txt and what each names, lowest first as they stand there."""
    found = {}
    for line in read(os.path.join(top, "crates.txt")).splitlines():
        one = re.match(r"(\w+)[^:#]*:([\w ]*)", line)
        if one:
            found[one[1]] = one[2].split()
    return found


def below(name, crates):
    """The repository's crates below one, each after those that it needs."""
    found = []
    for one in crates[name]:
        if one in crates:
            found += [other for other in [*below(one, crates), one] if other not in found]
    return found


class Kit:
    def __init__(self, top=TOP):
        self.rt, self.home = find_kit()
        self.top, self.crates = top, needed(top)
        self.tools = os.path.join(self.home, "toolchain", "bin")
        self.identity = "; " + read(os.path.join(self.home, "KIT-ID")).strip() + "\n"

    def tool(self, name):
        return os.path.join(self.tools, name)

    def clang(self, *words, **options):
        return run([self.tool("clang"), *words], **options)

    # ---- proving
    def prove(self, name):
        """All that a crate needs, and it itself; a library of the repository's that was proved is not proved again."""
        if os.environ.get("HK_PROVED"):
            return
        verb = "lib" if self.is_library(name) else "check"
        print(f"rt {verb}, in crates/{name} (the first time it proves every function, one line each):", flush=True)
        lines = []
        with subprocess.Popen([self.rt, verb], cwd=self.folder(name), stdout=subprocess.PIPE, stderr=subprocess.STDOUT, text=True) as proving:
            for line in proving.stdout:
                lines.append(line)
                if line.startswith(("fn ", "rt: ")):
                    print(f"    {line}", end="", flush=True)
        if proving.returncode != 0:
            raise Unexpected(f"rt {verb}, in crates/{name}:\n" + "".join(lines[-20:]))

    def folder(self, name):
        return os.path.join(self.top, "crates", name)

    def is_library(self, name):
        return os.path.exists(os.path.join(self.folder(name), "src", "lib.rt"))

    def rlib(self, name):
        """A proved library: one of the repository or of the toolchain."""
        if name in self.crates:
            return os.path.join(self.folder(name), "out", "rlib", f"{name}.rlib")
        return os.path.join(self.home, "rlibs", f"{name}.rlib")

    # ---- making
    def build(self, name, out, toolchain):
        """`rattle build` of a proved crate, with this folder of tools."""
        kept = os.path.join(self.folder(name), "out", "incremental")
        libraries = list(dict.fromkeys(["std", *self.crates[name]]))
        folders = [os.path.join(self.home, "rlibs"), *(os.path.dirname(self.rlib(one)) for one in below(name, self.crates))]
        run([os.path.join(self.home, "bin", "rattle"), "build", "--crate-name", name, f"src/{'lib' if self.is_library(name) else 'main'}.rt",
             *(word for one in libraries for word in ("--extern", f"{one}={self.rlib(one)}")), *(word for one in folders for word in ("-L", f"dependency={one}")),
             "--antt-project", os.path.join(self.home, "rattle", "logic", "antt-project.json"), "--logic-built", os.path.join(self.home, "logic_built"),
             *(["--incremental", kept] if os.path.isdir(kept) else ["--jobs", str(os.cpu_count())]), "--links", f"{name}=",
             *(["--crate-type", "staticlib", "--cpu", "x86-64"] if self.is_library(name) else []), "--backend", "llvm", "--toolchain", toolchain, "-o", out], cwd=self.folder(name))

    def catch(self, name, out, room):
        """Makes a crate, and gives what rattle hands to clang: it is run with a folder of links to the tools, whose clang keeps what it is handed."""
        caught, mirror = os.path.join(room, "caught"), os.path.join(room, "toolchain")
        os.makedirs(os.path.join(mirror, "bin"))
        os.mkdir(caught)
        os.symlink(os.path.join(self.home, "toolchain", "lib"), os.path.join(mirror, "lib"))
        for tool in os.listdir(self.tools):
            if tool != "clang":
                os.symlink(self.tool(tool), os.path.join(mirror, "bin", tool))
        wrapper = os.path.join(mirror, "bin", "clang")
        write(wrapper, "#!/bin/sh\n"
              f'for word; do case $word in *.bc | *.ll) cp "$word" "$(mktemp -u {shlex.quote(caught)}/XXXXXX)" ;; esac; done\n'
              f'exec {shlex.quote(self.tool("clang"))} "$@"\n')
        os.chmod(wrapper, 0o755)
        self.build(name, out, mirror)
        modules = os.listdir(caught)
        if len(modules) != 1:
            raise Unexpected(f"rattle build, in crates/{name}, hands {len(modules)} modules to clang, not one")
        return os.path.join(caught, modules[0])

    def archive(self):
        """The library for C on this machine: of its module, so that a part of NULL stays one."""
        text = self.module()
        if is_newer(ARCHIVE, MODULE):
            return
        with tempfile.TemporaryDirectory() as room:
            source, part, made = (os.path.join(room, name) for name in ("module.ll", "board.o", "libboard.a"))
            write(source, lean(text))
            self.clang(f"--target={TRIPLE}", *OF_X86, *OPTIMISED, "-c", "-x", "ir", source, "-o", part)
            run([self.tool("llvm-ar"), "rcsD", made, part])
            os.makedirs(os.path.dirname(ARCHIVE), exist_ok=True)
            shutil.copy(made, ARCHIVE)

    def linked(self, name):
        """A program in target/bin: the gate's, or of the object that its module came with."""
        made, gates = os.path.join(PROGRAMS, name), os.path.join(self.folder(name), "out", name)
        if os.environ.get("HK_PROVED") == "gate" and os.path.exists(gates):
            os.makedirs(PROGRAMS, exist_ok=True)
            shutil.copy(gates, made)
            return
        self.program(name)
        part = os.path.join(FOLDER, f"{name}.o")
        if not is_newer(made, part):
            self.link(part, made)

    def link(self, part, out):
        """A program of its object file, as rt links it."""
        os.makedirs(os.path.dirname(out), exist_ok=True)
        libraries = [os.path.join(self.home, "c", name) for name in ("libos_c.a", "liblibc_c.a")]
        run([os.path.join(self.home, "bin", "rattle-link"), "--target", TRIPLE, "--toolchain", os.path.join(self.home, "toolchain"), "-o", out, part, *libraries])

    # ---- modules
    def module(self):
        """The library's module as text, caught unless the one caught before is current. The toolchain's archive comes of the same proof."""
        return self.kept(MODULE, LIBRARY, TOOLCHAIN_ARCHIVE)

    def program(self, name):
        """The module of a proved program as text, caught in the same way."""
        return self.kept(os.path.join(FOLDER, f"{name}.ll"), name, os.path.join(FOLDER, f"{name}.o"))

    def kept(self, kept, name, out):
        if not (is_current(out) and is_current(kept) and read(kept).startswith(self.identity)):
            os.makedirs(FOLDER, exist_ok=True)
            self.prove(name)
            with tempfile.TemporaryDirectory() as room:
                text = self.text(self.catch(name, out, room), room)
                write(kept, self.identity + (plain(self.without_pointer_results(text, room)) if name == LIBRARY else text))
        return read(kept)

    def without_pointer_results(self, text, room):
        """The same, with what gives back a pointer compiled into its callers: clang does that at -O0, and nothing else."""
        ready = marked(text)
        if ready is None:
            return text
        source, out = os.path.join(room, "marked.ll"), os.path.join(room, "inlined.ll")
        write(source, ready)
        self.clang(f"--target={TRIPLE}", *INLINE, "-S", "-emit-llvm", "-x", "ir", source, "-o", out)
        return read(out)

    def text(self, bitcode, room):
        out = os.path.join(room, "module.ll")
        self.clang(f"--target={TRIPLE}", *KEEP, "-S", "-emit-llvm", "-x", "ir", bitcode, "-o", out)
        return read(out)


def is_newer(made, source):
    return os.path.exists(made) and os.path.getmtime(made) >= os.path.getmtime(source)


def is_current(made):
    """Whether it is there, and no source is newer."""
    if not os.path.exists(made):
        return False
    time = os.path.getmtime(made)
    for place, folders, names in os.walk(SOURCES[0]):
        folders[:] = [one for one in folders if one != "out"]
        if any(os.path.getmtime(os.path.join(place, name)) > time for name in names):
            return False
    return os.path.getmtime(SOURCES[1]) <= time
