"""What tools/build makes of a proved crate: the program and the C library, for x86-64 and for aarch64, and the module for browsers.

The prover compiles what it has proved, and writes one file. The steps from there to what is released are here; each runs one command of
the toolchain, or one of Debian's where the toolchain has none.
"""
from __future__ import annotations

import os
import shlex
import shutil
import subprocess
from collections.abc import Callable
from pathlib import Path
from typing import ClassVar

import web

TOP = Path(__file__).resolve().parents[1]
# What the C library and the module show. All else in them is their own.
EXPORTS = ("vemodel_open", "vemodel_step", "vemodel_reply", "vemodel_close", "vemodel_version")
# The name by which programs find the library. Its number goes up where a function or the handle changes.
SONAME = "libvemodel.so.0"
X86_64, AARCH64 = "x86_64-unknown-linux-gnu", "aarch64-unknown-linux-gnu"
# Where Debian's packages libc6-dev-arm64-cross and libgcc-12-dev-arm64-cross put what a program for aarch64 is linked with.
ARM_LIBC, ARM_COMPILER = Path("/usr/aarch64-linux-gnu/lib"), Path("/usr/lib/gcc-cross/aarch64-linux-gnu/12")
ARM_FILES = [ARM_LIBC / it for it in ("Scrt1.o", "crti.o", "crtn.o", "libc.so.6", "libm.so.6", "libc_nonshared.a", "libgcc_s.so.1")]
ARM_FILES += [ARM_LIBC / "ld-linux-aarch64.so.1", *(ARM_COMPILER / it for it in ("crtbeginS.o", "crtendS.o", "libgcc.a"))]
ARM_PACKAGES = "libc6-dev-arm64-cross and libgcc-12-dev-arm64-cross"
# How the prover has WebAssembly compiled where it does so itself.
WASM = """--target=wasm64-unknown-unknown -mcpu=lime1 -mllvm -expand-div-rem-bits=64 -mllvm -expand-fp-convert-bits=64 -ffunction-sections
 -fdata-sections -mllvm -trap-unreachable -mllvm -no-x86-call-frame-opt -mllvm -disable-machine-licm -mllvm -disable-postra-machine-licm
 -mllvm -sink-common-insts=false --no-default-config -no-canonical-prefixes -fno-crash-diagnostics -c""".split()
# What the module needs of an engine, and the pass that takes away the first, which not each has.
LOWER = """--enable-memory64 --enable-bulk-memory --enable-sign-ext --enable-mutable-globals --enable-nontrapping-float-to-int
 --enable-multivalue --memory64-lowering""".split()

Call = Callable[..., int]


class Missing(Exception):
    """What isn't on this machine."""


class Failed(Exception):
    """A step failed."""

    def __init__(self, status: int) -> None:
        super().__init__(f"a step ended with status {status}")


class Product:
    """What is made of a crate that no other stands on, in a folder of its own."""

    word: ClassVar[str]  # that tools/sources.sh has for it
    crate: ClassVar[str]
    proved: ClassVar[str]  # the file that the prover writes
    made: ClassVar[tuple[str, ...]]  # the files that the last step writes
    flags: ClassVar[tuple[str, ...]] = ()  # for the prover

    def __init__(self, kit: str, folder: Path) -> None:
        self.kit, self.folder = kit, folder

    @classmethod
    def require(cls) -> None:
        """Raises Missing where this machine lacks what it is made with."""

    @classmethod
    def others(cls) -> str:
        """Returns with which tools beside the toolchain it is made, so that it can be told why another machine makes something else."""
        return ""

    def toolchain(self) -> str:
        """Returns the folder of the tools with which the prover compiles, and makes it where it isn't the kit's."""
        return f"{self.kit}/toolchain"

    def finish(self, call: Call) -> None:
        """Makes the files of `made`, where the one of `proved` stands, by calling commands. Raises Failed and web.Refused."""
        raise NotImplementedError

    def at(self, name: str) -> str:
        return str(self.folder / name)

    def tool(self, name: str) -> str:
        return f"{self.kit}/toolchain/bin/{name}"


def run(call: Call, *words: str) -> None:
    """Runs a step. Raises Failed."""
    status = call(*words)
    if status:
        raise Failed(status)


def said(*words: str) -> str:
    """Returns what a command prints; nothing where there is no such command."""
    return subprocess.run(words, capture_output=True, text=True).stdout.strip() if shutil.which(words[0]) else ""


class Program(Product):
    word, crate, proved, made = "program", "vemodel", "vemodel.o", ("vemodel",)

    def finish(self, call: Call) -> None:
        # (the gate's store gives it linked)
        if Path(self.at(self.proved)).exists():
            words = ["--target", X86_64, "--toolchain", self.toolchain(), "-o", self.at("vemodel"), self.at(self.proved)]
            run(call, f"{self.kit}/bin/rattle-link", *words, f"{self.kit}/c/libos_c.a", f"{self.kit}/c/liblibc_c.a")


class Library(Product):
    word, crate, proved, made = "library", "vemodel_c", "libvemodel_c.a", ("libvemodel_c.a", SONAME)

    def finish(self, call: Call) -> None:
        link_shared(self, call, "elf_x86_64", self.at(SONAME), f"{self.kit}/c/liblibc_c.a", f"{self.kit}/toolchain/lib/libc.so.6")


def link_shared(product: Product, call: Call, emulation: str, to: str, *below: str) -> None:
    """Links a static library as a shared one, with the heap's three functions over malloc in it, so that it needs libc alone.

    The toolchain's linker does so, against the libc that programs are linked against: so what is made depends on nothing else of this
    machine.
    """
    script = Path(f"{to}.exports")
    script.write_text(f"{{ global: {' '.join(f'{it};' for it in EXPORTS)} local: *; }};\n")
    words = ["-m", emulation, "-shared", "-soname", SONAME, "-o", to, "--version-script", str(script), "--no-undefined"]
    words += ["--gc-sections", "-z", "relro", "-z", "now", "-z", "noexecstack", "--fatal-warnings", "--threads=1"]
    run(call, product.tool("ld.lld"), *words, "--whole-archive", product.at(product.proved), "--no-whole-archive", *below)


class Arm(Product):
    """What is made for aarch64. The toolchain has a libc for x86-64 alone, so that Debian's is taken, and what std calls of C is compiled
    of tools/aarch64.c."""

    flags = ("--target", AARCH64)

    @classmethod
    def require(cls) -> None:
        lacks = [str(it) for it in ARM_FILES if not it.exists()]
        if lacks:
            raise Missing(f"{cls.word} needs {lacks[0]}: install Debian's {ARM_PACKAGES}")

    @classmethod
    def others(cls) -> str:
        owners = said("dpkg-query", "--search", *map(str, ARM_FILES)).splitlines()
        names = sorted({line.split(":")[0] for line in owners})
        return said("dpkg-query", "--show", *names).replace("\t", " ").replace("\n", ", ") if names else "files of no package"

    def toolchain(self) -> str:
        folder = tools_of(self.kit, self.folder)
        for it in ARM_FILES:
            shutil.copy(it, folder / "lib")
        return str(folder)

    def calls_of_c(self, call: Call) -> str:
        """Compiles what std calls of C. Returns the object file."""
        words = [f"--target={AARCH64}", "--no-default-config", "-std=c11", "-O2", "-fPIC", "-ffunction-sections", "-Wall", "-Wextra", "-Werror"]
        run(call, self.tool("clang"), *words, "-c", "-o", self.at("aarch64.o"), str(TOP / "tools/aarch64.c"))
        return self.at("aarch64.o")


class ArmProgram(Arm):
    word, crate, proved, made = "program-aarch64", "vemodel", "vemodel.o", ("vemodel-aarch64-linux",)

    def finish(self, call: Call) -> None:
        words = ["--target", AARCH64, "--toolchain", self.toolchain(), "-o", self.at(self.made[0]), self.at(self.proved)]
        run(call, f"{self.kit}/bin/rattle-link", *words, self.calls_of_c(call))


class ArmLibrary(Arm):
    word, crate, proved, made = "library-aarch64", "vemodel_c", "libvemodel_c.a", ("libvemodel-aarch64.so",)

    def finish(self, call: Call) -> None:
        below = Path(self.toolchain(), "lib")
        # (clang may call its library for counts that threads share)
        words = [self.calls_of_c(call), str(below / "libgcc.a"), str(below / "libc.so.6")]
        link_shared(self, call, "aarch64linux", self.at(self.made[0]), *words)


class Web(Product):
    """The module for browsers. Where code takes memory from C, the prover's backend compiles none for WebAssembly. So its module for
    x86-64 is kept, made one for WebAssembly (tools/web.py), and compiled, linked with a heap and lowered to a 32-bit memory, which each
    engine has. The processor is the plain one: for others, std's code would be of their instructions."""

    word, crate, proved, made = "web", "vemodel_c", "web.a", ("vemodel.wasm",)
    flags = ("--cpu", "x86-64")

    @classmethod
    def require(cls) -> None:
        if not shutil.which("wasm-opt"):
            raise Missing(f"{cls.word} needs wasm-opt: install Debian's binaryen")

    @classmethod
    def others(cls) -> str:
        return said("wasm-opt", "--version")

    def toolchain(self) -> str:
        return str(keeping(self.kit, self.folder))

    def finish(self, call: Call) -> None:
        clang = self.tool("clang")
        run(call, clang, *web.AS_TEXT, f"--target={X86_64}", self.at("module.bc"), "-o", self.at("module.ll"))
        with open(self.at("module.ll")) as lines, open(self.at("web.ll"), "w") as to:
            to.writelines(web.for_web(lines, EXPORTS))
        run(call, clang, *WASM, "-x", "ir", "-Wno-override-module", "-O3", self.at("web.ll"), "-o", self.at("web.o"))
        heap = ["-x", "c", "-std=c11", "-ffreestanding", "-nostdinc", "-Wall", "-Wextra", "-Werror", "-O2", str(TOP / "clients/web/heap.c")]
        run(call, clang, *WASM, *heap, "-o", self.at("heap.o"))
        Path(self.at("linked.a")).unlink(missing_ok=True)
        run(call, self.tool("llvm-ar"), "rcs", "--format=gnu", self.at("linked.a"), self.at("web.o"), self.at("heap.o"))
        words = ["--target", web.TRIPLE, "--toolchain", f"{self.kit}/toolchain", "-o", self.at("linked.wasm"), self.at("linked.a")]
        run(call, f"{self.kit}/bin/rattle-link", *words)
        linked = Path(self.at("linked.wasm"))
        linked.write_bytes(with_short_table(linked.read_bytes()))
        run(call, shutil.which("wasm-opt") or "wasm-opt", *LOWER, str(linked), "-o", self.at("vemodel.wasm"))


def tools_of(kit: str, folder: Path) -> Path:
    """Makes a toolchain's folder that has the kit's tools, and no libraries yet. Returns it."""
    made = folder / "toolchain"
    shutil.rmtree(made, ignore_errors=True)
    (made / "bin").mkdir(parents=True)
    (made / "lib").mkdir()
    for name in os.listdir(f"{kit}/toolchain/bin"):
        (made / "bin" / name).symlink_to(f"{kit}/toolchain/bin/{name}")
    return made


def keeping(kit: str, folder: Path) -> Path:
    """Makes a toolchain's folder, for x86-64, whose clang keeps the module that it compiles, as module.bc beside. Returns it."""
    made = tools_of(kit, folder)
    for name in os.listdir(f"{kit}/toolchain/lib"):
        (made / "lib" / name).symlink_to(f"{kit}/toolchain/lib/{name}")
    clang = made / "bin" / "clang"
    clang.unlink()
    # (the prover gives it no environment, so that the paths stand here)
    keep = f'for it in "$@"; do case $it in *.bc) /bin/cp "$it" {shlex.quote(str(folder))}/module.bc ;; esac; done'
    clang.write_text(f'#!/bin/sh\n{keep}\nexec {shlex.quote(kit)}/toolchain/bin/clang "$@"\n')
    clang.chmod(0o755)
    return made


def with_short_table(module: bytes) -> bytes:
    """Returns a WebAssembly module whose table has a 32-bit index. The linker makes one of 64 bits, which few engines know, and leaves it
    empty, since no call goes over it."""
    changed, at = bytearray(module), 8
    while at < len(module):
        section, (length, at) = module[at], unsigned(module, at + 1)
        if section == 4:
            if module[at : at + 2] != b"\x01\x70":
                raise web.Refused("another table than one of functions")
            changed[at + 2] &= ~4
        at += length
    return bytes(changed)


def unsigned(module: bytes, at: int) -> tuple[int, int]:
    """Returns the number that stands at a place of a module, and the place behind it."""
    value = shift = 0
    while True:
        value |= (module[at] & 127) << shift
        shift, at = shift + 7, at + 1
        if module[at - 1] < 128:
            return value, at


PRODUCTS: dict[str, type[Product]] = {it.word: it for it in (Program, Library, Web, ArmProgram, ArmLibrary)}
