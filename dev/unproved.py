"""Makes an optimised program of sources that nobody has proved, for tools/look.

The kit's `rt try` compiles the sources of a crate without a proof, into a module that is then built with checks and runs
slowly. Here `rt` is called in a folder that looks like the kit but for its compiler, which keeps the module and builds
nothing. The module loses the calls that belong to the checks, and is compiled as those of proved programs are.
"""
import os
import re
import shutil
import subprocess

TARGET = "x86_64-unknown-linux-gnu"
# The processors for which the kit compiles proved programs.
PROCESSORS = "x86-64-v2"
# Lines of a module that are there for the checks of a trial run: calls of the checks, and bytes that fill what isn't written.
CHECKS = re.compile(r'\s*call void (@"rattle-llvm-checks::|@llvm\.trap\(\)|@llvm\.memset\.p0\.i64\(.*i8 -86,)')
KEEPING = """#!/bin/sh
case " $* " in
    *" -fsanitize=address"*)
        for word in "$@"; do
            case $word in *.bc) cp "$word" '{module}' && exit 1 ;; esac
        done
        ;;
esac
exec '{kit}/toolchain/bin/clang' "$@"
"""


class Unexpected(Exception):
    """The kit isn't as it is expected here, or the sources don't compile."""


def link_all(place, to, *others):
    """Makes a folder with links to all that is in another one, but for some names."""
    os.mkdir(to)
    for name in os.listdir(place):
        if name not in others:
            os.symlink(f"{place}/{name}", f"{to}/{name}")


def lend_kit(kit, room):
    """Makes a folder in a room that looks like the kit, whose compiler puts the module that it gets into the room."""
    link_all(kit, f"{room}/kit", "bin", "toolchain")
    link_all(f"{kit}/bin", f"{room}/kit/bin", "rt", "rtlib.py")
    link_all(f"{kit}/toolchain", f"{room}/kit/toolchain", "bin")
    link_all(f"{kit}/toolchain/bin", f"{room}/kit/toolchain/bin", "clang")
    # They look for the kit where they stand.
    for name in ("rt", "rtlib.py"):
        shutil.copy(f"{kit}/bin/{name}", f"{room}/kit/bin/{name}")
    with open(f"{room}/kit/toolchain/bin/clang", "w", encoding="utf-8") as script:
        script.write(KEEPING.format(module=f"{room}/module.bc", kit=kit))
    os.chmod(f"{room}/kit/toolchain/bin/clang", 0o755)


def run(*words, **how):
    ran = subprocess.run(words, stdin=subprocess.DEVNULL, stdout=subprocess.PIPE, stderr=subprocess.STDOUT, text=True,
                         errors="replace", **how)
    return ran.returncode, ran.stdout


def need(*words, **how):
    status, printed = run(*words, **how)
    if status:
        raise Unexpected(f"{os.path.basename(words[0])}: status {status}: {printed[-300:].strip()}")


def without_checks(module, to):
    """Writes the text of a module without what belongs to the checks of a trial run."""
    with open(module, errors="surrogateescape") as lines, open(to, "w", errors="surrogateescape") as out:
        for line in lines:
            if CHECKS.match(line):
                continue
            if line.startswith("attributes #"):
                line = re.sub(r' *(sanitize_address|"(frame-pointer|probe-stack|stack-probe-size)"="[^"]*")', "", line)
                line = line.replace('"target-cpu"="x86-64"', f'"target-cpu"="{PROCESSORS}"').replace("{ }", "{ nounwind }")
            out.write(line)


def make_unproved(kit, folder, room):
    """The program of the crate in a folder, as a file in a room."""
    lend_kit(kit, room)
    _, printed = run(f"{room}/kit/bin/rt", "try", "--seconds", "5", cwd=folder)
    if not os.path.exists(f"{room}/module.bc"):
        raise Unexpected(f"`rt try` made no module: {printed[-300:].strip()}")
    clang, text = f"{kit}/toolchain/bin/clang", ["-x", "ir"]
    need(clang, f"--target={TARGET}", *text, "module.bc", "-S", "-emit-llvm", "-Xclang", "-disable-llvm-passes", "-o", "module.ll",
         cwd=room)
    without_checks(f"{room}/module.ll", f"{room}/plain.ll")
    need(clang, f"--target={TARGET}", f"--sysroot={kit}/toolchain", f"-march={PROCESSORS}", "-O3", "-fPIE",
         "-ffunction-sections", "-fdata-sections", "-mllvm", "-trap-unreachable", "-mllvm", "-no-trap-after-noreturn",
         "--no-default-config", "-Wno-override-module", "-c", *text, "plain.ll", "-o", "plain.o", cwd=room)
    libraries = [f"{kit}/c/{name}" for name in ("libos_c.a", "liblibc_c.a")]
    need(f"{kit}/bin/rattle-link", "--target", TARGET, "--toolchain", f"{kit}/toolchain", "-o", "program", "plain.o", *libraries,
         cwd=room)
    return f"{room}/program"
