"""Gives the LLVM module that the toolchain makes of the program, which it hands to clang and throws away.

The toolchain takes clang from its own folder. So this makes a folder like it, of links, in which clang is a script that keeps the module.
The script then fails, so that no time goes into a program that is there already.
"""
import os
import shutil
import subprocess

# A module below this is one by which the toolchain tries clang before it needs it.
LEAST_BYTES = 65536
STAND_IN = """#!/bin/sh
for word in "$@"; do
    case "$word" in
    *.bc) if [ "$(wc -c < "$word")" -ge {least} ]; then cp "$word" "{kept}"; exit 1; fi ;;
    esac
done
exec "{clang}" "$@"
"""


class NotMade(Exception):
    """Why the page cannot be made, for whoever asked for it."""


def kit_folder():
    """The folder of the toolchain, by its command rt on the PATH."""
    rt = shutil.which("rt")
    if not rt:
        raise NotMade("the command rt of the toolchain is missing")
    return os.path.dirname(os.path.dirname(os.path.realpath(rt)))


def clang_of(kit):
    """The toolchain's clang, which is its linkers too, under their names."""
    return os.path.join(kit, "toolchain", "bin", "clang")


def link_all(source, folder, but=()):
    """Makes a folder with a link to each entry of another."""
    os.makedirs(folder)
    for name in os.listdir(source):
        if name not in but:
            os.symlink(os.path.join(source, name), os.path.join(folder, name))


def view_of(kit, folder, kept):
    """Makes a folder like the kit's in which clang keeps the module; gives the path of its rt."""
    link_all(kit, folder, but=("bin", "toolchain"))
    link_all(os.path.join(kit, "toolchain"), os.path.join(folder, "toolchain"), but=("bin",))
    link_all(os.path.dirname(clang_of(kit)), os.path.dirname(clang_of(folder)), but=("clang",))
    link_all(os.path.join(kit, "bin"), os.path.join(folder, "bin"), but=("rt", "rtlib.py"))
    for name in ("rt", "rtlib.py"):
        # These find the kit by where they stand themselves.
        shutil.copy2(os.path.join(kit, "bin", name), os.path.join(folder, "bin", name))
    with open(clang_of(folder), "w", encoding="utf-8") as file:
        file.write(STAND_IN.format(least=LEAST_BYTES, kept=kept, clang=clang_of(kit)))
    os.chmod(clang_of(folder), 0o755)
    return os.path.join(folder, "bin", "rt")


def module_of(checkout, is_proved, work):
    """The path of the module of the program of a checkout, in the folder `work`: proved, or as `rt try` compiles it without any proof."""
    kept, crate = os.path.join(work, "module.bc"), os.path.join(checkout, "crates", "bq")
    if not os.path.isdir(crate):
        raise NotMade(f"{checkout} is no checkout: it has no crates/bq")
    if is_proved and not os.path.exists(os.path.join(crate, "out", "bq")):
        raise NotMade(f"the program of {checkout} is not proved and built yet: run ./build there first")
    rt = view_of(kit_folder(), os.path.join(work, "kit"), kept)
    # The stamp says of which sources out/bq was built. rt takes it away before it compiles; out/bq itself stays, so the stamp is put back.
    stamp = os.path.join(crate, "out", "bq.stamp")
    aside = os.path.join(work, "bq.stamp")
    try:
        if os.path.exists(stamp):
            shutil.move(stamp, aside)
        words = ["run"] if is_proved else ["try", "--", "--version"]
        ran = subprocess.run([rt, *words], cwd=crate, stdin=subprocess.DEVNULL, capture_output=True, text=True, errors="replace", check=False)
    finally:
        if os.path.exists(aside):
            shutil.copy2(aside, stamp)
    if not os.path.exists(kept):
        raise NotMade("rt made no module of the program; it said last:\n" + "\n".join((ran.stdout + ran.stderr).split("\n")[-20:]))
    return kept
