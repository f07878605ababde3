"""Compiles an LLVM module of the program for x86-64 to WebAssembly, by the toolchain's own clang.

The module's sizes of 64 bits are kept: it is compiled for wasm64, and binaryen's wasm-opt then makes its addresses 32 bits wide, which
every browser takes. Nothing proves this path.
"""
import os
import re
import subprocess

from playing.kit import NotMade, clang_of

HERE = os.path.dirname(os.path.abspath(__file__))
TARGET = "wasm64-unknown-unknown"
LAYOUT = "e-m:e-p:64:64-p10:8:8-p20:8:8-i64:64-i128:128-n32:64-S128-ni:1:10:20"
# What is said of x86-64, and what a sanitizer would add.
OF_X86 = re.compile(r' ?(sanitize_address|"(?:frame-pointer|probe-stack|stack-probe-size|target-cpu|target-features)"="[^"]*")')
SHUFFLE = "@llvm.x86.ssse3.pshuf.b.128("
FEATURES = ["-mcpu=mvp", "-mbulk-memory", "-msign-ext", "-mmutable-globals"]
LOWER = ["--enable-memory64", "--enable-bulk-memory", "--enable-sign-ext", "--enable-mutable-globals", "--memory64-lowering", "-O2"]
# Deep recursion over long queries needs more than the 64 KiB that a stack has by default; 1 MiB was too little.
STACK = 8 << 20
PROVED = "rattle logic="


def run(words):
    """Runs a command, and says what it wrote where it fails."""
    try:
        ran = subprocess.run(words, capture_output=True, text=True, errors="replace", check=False)
    except FileNotFoundError:
        raise NotMade(f"{words[0]} is missing" + (": apt-get install binaryen" if words[0] == "wasm-opt" else "")) from None
    if ran.returncode:
        raise NotMade(f"{os.path.basename(words[0])} ended with status {ran.returncode}:\n{(ran.stdout + ran.stderr)[-2000:]}")


def shuffled(name):
    """A function for the shuffle of sixteen bytes that x86-64 has: a place picks a byte by its low four bits, or zero where it is negative."""
    lines = [f"define internal <16 x i8> {name}<16 x i8> %bytes, <16 x i8> %places) {{",
             "  %near = and <16 x i8> %places, <" + ", ".join(["i8 15"] * 16) + ">", "  %far = icmp slt <16 x i8> %places, zeroinitializer"]
    before = "poison"
    for lane in range(16):
        lines += [f"  %place{lane} = extractelement <16 x i8> %near, i32 {lane}", f"  %byte{lane} = extractelement <16 x i8> %bytes, i8 %place{lane}",
                  f"  %all{lane} = insertelement <16 x i8> {before}, i8 %byte{lane}, i32 {lane}"]
        before = f"%all{lane}"
    return "\n".join([*lines, f"  %picked = select <16 x i1> %far, <16 x i8> zeroinitializer, <16 x i8> {before}", "  ret <16 x i8> %picked", "}", ""])


def rewritten(text):
    """The text of a module, said of wasm64 in place of x86-64."""
    text = re.sub(r'^target datalayout = ".*"$', f'target datalayout = "{LAYOUT}"', text, flags=re.M)
    text = re.sub(r'^target triple = ".*"$', f'target triple = "{TARGET}"', text, flags=re.M)
    text = re.sub(r"^attributes #\d+ = \{.*\}$", lambda it: OF_X86.sub("", it[0]), text, flags=re.M)
    # A list of attributes may not be empty, and nothing here unwinds.
    text = re.sub(r"^(attributes #\d+ = )\{ *\}$", r"\1{ nounwind }", text, flags=re.M)
    # A main of C would get words by its parameters.
    text, count = re.subn(r"^define i32 @main\(\)", "define i32 @bq_main()", text, flags=re.M)
    if count != 1:
        raise NotMade("the module has no main: it is not that of a program")
    if SHUFFLE in text:
        text = re.sub(r"^declare .*" + re.escape(SHUFFLE) + r".*\n", "", text, flags=re.M)
        text = text.replace(SHUFFLE, "@bq_shuffled(") + "\n" + shuffled("@bq_shuffled(")
    left = sorted(set(re.findall(r"@(llvm\.x86\.[\w.]+)", text)))
    if left:
        raise NotMade(f"the module asks for {', '.join(left)}, which x86-64 alone has: tools/playing/translate.py needs a function for it")
    return text


def is_proved(text):
    """Whether the toolchain's prover let the module through: it then names its logic in it."""
    return re.search(r'^!\d+ = !\{!"' + re.escape(PROVED), text, flags=re.M) is not None


def wasm_of(module, kit, work):
    """The file of WebAssembly of a module, .bc or .ll, and whether it is that of a proved program. It is made in the folder `work`."""
    clang, at = clang_of(kit), lambda name: os.path.join(work, name)
    plain = ["--no-default-config"]
    read = ["-x", "ir", module, "-S", "-emit-llvm", "-Xclang", "-disable-llvm-passes"]
    run([clang, "--target=x86_64-unknown-linux-gnu", *plain, *read, "-o", at("read.ll")])
    with open(at("read.ll"), encoding="utf-8", errors="surrogateescape") as file:
        text = file.read()
    with open(at("wasm.ll"), "w", encoding="utf-8", errors="surrogateescape") as file:
        file.write(rewritten(text))
    compiled = [clang, f"--target={TARGET}", *plain, *FEATURES, "-O2", "-c"]
    run([*compiled, "-x", "ir", at("wasm.ll"), "-o", at("program.o")])
    run([*compiled, "-ffreestanding", "-fno-builtin", os.path.join(HERE, "runtime.c"), "-o", at("runtime.o")])
    # Under this name clang is the linker.
    os.symlink(clang, at("wasm-ld"))
    linked = ["-mwasm64", "--no-entry", "--gc-sections", "--strip-all", "-z", f"stack-size={STACK}", "--export=bq_main"]
    run([at("wasm-ld"), *linked, at("program.o"), at("runtime.o"), "-o", at("wide.wasm")])
    run(["wasm-opt", *LOWER, at("wide.wasm"), "-o", at("bq.wasm")])
    return at("bq.wasm"), is_proved(text)
