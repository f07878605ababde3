"""The kit's prover over the libraries that the gate built."""
import os
import shutil
import subprocess
import tempfile

PARTS = ("src", "specs", "proofs")


def kit_folder():
    """Returns the folder of the kit, which has the page that `rt doc` names."""
    return os.path.dirname(subprocess.run(["rt", "doc"], capture_output=True, text=True, check=True).stdout.strip())


def crates_of(top):
    """Returns for each crate of crates.txt the libraries that it uses."""
    with open(os.path.join(top, "crates.txt"), encoding="utf-8") as file:
        lines = [line.split("#")[0].split(":") for line in file if ":" in line.split("#")[0]]
    return {head.split()[0]: uses.split() for head, uses in lines}


def below(crates, crate):
    """Returns the crates that a crate stands on, each once."""
    found, new = [], list(crates[crate])
    while new:
        used = new.pop()
        if used in crates and used not in found:
            found.append(used)
            new += crates[used]
    return found


class Prover:
    """Checks single functions of the crates of a tree."""

    def __init__(self, top, kit):
        self.top, self.kit, self.crates = top, kit, crates_of(top)

    def folder(self, crate):
        return os.path.join(self.top, "crates", crate)

    def library(self, crate):
        return os.path.join(self.folder(crate), "out", "rlib", f"{crate}.rlib")

    def lacking(self, crate):
        """Returns the libraries below a crate that are not built."""
        return [it for it in below(self.crates, crate) if not os.path.isdir(self.library(it))]

    def command(self, crate, functions, kept):
        """Returns the words of a check of some functions, which begins with what the folder `kept` holds and keeps its work there."""
        own = [it for it in self.crates[crate] if it in self.crates]
        words = [f"{self.kit}/bin/rattle", "check", "--crate-name", crate, "src/lib.rt"]
        for it in ["std", *(it for it in self.crates[crate] if it not in self.crates)]:
            words += ["--extern", f"{it}={self.kit}/rlibs/{it}.rlib"]
        for it in own:
            words += ["--extern", f"{it}={self.library(it)}"]
        for folder in [f"{self.kit}/rlibs", *(os.path.dirname(self.library(it)) for it in below(self.crates, crate))]:
            words += ["-L", f"dependency={folder}"]
        words += ["--antt-project", f"{self.kit}/rattle/logic/antt-project.json", "--logic-built", f"{self.kit}/logic_built"]
        for function in functions:
            words += ["--only", function]
        return [*words, "--links", f"{crate}=", "--jobs", "1", "--incremental", kept]

    def check(self, crate, functions, texts, kept):
        """Checks functions of a copy of a crate with these texts in place of its own; gives the status and what was written."""
        with tempfile.TemporaryDirectory() as room:
            for part in PARTS:
                if os.path.isdir(os.path.join(self.folder(crate), part)):
                    shutil.copytree(os.path.join(self.folder(crate), part), os.path.join(room, part))
            for path, text in texts.items():
                with open(os.path.join(room, path), "w", encoding="utf-8") as file:
                    file.write(text)
            how = {"stdin": subprocess.DEVNULL, "stdout": subprocess.PIPE, "stderr": subprocess.STDOUT, "encoding": "utf-8", "errors": "replace"}
            ran = subprocess.run(self.command(crate, functions, kept), cwd=room, check=False, **how)
            return ran.returncode, ran.stdout
