"""The crates of the repository, and what the commands of the toolchain are told of them."""
import os
import re
import shutil


def text_of(file):
    with open(file, encoding="utf-8") as it:
        return it.read()


def kit_folder():
    rt = shutil.which("rt")
    if not rt:
        raise SystemExit("rt, the command of the Rattle toolchain, is not on the PATH")
    return os.path.dirname(os.path.dirname(os.path.realpath(rt)))


def logic():
    """The logic that the toolchain proves in: the last word of its identity."""
    return text_of(f"{kit_folder()}/KIT-ID").split()[-1]


class Crate:
    """A crate of the repository at top: its folder, and the libraries that it names, its own repository's and the kit's."""

    def __init__(self, top, name, parts, ours, folder=None):
        self.top, self.name, self.folder, self.parts = top, name, folder or f"{top}/crates/{name}", parts
        self.of_kit = [it for it in parts if it not in ours]
        self.deps = [it for it in parts if it in ours]
        # Where its proved library is: here `rt ci` leaves it, and ./build in another folder.
        self.libraries = "out/rlib"
        self.root = "src/main.rt" if os.path.isfile(f"{self.folder}/src/main.rt") else "src/lib.rt"

    def files(self, *parts):
        found = []
        for part in parts:
            for at, _, names in os.walk(f"{self.folder}/{part}"):
                found += [f"{at}/{it}" for it in names if it.endswith((".rt", ".antt", ".edit"))]
        return sorted(found)

    def edits(self):
        return [it for it in self.files("must-fail") if os.path.dirname(it).endswith("must-fail")]


def crates_of(top):
    """The crates of the repository by name, in the order of crates.txt."""
    parts = {}
    for line in text_of(f"{top}/crates.txt").split("\n"):
        name, found, rest = line.partition("#")[0].partition(":")
        if found:
            parts[name.split()[0]] = rest.split()
    return {name: Crate(top, name, words, parts) for name, words in parts.items()}


def below(crates, name):
    """The crates of the repository below this one, each after those that it stands on."""
    found = []
    for dep in crates[name].deps:
        found += [it for it in [*below(crates, dep), dep] if it not in found]
    return found


def checked_over(crates, crate):
    """What a check of a crate is told, over the proved libraries below it."""
    kit, words = kit_folder(), ["--crate-name", crate.name, crate.root]
    for it in ["std", *crate.of_kit]:
        words += ["--extern", f"{it}={kit}/rlibs/{it}.rlib"]
    words += ["-L", f"dependency={kit}/rlibs"]
    for it in crate.deps:
        words += ["--extern", f"{it}={crates[it].folder}/{crates[it].libraries}/{it}.rlib"]
    for it in below(crates, crate.name):
        words += ["-L", f"dependency={crates[it].folder}/{crates[it].libraries}"]
    words += ["--antt-project", f"{kit}/rattle/logic/antt-project.json", "--logic-built", f"{kit}/logic_built"]
    return [*words, "--links", f"{crate.name}="]


def sources(crates, name):
    """What an unproved build of a crate is told of the libraries below it: their sources, the kit's too."""
    kit, words, used = kit_folder(), [], ["std", *crates[name].of_kit]
    for it in below(crates, name):
        parts = ["core", "std", *crates[it].of_kit, *crates[it].deps]
        words += ["--lib", f"{it}:{','.join(dict.fromkeys(parts))}={crates[it].folder}/src/lib.rt"]
        used += crates[it].of_kit
    used = list(dict.fromkeys(used))
    for it in used:
        uses = re.findall(r"^dep (\w+)$", text_of(f"{kit}/rlibs/{it}.rlib/format"), re.M)
        used += [dep for dep in uses if dep not in used]
        words += ["--lib", f"{it}:{','.join(uses)}={kit}/rattle/{it}/src/lib.rt"]
    return words
