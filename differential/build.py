#!/usr/bin/env python3
"""Builds the Rust reference, the programs that compare with it, and the check of its edits into target/differential.

    build.py [--src DIR] [--out DIR] [--fast]

--src   folder of the Rust sources, with crates/ in it (default: ../shared/docs/src beside the repository)
--out   where to build (default: target/differential)
--fast  without debug assertions, overflow checks and the rules of edits.py, for measuring speed
"""

import argparse
import hashlib
import pathlib
import shutil
import subprocess
import sys

sys.dont_write_bytecode = True

import edits  # noqa: E402

HERE = pathlib.Path(__file__).resolve().parent
TOP = HERE.parent
RUST = HERE / "rust"
DEFAULT_SRC = TOP.parent / "shared" / "docs" / "src"
DEFAULT_OUT = TOP / "target" / "differential"

CORE = ["ack", "chunk", "envelope", "fmath", "reason", "scores", "state", "verdict"]
DETECT = ["brake", "conformal", "tier0", "tier1", "window"]
FUSE = ["fsm", "fuse", "tally"]
TAKEN = (
    [f"lictor-core/src/{m}.rs" for m in CORE]
    + [f"lictor-detect/src/{m}.rs" for m in DETECT]
    + [f"lictor-fuse/src/{m}.rs" for m in FUSE]
)

# Debug assertions and overflow checks stay on: an index out of range or an overflow in the Rust then stops the run.
CHECKED = ["-Copt-level=3", "-Cdebug-assertions=on"]
FAST = ["-Copt-level=3"]


class Missing(Exception):
    """A part that the build needs (compiler, sources) is not there."""


class BuildError(Exception):
    pass


def write_if_changed(path: pathlib.Path, text: str) -> None:
    path.parent.mkdir(parents=True, exist_ok=True)
    if not path.exists() or path.read_text() != text:
        path.write_text(text)


def assemble(src: pathlib.Path, to: pathlib.Path, todo: list) -> None:
    """Copies the sources and our crate roots to one folder per crate, with the edits made."""
    crates = src / "crates"
    if not crates.is_dir():
        raise Missing(f"no Rust sources at {src}")
    for name in TAKEN:
        if not (crates / name).is_file():
            raise Missing(f"no {name} in {crates}")
        text = (crates / name).read_text()
        for edit in todo:
            if edit.file == name:
                text = edits.apply(text, edit)
        write_if_changed(to / name, text)
    for root in ["lictor_core", "lictor_detect", "lictor_fuse"]:
        text = (RUST / "crates" / f"{root}.rs").read_text()
        write_if_changed(to / root.replace("_", "-") / "src" / "lib.rs", text)


class Crate:
    """One call of rustc: its root file, the folder whose files it reads, and the crates that it uses."""

    def __init__(self, name: str, root: pathlib.Path, kind: str, uses: list):
        self.name, self.root, self.kind, self.uses = name, root, kind, uses

    def inputs(self) -> list:
        return sorted(self.root.parent.rglob("*.rs"))


class Builder:
    """Compiles crates into a folder, each only when its inputs changed."""

    def __init__(self, out: pathlib.Path, flags: list):
        self.out, self.flags = out, flags
        self.made = {}  # crate name -> (artifact, digest of everything it was made of)
        out.mkdir(parents=True, exist_ok=True)
        rustc = shutil.which("rustc")
        if rustc is None:
            raise Missing("no rustc")
        self.rustc = rustc
        self.version = subprocess.run([rustc, "-V"], capture_output=True, text=True, check=True).stdout

    def artifact(self, crate: Crate) -> pathlib.Path:
        names = {"proc-macro": f"lib{crate.name}.so", "rlib": f"lib{crate.name}.rlib", "bin": crate.name}
        return self.out / names[crate.kind]

    def make(self, crate: Crate) -> pathlib.Path:
        artifact = self.artifact(crate)
        digest = hashlib.sha256(self.version.encode())
        digest.update(repr(self.flags).encode())
        for path in crate.inputs():
            digest.update(path.name.encode() + b"\0" + path.read_bytes())
        for used in crate.uses:
            digest.update(self.made[used][1].encode())
        stamp = self.out / f"{crate.name}.{crate.kind}.made-of"
        if not (artifact.exists() and stamp.exists() and stamp.read_text() == digest.hexdigest()):
            self.compile(crate, artifact)
            stamp.write_text(digest.hexdigest())
        if crate.kind != "bin":
            self.made[crate.name] = (artifact, digest.hexdigest())
        return artifact

    def compile(self, crate: Crate, artifact: pathlib.Path) -> None:
        call = [self.rustc, "--edition", "2021", "--crate-name", crate.name, "--crate-type", crate.kind]
        call += self.flags + [str(crate.root), "-o", str(artifact)]
        folders = {self.out}
        for used in crate.uses:
            call += ["--extern", f"{used}={self.made[used][0]}"]
        for made, _ in self.made.values():
            folders.add(made.parent)
        for folder in sorted(folders):
            call += ["-L", f"dependency={folder}"]
        done = subprocess.run(call, capture_output=True, text=True)
        if done.returncode != 0:
            raise BuildError(f"rustc failed on {crate.name}:\n{done.stderr}")
        if done.stderr:
            sys.stderr.write(done.stderr)


def stubs() -> list:
    """What the Rust uses and is not among the sources, and the rules that an edit asks for."""
    return [
        Crate("serde", RUST / "stubs" / "serde.rs", "proc-macro", []),
        Crate("libm", RUST / "stubs" / "libm.rs", "rlib", []),
        Crate("rules", RUST / "rules" / "lib.rs", "rlib", []),
    ]


def lictor(src: pathlib.Path) -> list:
    """The three crates of the Rust from assembled and edited sources, and the outcome record that the edits bring in."""
    uses = ["lictor_core", "lictor_detect", "outcome"]
    return [
        Crate("lictor_core", src / "lictor-core" / "src" / "lib.rs", "rlib", ["serde", "libm", "rules"]),
        Crate("lictor_detect", src / "lictor-detect" / "src" / "lib.rs", "rlib", ["lictor_core"]),
        Crate("outcome", RUST / "outcome" / "lib.rs", "rlib", ["lictor_core"]),
        Crate("lictor_fuse", src / "lictor-fuse" / "src" / "lib.rs", "rlib", uses),
    ]


def reference(folder: pathlib.Path) -> list:
    """The reference as a library, and the program over it."""
    return [
        Crate("oracle", folder / "lib.rs", "rlib", ["lictor_core", "lictor_fuse", "outcome", "rules"]),
        Crate("reference", folder / "main.rs", "bin", ["oracle", "lictor_core"]),
    ]


def comparison() -> list:
    """The generator, the coverage, and the programs over them."""
    uses = ["lictor_core", "lictor_fuse", "oracle"]
    more = uses + ["generate", "coverage"]
    return [
        Crate("generate", RUST / "generate" / "lib.rs", "rlib", uses),
        Crate("coverage", RUST / "coverage" / "lib.rs", "rlib", uses),
        Crate("compare", RUST / "compare" / "main.rs", "bin", more + ["rules"]),
        Crate("sample", RUST / "sample" / "main.rs", "bin", more),
        Crate("cases", RUST / "cases" / "main.rs", "bin", more),
    ]


def unedited(src: pathlib.Path) -> list:
    """The Rust as published, its detectors behind a crate that records what they answer, and the program that checks
    the edits by it."""
    uses = ["lictor_core", "lictor_detect"]
    detect = src / "lictor-detect" / "src" / "lib.rs"
    return [
        Crate("lictor_core", src / "lictor-core" / "src" / "lib.rs", "rlib", ["serde", "libm"]),
        Crate("detectors", detect, "rlib", ["lictor_core"]),
        Crate("lictor_detect", RUST / "unedited" / "recording.rs", "rlib", ["lictor_core", "detectors"]),
        Crate("lictor_fuse", src / "lictor-fuse" / "src" / "lib.rs", "rlib", uses),
        Crate("unedited", RUST / "unedited" / "main.rs", "bin", uses + ["lictor_fuse", "rules"]),
    ]


def build(src: pathlib.Path, out: pathlib.Path, flags: list) -> Builder:
    """Everything, into `out`."""
    builder = Builder(out, flags)
    assemble(src, out / "src", edits.REFERENCE + ([] if flags == FAST else edits.RULES))
    for crate in stubs() + lictor(out / "src") + reference(RUST / "reference") + comparison():
        builder.make(crate)
    return builder


def build_unedited(src: pathlib.Path, out: pathlib.Path, flags: list) -> pathlib.Path:
    """The program that checks the edits, in a folder of its own since its crates have the same names."""
    builder = Builder(out / "unedited", flags)
    assemble(src, out / "unedited" / "src", [])
    for crate in stubs() + unedited(out / "unedited" / "src"):
        made = builder.make(crate)
    return made


def main() -> int:
    args = argparse.ArgumentParser(description=__doc__, formatter_class=argparse.RawDescriptionHelpFormatter)
    args.add_argument("--src", type=pathlib.Path, default=DEFAULT_SRC)
    args.add_argument("--out", type=pathlib.Path, default=DEFAULT_OUT)
    args.add_argument("--fast", action="store_true")
    given = args.parse_args()
    try:
        flags = FAST if given.fast else CHECKED
        build(given.src, given.out, flags)
        build_unedited(given.src, given.out, flags)
    except Missing as what:
        print(what, file=sys.stderr)
        return 3
    except (BuildError, edits.EditError) as what:
        print(f"differential: {what}", file=sys.stderr)
        return 1
    return 0


if __name__ == "__main__":
    sys.exit(main())
