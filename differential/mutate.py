#!/usr/bin/env python3
"""Shows that the comparison notices wrong programs: each mutant of mutants.txt is built and compared with the reference.

    mutate.py [--src DIR] [--only N ..] [--seeds N] [--from N]

Prints one line for each mutant: whether the stored sample notices it (the journal that the tests replay with no Rust), else
the short run (differential/run --short), else a longer one. Then a table by files. The exit status is 0 if every mutant was
noticed but those that change nothing a journal can show, and none of these was.
"""

import argparse
import pathlib
import shutil
import subprocess
import sys
import time

sys.dont_write_bytecode = True

import build  # noqa: E402
import edits  # noqa: E402


class Mutant:
    def __init__(self, number: int, fields: dict):
        self.number = number
        self.file, self.old, self.new = fields["file"], fields["old"], fields["new"]
        self.nth = int(fields.get("nth", 0))
        self.same = fields.get("same")

    def title(self) -> str:
        return f"{self.number:3} {pathlib.PurePath(self.file).name}: {self.old.strip()} -> {self.new.strip()}"

    def apply(self, path: pathlib.Path) -> None:
        text = path.read_text()
        found = text.count(self.old)
        if self.nth == 0 and found != 1 or self.nth > found:
            raise edits.EditError(f"{self.title()}: the old text occurs {found} times")
        at = -1
        for _ in range(max(self.nth, 1)):
            at = text.index(self.old, at + 1)
        path.write_text(text[:at] + self.new + text[at + len(self.old) :])


def read_mutants(path: pathlib.Path) -> list:
    mutants, fields = [], {}
    for line in path.read_text().splitlines() + [""]:
        if line.startswith("#"):
            continue
        if line:
            key, _, value = line.partition(" ")
            fields[key] = value.strip()
        elif fields:
            mutants.append(Mutant(len(mutants) + 1, fields))
            fields = {}
    return mutants


def build_mutant(mutant: Mutant, good: build.Builder, folder: pathlib.Path, level: int) -> pathlib.Path:
    """The reference program with the change made. Crates that do not use the changed one are those of the good build."""
    shutil.rmtree(folder, ignore_errors=True)
    builder = build.Builder(folder, [f"-Copt-level={level}", "-Awarnings"])
    builder.made = dict(good.made)
    shutil.copytree(good.out / "src", folder / "src")
    shutil.copytree(build.HERE / "rust" / "reference", folder / "src" / "reference")
    mutant.apply(folder / "src" / mutant.file)
    changed = folder / "src" / mutant.file.split("/")[0]
    remade = set()
    for crate in build.lictor(folder / "src") + build.reference(folder / "src" / "reference"):
        if changed in crate.root.parents or remade.intersection(crate.uses):
            program = builder.make(crate)
            remade.add(crate.name)
    return program


def differs(good: build.Builder, program: pathlib.Path, options: list):
    """The name of the first journal that shows a difference, or None."""
    programs = ["--trace", f"{program} trace", "--fuse", str(program), "--proximity", f"{program} proximity"]
    call = [str(good.out / "compare"), *programs, "--quick"] + options
    done = subprocess.run(call, capture_output=True, text=True)
    if done.returncode not in (0, 1):
        raise build.BuildError(f"{' '.join(call)}:\n{done.stderr}")
    for line in done.stdout.splitlines():
        if line.startswith("DIFFERENCE"):
            return line.split()[1]
    return None


# Who notices a mutant: each is asked where the one before does not.
STORED, SHORT, LONGER, NOBODY = "stored sample", "short run", "longer run", "nobody"


def noticed_by(mutant: Mutant, good: build.Builder, folder: pathlib.Path, samples: pathlib.Path, seeds: int):
    """Who notices it, and by which journal. The longer run has the other samples, the profiles that are run once and more
    seeds, with a program that is slower to build and faster to run."""
    program = build_mutant(mutant, good, folder, 0)
    name = differs(good, program, [str(samples / "trace.journal")])
    if name:
        return STORED, name
    name = differs(good, program, ["--each", "--seeds", "5"])
    if name:
        return SHORT, name
    program = build_mutant(mutant, good, folder, 2)
    others = sorted(str(path) for path in samples.glob("*.journal") if path.stem not in ("trace", "speed"))
    for options in (others, ["--once"], ["--each", "--seeds", str(seeds)]):
        name = differs(good, program, options)
        if name:
            return LONGER, name
    return NOBODY, None


def table(counts: dict) -> None:
    """How many mutants of each file were noticed by whom; those that change nothing are noticed by nobody."""
    columns = [STORED, SHORT, LONGER, NOBODY]
    print(f"{'':14}" + "".join(f"{column:>15}" for column in columns))
    for file in sorted(counts):
        print(f"{file:14}" + "".join(f"{counts[file].get(column, 0):15}" for column in columns))
    total = [sum(own.get(column, 0) for own in counts.values()) for column in columns]
    print(f"{'all':14}" + "".join(f"{n:15}" for n in total))


def main() -> int:
    args = argparse.ArgumentParser(description=__doc__, formatter_class=argparse.RawDescriptionHelpFormatter)
    args.add_argument("--src", type=pathlib.Path, default=build.DEFAULT_SRC)
    args.add_argument("--only", type=int, nargs="*")
    args.add_argument("--from", type=int, default=1, dest="start")
    args.add_argument("--seeds", type=int, default=20)
    given = args.parse_args()
    try:
        good = build.build(given.src, build.DEFAULT_OUT, build.CHECKED)
    except build.Missing as what:
        print(f"differential: SKIPPED, no mutant was made: {what}")
        return 0
    folder = build.DEFAULT_OUT / "mutant"
    stored = build.DEFAULT_OUT / "samples"
    subprocess.run([str(good.out / "sample"), str(stored)], stdout=subprocess.DEVNULL, check=True)
    wrong, counts = 0, {}
    started = time.time()
    for mutant in read_mutants(build.HERE / "mutants.txt"):
        if given.only and mutant.number not in given.only or mutant.number < given.start:
            continue
        try:
            who, name = noticed_by(mutant, good, folder, stored, given.seeds)
        except (build.BuildError, edits.EditError) as what:
            print(f"BROKEN   {mutant.title()}\n{what}", flush=True)
            wrong += 1
            continue
        own = counts.setdefault(pathlib.PurePath(mutant.file).name, {})
        own[who] = own.get(who, 0) + 1
        if name and not mutant.same:
            print(f"noticed  {mutant.title()}  [{who}: {name}]", flush=True)
        elif not name and mutant.same:
            print(f"same     {mutant.title()}  [{mutant.same}]", flush=True)
        else:
            wrong += 1
            print(f"{'NOT SAME' if name else 'MISSED  '} {mutant.title()}  [{name}]", flush=True)
    shutil.rmtree(folder, ignore_errors=True)
    table(counts)
    print(f"{wrong} wrong, {time.time() - started:.0f} s")
    return 1 if wrong else 0


if __name__ == "__main__":
    sys.exit(main())
