"""Large journals, and programs measured on them."""

import os
import pathlib
import re
import statistics
import subprocess
import tempfile
import time

SETTINGS = 221  # bytes of the settings record, its kind byte included
LENGTHS = {1: 220, 2: 0, 3: 14, 4: 14, 5: 9, 6: 257, 7: 9}  # of a body, by kind
ACK, NONCE = 3, slice(3, 11)  # an acknowledgement, and the place of its nonce counted from the kind byte


class Measured:
    """One run: seconds by the clock and of the processor."""

    def __init__(self, wall: float, cpu: float):
        self.wall, self.cpu = wall, cpu


def has() -> list:
    """The rules that the fuse has and the Rust has not, as options of the reference: those of common.sh."""
    text = (pathlib.Path(__file__).resolve().parent / "common.sh").read_text()
    return re.search(r"^has='(.*)'$", text, re.MULTILINE)[1].split()


def acks(records: bytes) -> list:
    """The places of the acknowledgements."""
    places, at = [], 0
    while at < len(records):
        if records[at] == ACK:
            places.append(at)
        at += 1 + LENGTHS[records[at]]
    return places


def repeat(journal: bytes, size: int) -> bytes:
    """The settings once, then the rest over and over, up to about so many bytes. The rest should begin with a reset.

    A reset keeps the nonces, so each round has its own, in the order of the first's: every round then goes as the first does. 0 stays 0.
    """
    rest = journal[SETTINGS:]
    nonces = {at: int.from_bytes(rest[at:][NONCE], "little") for at in acks(rest)}
    ranks = {nonce: rank for rank, nonce in enumerate(sorted(set(nonces.values()) | {0}))}
    rounds = []
    for done in range(max(1, size // len(rest))):
        one = bytearray(rest)
        for at, nonce in nonces.items():
            fresh = nonce and done * len(ranks) + ranks[nonce]
            one[at + NONCE.start : at + NONCE.stop] = fresh.to_bytes(8, "little")
        rounds.append(one)
    return journal[:SETTINGS] + b"".join(rounds)


def large(journal: pathlib.Path, size: int, to: pathlib.Path) -> pathlib.Path:
    to.parent.mkdir(parents=True, exist_ok=True)
    to.write_bytes(repeat(journal.read_bytes(), size))
    return to


def run(program: list, journal: pathlib.Path, answer) -> Measured:
    """Runs a program with the journal as its standard input and the file `answer` as its standard output."""
    with journal.open("rb") as given:
        start = time.perf_counter()
        child = subprocess.Popen(program, stdin=given, stdout=answer)
        _, status, used = os.wait4(child.pid, 0)
        wall = time.perf_counter() - start
    child.returncode = os.waitstatus_to_exitcode(status)
    if child.returncode < 0:
        raise RuntimeError(f"{program[0]} was ended by signal {-child.returncode}")
    return Measured(wall, used.ru_utime + used.ru_stime)


def peak(program: list, journal: pathlib.Path) -> int:
    """The most bytes of memory that the program has at once. Read while it runs, since what a finished process reports
    includes the memory of the one that started it."""
    most = 0
    with journal.open("rb") as given, tempfile.TemporaryFile() as answer:
        child = subprocess.Popen(program, stdin=given, stdout=answer)
        status = pathlib.Path(f"/proc/{child.pid}/status")
        while child.poll() is None:
            for line in status.read_text().splitlines():
                if line.startswith("VmHWM:"):
                    most = max(most, int(line.split()[1]) * 1024)
            time.sleep(0.005)
    return most


def answered(program: list, journal: pathlib.Path) -> tuple:
    """One run, and what the program wrote."""
    with tempfile.TemporaryFile() as answer:
        measured = run(program, journal, answer)
        answer.seek(0)
        return measured, answer.read()


def in_turns(programs: list, journal: pathlib.Path, rounds: int) -> list:
    """The medians of several runs of each program, one after the other in each round."""
    runs = [[] for _ in programs]
    for _ in range(rounds):
        for program, own in zip(programs, runs):
            with tempfile.TemporaryFile() as answer:
                own.append(run(program, journal, answer))

    def middle(own: list) -> Measured:
        wall = statistics.median(one.wall for one in own)
        cpu = statistics.median(one.cpu for one in own)
        return Measured(wall, cpu)

    return [middle(own) for own in runs]
