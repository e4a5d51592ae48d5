"""The tests of tools/explain, tools/journal and tools/settings; tools/run runs them."""

import html
import html.parser
import importlib.machinery
import importlib.util
import json
import os
import pathlib
import random
import re
import shutil
import subprocess
import sys
import tempfile

TOP = pathlib.Path(__file__).resolve().parent.parent
OUT = TOP / "target/tools"
sys.dont_write_bytecode = True
sys.path.insert(0, str(TOP / "tools"))
import records  # noqa: E402

STORY = (TOP / "examples/story.journal").read_bytes()
STATES = "Idle Armed Watching Clamped Braking Held Escalated Fault Terminated".split()


class Wrong(Exception):
    """What a check found wrong."""


class Skipped(Exception):
    """What a check lacks."""


def run(*words, given=b"", **more):
    return subprocess.run([str(word) for word in words], input=given, capture_output=True, cwd=TOP, timeout=120, **more)


def explain(journal, *words, **more):
    done = run("tools/explain", *words, given=journal, **more)
    return done.returncode, done.stdout.decode(), done.stderr.decode()


def fuse(journal):
    return run("target/bin/fuse", given=journal).stdout.decode().splitlines()


def made(text):
    """The journal of a text."""
    words = (line.split("#")[0].split() for line in text.splitlines())
    return b"".join(records.record(one) for one in words if one)


def expect(true, what):
    if not true:
        raise Wrong(what)


def has(text, *parts):
    for part in parts:
        expect(part in text, f"'{part}' is not in:\n{text}")


def module(name):
    loader = importlib.machinery.SourceFileLoader(name, str(TOP / "tools" / name))
    found = importlib.util.module_from_spec(importlib.util.spec_from_loader(name, loader))
    loader.exec_module(found)
    return found


# ---- tools/explain

# settings, a reset and a first clean tick; more follows
BEGIN = "settings horizon=2 exec=2 watchdog=1\nreset\n"
CHUNK = "chunk horizon=2 exec=2\nvalue chunk 0\nvalue chunk 0\n"
FIRST = CHUNK + "value pos 0\noutcome\ntick\n"
NEXT = "value pos 0\noutcome\n"

# What makes a tick clean (docs/JOURNAL.md): a text that breaks a rule, and the words for it
FAULTS = [
    (FIRST + NEXT + "tick t=1 idx=1 schema=1", "the host told a fault itself (schema_fault 1)"),
    (CHUNK + NEXT + "tick t=1 idx=1", "t is 1, the first one after a reset is 0"),
    (FIRST + NEXT + "tick t=2 idx=1", "t is 2, and 1 is due (the last was 0)"),
    (FIRST + NEXT + "tick t=1 idx=1 missed=1", "t is 1, and 2 is due (the last was 0, 1 missed)"),
    (CHUNK + NEXT + "tick t=4294967295\n" + NEXT + "tick t=0", "the clock ended: after t 4294967295 no t is right, and a reset is due"),
    (NEXT + "tick", "no chunk came, and none was taken since the reset"),
    (CHUNK.replace("chunk h", "chunk seq=1 h") + NEXT + "tick", "the chunk's number is 1, the next one is 0"),
    (FIRST + CHUNK.replace("chunk h", "chunk t_emit=1 h") + NEXT + "tick t=1", "the chunk's number is 0, the next one is 1"),
    ("chunk horizon=1 exec=2\nvalue chunk 0\n" + NEXT + "tick", "the chunk's horizon is 1, the settings' 2"),
    ("chunk horizon=2 exec=2 dim=2\n" + "value chunk 0\n" * 4 + NEXT + "tick", "the chunk's dim is 2, the settings' 1"),
    (CHUNK.replace("exec=2", "exec=1") + NEXT + "tick", "the chunk's exec_steps is 1, the settings' 2"),
    ("chunk horizon=2 exec=2\nvalue chunk 0\n" + NEXT + "tick", "the chunk has 1 value, its horizon x dim is 2"),
    (CHUNK.replace("chunk h", "chunk t_emit=1 h") + NEXT + "tick", "the chunk's t_emit 1 is after t 0"),
    (FIRST + CHUNK.replace("chunk h", "chunk seq=1 t_emit=1 h") + NEXT + "tick t=1 idx=1", "idx is 1, t - t_emit is 0"),
    (FIRST + NEXT + "tick t=1 idx=2", "idx is 2, not below horizon 2"),
    (CHUNK + "outcome\ntick", "0 values of pos, pos_dim is 1"),
    (CHUNK + "value vel 0\nvalue vel 0\n" + NEXT + "tick vel=1", "2 values of vel, pos_dim is 1"),
    (CHUNK + "value aux 0\n" * 9 + NEXT + "tick", "9 values of aux, at most 8 are taken"),
    (CHUNK + "value ext 0\n" * 5 + NEXT + "tick", "5 values of ext, at most 4 are taken"),
    (CHUNK + "value pos inf\noutcome\ntick", "pos 0 is inf"),
    (CHUNK + "value vel nan\n" + NEXT + "tick vel=1", "vel 0 is nan"),
    (CHUNK + "value aux 0\nvalue aux -inf\n" + NEXT + "tick", "aux 1 is -inf"),
    (CHUNK + "value ext nan\n" + NEXT + "tick", "ext 0 is nan"),
    ("chunk horizon=2 exec=2\nvalue chunk 0\nvalue chunk nan\n" + NEXT + "tick", "row 1 of the chunk, component 0, is nan"),
    (FIRST + NEXT + "tick t=3 idx=1 missed=2", "2 missed, watchdog_ticks is 1"),
]

# why an acknowledgement was not consumed; the story is held at t 5 and escalated, handoff 1, at t 7
ACKS = [
    (1, "ack", "the state was Armed, and only Held and Escalated take one"),
    (5, "ack slot=8", "a slot is 0 to 7"),
    (5, "ack handoff=1", "the current handoff number is 0"),
    (5, "ack nonce=0", "the nonce must be above 0"),
    (5, "ack decision=retune", "Retune has no effect in Held"),
    (8, "ack handoff=0", "the current handoff number is 1"),
    (10, "ack", "the tick has a fault bit"),
]

# the ten refusals: a text, and the words of the cause; a width gets the numbers 3, 6, 8 and 9
REFUSALS = [
    (1, "settings mode=7", "mode is 7, and 0 to 1 are listed"),
    (1, "settings\nack decision=3", "decision is 3, and 0 to 2 are listed"),
    (1, "settings\nvalue list=5", "list is 5, and 0 to 4 are listed"),
    (1, "settings\noutcome feasible=2", "feasible is 2, and 0 to 1 are listed"),
    (1, "settings\noutcome\ntick vel=255", "vel is 255, and 0 to 1 are listed"),
    (2, "settings dim=9", "dim is 9, not 1 to 8"),
    (2, "settings horizon=4 exec=5", "exec is 5, not 1 to 4"),
    (3, "settings inv_dt=inf", "inv_dt is inf"),
    (3, "settings box_hi=1,1,inf,1", "box_hi 2 is inf"),
    (3, "settings tau=nan", "tau is nan"),
    (4, "settings box_lo=-1,-1,2,-1", "pair 2: box_lo 2 is above box_hi 1"),
    (3, "settings\nwidth nan", "w is nan"),
    (3, "settings\nwidth w=-inf", "w is -inf, below zero"),
    (3, "settings\nack\nwidth -1e-300\nreset", "w is -1e-300, below zero"),
    (5, "settings\nreset\nraw 0900", "the kind is 9"),
    (6, "settings\nraw 0800", "width has 8 bytes of body, and 1 byte came"),
    (8, "width -1", "width came first"),
    (9, "settings\nwidth\noutcome\nwidth", "width came already"),
    (9, "settings\nwidth\nreset\nwidth nan", "width came already"),
    (9, "settings\nreset\nvalue pos 0\nwidth", "a reset came before it"),
    (9, "settings\noutcome\ntick\nreset\nwidth -1", "a tick came before it"),
    (5, "settings\nraw " + b"settings".hex(), "the bytes are text: tools/journal write makes a journal of it"),
    (6, "settings\nreset\nraw 0700", "tick has 9 bytes of body, and 1 byte came"),
    (7, "settings\nreset\n" + "value pos 0\n" * 17, "pos has its 16 values already"),
    (8, "reset", "reset came first"),
    (8, "outcome", "outcome came first"),
    (2, "settings pos_dim=0\nreset\nreset\noutcome\ntick", "pos_dim is 0, not 1 to 8"),
    (9, "settings\nack\nack\nreset\n" + "value pos 0\nreset\n" * 9, "ack came already, and no tick since"),
    (9, "settings\nreset\nsettings", "settings came already"),
    (9, "settings\nack\nvalue pos 0\nack", "ack came already, and no tick since"),
    (10, "settings\nreset\ntick", "no outcome came since the last tick or reset"),
    (10, "settings\nreset\noutcome\nvalue chunk 0\ntick", "1 chunk value but no chunk head"),
    (10, "settings\nreset\noutcome\nvalue vel 0\ntick", "1 vel value but has_vel is 0"),
]


def lines_as_fuse(text, lines):
    """Every line `tick` of fuse has its line in the text, with the same number, time and state."""
    told = [(int(m[1]), int(m[2]), m[3]) for m in re.finditer(r"^ *(\d+) +(\d+)  (\w+) ", text, re.M)]
    given = [line.split() for line in lines if line.startswith("tick ")]
    expect(told == [(int(w[1]), int(w[2]), STATES[int(w[3])]) for w in given], f"other ticks than fuse:\n{text[-1500:]}\n{lines[-3:]}")


def explain_story():
    status, text, said = explain(STORY)
    expect(status == 0 and not said, f"status {status}, said {said}")
    expect(text == (TOP / "examples/story.words").read_text(), "other words than examples/story.words:\n" + text)


def explain_modes():
    """The same records in both modes: the states are the same, what stopped the arm is not."""
    for name, words in [("observe", "2 of them stopped: in Observe the guard's fault ticks alone"), ("enforce", "13 of them in a stop state")]:
        status, text, said = explain((TOP / f"examples/{name}.journal").read_bytes())
        expect(status == 0 and not said, f"status {status}, said {said}")
        has(text, f"end: 14 ticks since the last reset, {words}\n")


def explain_every_reason():
    journal = (TOP / "crates/trace/stdin").read_bytes()
    status, text, said = explain(journal)
    expect(status == 0 and not said and "other fault bits" not in text, f"status {status}, said {said}")
    lines_as_fuse(text, fuse(journal))


def explain_causes():
    for more, words in FAULTS:
        text = explain(made(BEGIN + more))[1]
        last = [line for line in text.splitlines() if "fault tick: " in line][-1]
        has(last, words)
        expect("other fault bits" not in text, text)


def explain_outcomes_fault():
    text = explain(made(BEGIN + CHUNK + "value pos 0\noutcome trips=256\ntick"))[1]
    has(text, "clean; chunk 0; trips SCHEMA; the outcome itself brought the fault bit")


def explain_acknowledgements():
    for t, ack, words in ACKS:
        text = (TOP / "examples/story.txt").read_text()
        text = re.sub(r"ack .*\n", "", text).replace("value pos nan", "ACK10\nvalue pos nan")
        ticks = list(re.finditer(r"^tick t=%d\b" % t, text, re.M))
        text = text[: ticks[0].start()] + ack + "\n" + text[ticks[0].start() :]
        has(explain(made(text.replace("ACK10\n", "")))[1], "not consumed: " + words, "acknowledgements: 1 came, 0 consumed")


def explain_replayed():
    """Nonces are kept over a reset, and by the tool too: examples/replay."""
    text = explain((TOP / "examples/replay.journal").read_bytes())[1]
    lines_as_fuse(text, (TOP / "examples/replay.expected").read_text().splitlines())
    spent = "which was spent before the reset"
    told = re.findall(r"slot (\d), nonce (\d+), handoff \d: (consumed|not consumed: .*)", text)
    last = "18446744073709551615"
    wanted = [
        ("7", "1", "the state was Idle"), ("8", "1", "a slot is 0 to 7"), ("7", "1", None), ("2", "5", "the state was Braking"), ("3", last, None),
        ("7", "1", f"the nonce must be above 1, {spent}"), ("3", last, f"the nonce must be above {last}, {spent}"),
        ("3", "0", f"the nonce must be above {last}, {spent}"), ("8", "2", "a slot is 0 to 7"), ("2", "5", None), ("7", "2", None),
        ("7", "2", f"the nonce must be above 2, {spent}"), ("7", "3", None),
    ]  # fmt: skip
    expect(len(told) == len(wanted), f"{len(told)} acknowledgements")
    for (slot, nonce, end), (of, given, why) in zip(told, wanted):
        expect((slot, nonce) == (of, given) and end.startswith(f"not consumed: {why}" if why else "consumed"), f"{slot} {nonce}: {end}")


def explain_refusals():
    for number, text, words in REFUSALS:
        journal = made(text)
        last = fuse(journal)[-1].split()
        expect(last[:2] == ["refused", str(number)], f"fuse says {last}")
        status, said, _ = explain(journal)
        expect(status == 1, f"status {status}")
        at = sum(1 for place, _ in records.stream([journal]) if place <= int(last[2]))
        has(said, f"refused {number}: ", words, f"record {at} of the journal, its kind byte is byte {last[2]}", "look for: ")
        has(said, "the record: " + records.text(journal[int(last[2]) :][: records.SIZE.get(journal[int(last[2])], 300)], True))


def explain_width():
    """A width is told once, and changes no other word."""
    story = (TOP / "examples/story.txt").read_text()
    for given, told in (("0.25", "0.25"), ("-0", "-0"), ("0", "0"), ("1e308", "1e+308")):
        settings, reset, rest = story.partition("\nreset")
        status, text, said = explain(made(settings + f"\nwidth {given}" + reset + rest))
        expect(status == 0 and not said, said)
        has(text, f"width: {told}, for the program proximity\n")
        words = re.sub(r"width: .*\n", "", text)
        number = lambda m: f"record {int(m[1]) - 1}, byte {int(m[2]) - 9}"  # noqa: E731
        words = re.sub(r"record (\d+), byte (\d+)", number, words)
        expect(words == (TOP / "examples/story.words").read_text(), words)
    file = OUT / "width.html"
    status, out, said = explain(made("settings\nwidth 0.25\nreset\noutcome\ntick"), "--html", file)
    expect(status == 0 and not out + said, said)
    has(file.read_text(), "; width: 0.25, for the program proximity</p>")


def explain_what_waits():
    text = explain(made("settings\nreset\nack\nchunk\nvalue chunk 0\nvalue pos 0\noutcome\noutcome"))[1]
    has(text, "what waits for a tick: 1 chunk, 1 pos, acknowledgement, chunk head, outcome")


def explain_failures():
    status, _, said = explain(b"")
    expect((status, said) == (2, "explain: the journal is empty\n"), f"empty: {status} {said}")
    status, _, said = explain(b"", "target/tools/there-is-no-such-file")
    expect(status == 2 and "No such file" in said, said)
    status, _, said = explain(b"", "target")
    expect(status == 2 and "directory" in said, said)
    status, _, said = explain(STORY, "--what")
    expect(status == 2 and "--what is not known" in said, said)
    status, text, _ = explain(b"", "--help")
    expect(status == 0 and "Exit status" in text, text)
    for program, words in (("/bin/false", "not whole"), ("target/tools/there-is-no-such-file", "No such file")):
        status, _, said = explain(STORY, "--trace", program)
        expect(status == 2 and words in said and "Traceback" not in said, said)
    cut = OUT / "cut-trace"
    cut.write_text("#!/bin/sh\ntarget/bin/trace | head -n 100\n")
    cut.chmod(0o755)
    status, _, said = explain(STORY, "--trace", cut)
    expect(status == 2 and "not whole" in said and "Traceback" not in said, said)
    cut.write_text("#!/bin/sh\ntarget/bin/trace | sed '$d'\necho 'trace: reading failed' >&2\n")
    status, _, said = explain(STORY, "--trace", cut)
    expect(status == 2 and "reading failed" in said and "Traceback" not in said, said)


def explain_outputs():
    if os.path.exists("/dev/full"):
        with open("/dev/full", "w") as full:
            done = subprocess.run(["tools/explain"], input=STORY, stdout=full, stderr=subprocess.PIPE, cwd=TOP, timeout=60)
        expect(done.returncode == 2 and b"No space" in done.stderr and b"Traceback" not in done.stderr, done.stderr)
    reader, writer = os.pipe()
    os.close(reader)
    done = subprocess.run(["tools/explain"], input=STORY, stdout=writer, stderr=subprocess.PIPE, cwd=TOP, timeout=60)
    os.close(writer)
    expect(done.returncode == 2 and done.stderr == b"", done.stderr)


def peak(command, parts):
    """The most memory that a command takes whose input comes in parts, in kB."""
    with open(os.devnull, "wb") as sink:
        child = subprocess.Popen([str(word) for word in command], stdin=subprocess.PIPE, stdout=sink, cwd=TOP)
        for part in parts:
            child.stdin.write(part)
        child.stdin.close()
        _, status, used = os.wait4(child.pid, 0)
    child.returncode = status
    expect(status == 0, f"status {status}")
    return used.ru_maxrss


def explain_memory():
    head, episode = STORY[:221], STORY[221:]
    small = peak(["tools/explain"], [head, episode * 30])
    large = peak(["tools/explain"], [head, *[episode * 100] * 30])
    expect(large < small + 4096, f"{small} kB for 100 kB, {large} kB for 10 MB")


def explain_damaged():
    """Journals with changed, lost and doubled bytes: the ticks and the end of fuse."""
    tool, rng = module("explain"), random.Random(29)
    for base in (STORY, (TOP / "crates/trace/stdin").read_bytes(), (TOP / "examples/near.journal").read_bytes()[:1500]):
        for _ in range(120):
            journal = bytearray(base)
            for _ in range(rng.randrange(1, 4)):
                at = rng.randrange(len(journal))
                how = rng.randrange(3)
                journal[at : at + rng.choice((1, 9, 10))] = [bytes([rng.randrange(256)]), b"", journal[at : at + 10] * 2][how]
            with tempfile.TemporaryFile() as file:
                file.write(journal)
                file.seek(0)
                said = []
                trace = tool.Trace(str(TOP / "target/bin/trace"), file.fileno())
                status = tool.tell(tool.Story(trace), said.append)
                trace.feeder.join()  # it reads on after a refusal, and the file is closed next
            text, lines = "".join(said), fuse(bytes(journal))
            lines_as_fuse(text, lines)
            expect("other fault bits" not in text, text)
            last = lines[-1].split()
            expect(status == (last[0] == "refused"), f"status {status} for {lines[-1]}")
            if status:
                has(text, f"refused {last[1]}: ", f"is byte {last[2]}\n")


class Page(html.parser.HTMLParser):
    """The ticks' texts, the lengths of the states' runs, and whatever a page would fetch."""

    def __init__(self, text):
        super().__init__()
        self.figures, self.runs, self.fetched, self.open = [], [], [], []
        self.json = False
        self.feed(text)
        self.close()

    def handle_starttag(self, tag, attrs):
        of = dict(attrs)
        self.fetched += [value for key, value in attrs if key in ("src", "href") and value]
        self.json = tag == "script" and of.get("type") == "application/json"
        if "data-n" in of:
            self.runs.append((int(of["class"][1:]), int(of["data-n"])))
        if tag not in ("meta",):
            self.open.append(tag)

    def handle_endtag(self, tag):
        expect(self.open and self.open.pop() == tag, f"</{tag}> closes another element")

    def handle_data(self, data):
        if self.json:
            self.figures.append(json.loads(data))
            self.json = False


def explain_page():
    for given in (STORY, (TOP / "crates/trace/stdin").read_bytes(), made("settings\nreset\noutcome\ntick\noutcome\noutcome")):
        file = OUT / "page.html"
        status, out, said = explain(given, "--html", file)
        lines = fuse(given)
        expect(status == lines[-1].startswith("refused") and not out + said, f"status {status}, said {out}{said}")
        page = Page(file.read_text())
        expect(not page.open and not page.fetched, f"open {page.open}, fetched {page.fetched}")
        ticks = [line.split() for line in lines if line.startswith("tick ")]
        heads = [f"seq {w[1]}, t {w[2]}: {STATES[int(w[3])]}, " for w in ticks]
        texts = [text for figure in page.figures for text in figure]
        expect(len(heads) == len(texts) and all(text.startswith(head) for head, text in zip(heads, texts)), "other ticks than fuse")
        states = [state for state, n in page.runs for _ in range(n)]
        expect(states == [int(w[3]) for w in ticks], "another band of states than fuse")
        has(file.read_text(), "refused 9: a second one" if status else "end: ")


def explain_page_counts():
    """What has no picture is counted: resets without a tick, and ticks that a page has no room for."""
    file = OUT / "page.html"
    for text, count in (("settings", 0), ("settings\nreset", 1), (BEGIN + FIRST, 0), (BEGIN + FIRST + "reset\nreset\n" + FIRST + "reset", 2)):
        explain(made(text), "--html", file)
        found = re.findall(r"Resets without a tick: (\d+)", file.read_text())
        expect(found == ([str(count)] if count else []), f"{text}: {found}")
    status, _, said = explain(STORY[:221] + STORY[221:] * 1100, "--html", file)
    texts = [text for figure in Page(file.read_text()).figures for text in figure]
    expect(status == 0 and len(texts) == 12 * 500, f"{len(texts)} ticks, {said}")
    has(file.read_text(), "The first 7200 ticks are left out")
    tool = module("explain")
    tool.page.MOST = 50
    ticks = "".join(f"value pos 0\noutcome\ntick t={t} idx=1\n" for t in range(1, 260))
    (OUT / "long.journal").write_bytes(made(BEGIN + FIRST + ticks))
    said = []
    tool.draw(tool.Story(tool.Trace(str(TOP / "target/bin/trace"), os.open(OUT / "long.journal", os.O_RDONLY))), said.append, "", None)
    texts = [text for figure in Page("".join(said)).figures for text in figure]
    expect([text.split(",")[0] for text in texts] == [f"seq {n}" for n in range(210, 260)], texts[:2])
    has("".join(said), "without its first 210 ticks")


# What the page's script gets of a browser, for node: a figure with its ticks, and what it listens to.
STAGE = """
const text = require('fs').readFileSync(0, 'utf8');
const listens = {}, mark = { set: {}, setAttribute(k, v) { this.set[k] = v; } }, said = { textContent: '' };
const plot = { set: {}, dataset: { step: text.match(/data-step="([^"]+)"/)[1] }, querySelector: () => mark, querySelectorAll: () => [],
  parentElement: { scrollLeft: 0, clientWidth: 240 }, setAttribute(k, v) { this.set[k] = v; },
  addEventListener: (name, f) => { listens[name] = f; }, getBoundingClientRect: () => ({ left: 100 }) };
const data = { textContent: text.match(/<script type="application\\/json">([^]*?)<\\/script>/)[1] };
const buttons = ['whole', 'wider', 'closer'].map((name) => ({ name, addEventListener: (_, f) => { listens[name] = f; } }));
const figure = { querySelector: (q) => ({ script: data, 'svg.plot': plot, output: said })[q], querySelectorAll: () => buttons };
global.document = { querySelectorAll: () => [figure], querySelector: () => plot.parentElement };
eval(text.match(/<script>([^]*?)<\\/script>/)[1]);
const told = [];
const tell = () => told.push(said.textContent.split(':')[0], mark.set.x / (plot.set.width / 12));
listens.pointermove({ clientX: 100 + 170 }); tell();
listens.pointerdown({ clientX: 100 + 50 }); tell();
listens.keydown({ key: 'ArrowRight', preventDefault() {} }); tell();
listens.closer(); told.push(plot.set.width, plot.parentElement.scrollLeft);
listens.pointermove({ clientX: 100 + 170 }); tell();
listens.whole(); told.push(plot.set.width);
listens.pointermove({ clientX: 99999 }); tell();
listens.keydown({ key: 'PageUp', preventDefault() {} }); tell();
console.log(JSON.stringify(told));
"""


def explain_page_shows_a_tick():
    """The page's script, with node in place of a browser: pointing, tapping, keys and buttons."""
    if not shutil.which("node"):
        raise Skipped("no node")
    file = OUT / "page.html"
    explain(STORY, "--html", file)
    done = run("node", "-e", STAGE, given=file.read_bytes())
    expect(done.returncode == 0, done.stderr.decode())
    at = lambda n: [f"seq {n}, t {n}", n]  # noqa: E731
    expect(json.loads(done.stdout) == [*at(8), *at(2), *at(3), 480, 0, *at(4), 240, *at(11), *at(0)], done.stdout)


# In a browser: what is said where a tick is pointed at, and texts that are cut or in each other's place.
LOOK = """<script>
const told = { said: [], cut: [], mixed: [], wider: document.documentElement.scrollWidth > innerWidth };
const look = (figure) => {
  for (const svg of figure.querySelectorAll('svg')) {
    const box = svg.getBoundingClientRect(), seen = [];
    for (const text of svg.querySelectorAll('text')) {
      if (text.getAttribute('visibility') === 'hidden') continue;
      const at = text.getBoundingClientRect();
      if (at.left < box.left || at.right > box.right + 1 || at.bottom > box.bottom + 1) told.cut.push(text.textContent);
      for (const other of seen) {
        const o = other.getBoundingClientRect();
        if (at.left < o.right && o.left < at.right && at.top + 3 < o.bottom && o.top + 3 < at.bottom) told.mixed.push(other.textContent + ' and ' + text.textContent);
      }
      seen.push(text);
    }
  }
};
document.querySelectorAll('section').forEach((section) => { section.style.contentVisibility = 'visible'; });
for (const figure of document.querySelectorAll('figure')) {
  const plot = figure.querySelector('svg.plot'), ticks = JSON.parse(figure.querySelector('script').textContent);
  look(figure);
  figure.querySelector('button[name=closer]').click();
  look(figure);
  figure.querySelector('button[name=whole]').click();
  look(figure);
  const box = plot.getBoundingClientRect(), step = Math.min(80, plot.parentElement.clientWidth / ticks.length);
  ticks.forEach((text, i) => {
    const event = { clientX: box.left + (i + 0.5) * step, clientY: box.top + 9, bubbles: true };
    plot.dispatchEvent(new PointerEvent(i % 2 ? 'pointerdown' : 'pointermove', event));
    told.said.push(figure.querySelector('output').textContent === text);
  });
}
document.body.textContent = 'TOLD' + JSON.stringify(told) + 'TOLD';
</script>"""


def explain_page_in_a_browser():
    """At two widths: every tick is told where it is pointed at, and no text is cut or lies on another."""
    browser = next(filter(None, map(shutil.which, ("chromium", "chromium-browser", "google-chrome"))), None)
    if not browser:
        raise Skipped("no chromium")
    file = OUT / "page.html"
    for given, ticks in ((STORY, 12), ((TOP / "crates/trace/stdin").read_bytes(), None)):
        explain(given, "--html", file)
        ticks = ticks or sum(map(len, Page(file.read_text()).figures))
        file.write_text(file.read_text() + LOOK)
        for width in (500, 1280):
            with tempfile.TemporaryDirectory() as own:
                done = run(browser, "--headless", "--no-sandbox", "--disable-gpu", f"--user-data-dir={own}", f"--window-size={width},800", "--dump-dom", file.as_uri())
            found = re.search(r"TOLD(.*)TOLD", done.stdout.decode())
            expect(found, f"{width}: the script did not end: {done.stdout.decode()[-300:]}")
            told = json.loads(html.unescape(found[1]))
            expect(told["said"] == [True] * ticks, f"{width}: {told['said'].count(True)} of {ticks} ticks are told")
            expect(not (told["cut"] or told["mixed"] or told["wider"]), f"{width}: cut {told['cut']}, mixed {told['mixed']}, wider {told['wider']}")


def explain_page_that_fails():
    file = OUT / "kept.html"
    file.write_text("as before")
    status, _, said = explain(STORY, "--html", file, "--trace", "/bin/false")
    expect(status == 2 and file.read_text() == "as before" and sorted(OUT.glob("kept*")) == [file], said)
    status, _, said = explain(STORY, "--html", OUT / "no/page.html")
    expect((status, said) == (2, f"explain: {OUT / 'no/page.html'}: No such file or directory\n"), said)


def explain_page_to_other_places():
    """A link stays a link, and a pipe a pipe."""
    link, file, pipe = OUT / "link.html", OUT / "page.html", OUT / "pipe.html"
    for one in (link, file, pipe):
        one.unlink(missing_ok=True)
    link.symlink_to(file)
    expect(explain(STORY, "--html", link)[0] == 0 and link.is_symlink() and file.stat().st_size > 1000, "the link")
    link.unlink()  # `rt ci` refuses a checkout with a link
    os.mkfifo(pipe)
    with open(OUT / "story.journal", "wb") as given:
        given.write(STORY)
    child = subprocess.Popen(["tools/explain", OUT / "story.journal", "--html", pipe], cwd=TOP)
    text = pipe.read_text()
    expect(child.wait(60) == 0 and pipe.is_fifo(), "the pipe")
    expect(text.replace("Journal story.journal", "Journal") == file.read_text(), "another page")


def explain_picture():
    file = OUT / "story.svg"
    status, _, said = explain(STORY, "--svg", file)
    expect(status == 0 and not said, said)
    expect(file.read_text() == (TOP / "docs/story.svg").read_text(), "another picture than docs/story.svg: tools/explain examples/story.journal --svg docs/story.svg makes it")


# ---- tools/journal


def journal(words, given):
    done = run("tools/journal", *words.split(), given=given)
    expect(b"Traceback" not in done.stderr, done.stderr)
    return done.returncode, done.stdout, done.stderr.decode()


def journal_all_or_nothing():
    status, out, said = journal("write", b"settings\nreset\nwhat\ntick t=x\nvalue pos .5\nack nonse=1\n")
    expect((status, out) == (1, b""), f"status {status}, {len(out)} bytes")
    has(said, "line 3: expected one of settings, reset,", "line 4: tick t: expected a number, found 'x'", "line 6: ack: expected NAME=VALUE with NAME one of decision, slot, nonce, handoff")
    has(said, "3 wrong lines, nothing is written")
    status, out, said = journal("write", b"what\n" * 1000)
    expect((status, out) == (1, b"") and said.count("\n") == 1001, said)
    has(said, "line 1000: ", "1000 wrong lines, nothing is written")


def journal_of_another_kind():
    """A journal in place of text is noticed; nothing that a terminal obeys is printed, and no long word."""
    status, out, said = journal("write", STORY)
    expect((status, out) == (1, b""), f"status {status}")
    has(said, "this begins as a journal does")
    _, _, said = journal("write", b"what\x1b[31m\n" + b"x" * 10000)
    expect("\x1b" not in said and len(said) < 400, said)


def journal_commands():
    for words, what in (("", "journal write < TEXT"), ("reed", "'reed' is not known"), ("read --place", "'read --place' is not known"), ("write x", "is not known")):
        status, out, said = journal(words, b"")
        expect((status, out) == (2, b""), f"{words}: {status}")
        has(said, what)


def journal_numbers():
    for text, x in ((".5", "0.5"), ("+1", "1"), ("1.", "1"), ("-.25e1", "-2.5"), ("+inf", "inf")):
        expect(made("value pos " + text) == made("value pos " + x), text)
        expect(made("width " + text) == made("width w=" + x) == b"\x08" + made("value pos " + x)[2:], text)
    expect(made("width") == made("width 0"), "the default of width")
    expect(made("tick t=+7") == made("tick t=7"), "+7")
    for text, words in (
        ("value pos 1e999", "value x: 1e999 is too large for a float"),
        ("value pos -1e999", "value x: -1e999 is too large for a float"),
        ("value pos .", "expected a float"),
        ("settings mode=enforced", "settings mode: expected one of observe, enforce, or a number; found 'enforced'"),
        ("settings mode=256", "settings mode: expected a number below 256, found '256'"),
        ("value hand 0", "value list: expected one of chunk, pos, vel, aux, ext, or a number; found 'hand'"),
        ("tick t=-1", "tick t: expected a number, found '-1'"),
        ("width wide", "width w: expected a float (decimal, inf, -inf, nan or bits:HEX), found 'wide'"),
        ("width 1 2", "width: expected NAME=VALUE with NAME one of w; found '1'"),
        ("width w=1,2", "width w: expected at most 1 floats, found 2"),
    ):
        status, _, said = journal("write", text.encode())
        expect(status == 1, text)
        has(said, "line 1: ", words)


def journal_places():
    _, out, _ = journal("read --places", STORY)
    lines = out.decode().splitlines()
    places = [int(line.rpartition("byte ")[2]) for line in lines]
    expect(places == [place for place, _ in records.stream([STORY])], "other places")
    has(lines[-1], f"# record {len(lines)}, byte {len(STORY) - 10}")
    expect(journal("write", out)[1] == STORY, "read with places and written again")


def journal_defaults():
    _, out, _ = journal("read --defaults", STORY)
    has(out.decode(), "tick t=0 idx=0 missed=0 schema=0 vel=0\n", "value list=pos x=0.1\n", " tau=3.0 ")
    expect(journal("write", out)[1] == STORY, "read with defaults and written again")
    usage = run("tools/journal", "--help").stdout.decode()
    for name, fields in records.RECORDS.values():
        has(usage, f"\n  {name}", *(f"{key}={default}" for key, _, default in fields))


def journal_any_bytes():
    """Whatever the bytes are, read and written again they are the same."""
    rng = random.Random(3)
    for base in (STORY, (TOP / "crates/trace/stdin").read_bytes(), bytes(rng.randrange(256) for _ in range(300)), STORY + b"\x09" + STORY * 40, made("settings\nwidth nan\nwidth") + STORY):
        for _ in range(10):
            given = bytearray(base[: rng.randrange(len(base)) or 1])
            given[rng.randrange(len(given))] = rng.randrange(256)
            _, out, _ = journal("read", bytes(given))
            expect(journal("write", out)[1] == given, "other bytes")


def journal_outputs():
    for words, given in (("read", STORY), ("write", (TOP / "examples/story.txt").read_bytes())):
        reader, writer = os.pipe()
        os.close(reader)
        done = subprocess.run(["tools/journal", words], input=given, stdout=writer, stderr=subprocess.PIPE, cwd=TOP, timeout=60)
        os.close(writer)
        expect(done.returncode == 2 and done.stderr == b"", done.stderr)
        if os.path.exists("/dev/full"):
            with open("/dev/full", "w") as full:
                done = subprocess.run(["tools/journal", words], input=given, stdout=full, stderr=subprocess.PIPE, cwd=TOP, timeout=60)
            expect(done.returncode == 2 and b"No space" in done.stderr and b"Traceback" not in done.stderr, done.stderr)


def journal_memory():
    head, episode = STORY[:221], STORY[221:]
    small = peak(["tools/journal", "read"], [head, episode])
    large = peak(["tools/journal", "read"], [head, *[episode * 100] * 8])
    expect(large < small + 4096, f"read: {small} kB for 4 kB, {large} kB for 3 MB")
    text = (TOP / "examples/story.txt").read_bytes()
    small = peak(["tools/journal", "write"], [text])
    large = peak(["tools/journal", "write"], [text * 100] * 5)
    expect(large < small + 4096, f"write: {small} kB for 2 kB of text, {large} kB for 700 kB")


# ---- tools/settings

GOOD = "settings watchdog=1 "
WARNINGS = [
    ("mode=observe", "mode is Observe"),
    ("dt=0", "dt is 0.0"),
    ("dt=-0.05 inv_dt=-20 kind=ee_delta", "braking speeds the arm up"),
    ("inv_dt=50", "dt x inv_dt is 2.5 and not 1"),
    ("a_max=-1", "a_max is -1.0: a negative deceleration"),
    ("a_max=0 kind=joint_velocity", "never slows the arm"),
    ("v_stop_eps=-0.01", "no standstill is ever found"),
    ("warn_margin=-1", "no warning ever comes"),
    ("tau=inf", "no score is a hit"),
    ("tau=-inf", "every score is a hit"),
    ("watchdog=2", "watchdog is 2"),
    ("brake=0", "every stop ends in Fault at its second tick"),
    ("brake=3 confirm=4", "confirm is 4, above brake (B) 3"),
    ("max_rearms=0", "with max_rearms 0"),
    ("rearm_hold=31", "rearm_hold 31 above hold (H) 30"),
    ("hold=0 rearm=ack_only", "Held escalates at its first tick"),
    ("handoff=0", "Escalated terminates at its first tick"),
    ("k=0", "k is 0"),
    ("k=6", "k is 6, and the window keeps 5 ticks"),
    ("window=0x1d", "window is 0x1d"),
    ("streak=0", "streak is 0"),
    ("tier0=0x7e", "tier0 lacks workspace:"),
    ("pos_dim=2", "dim is 1 and pos_dim 2: axes from dim on"),
    ("dim=2", "dim is 2 and pos_dim 1: components of a hold"),
    ("box_lo=0 box_hi=0", "no room in axis 0:"),
]


def settings(text, *words):
    done = run("tools/settings", *words, given=text if isinstance(text, bytes) else text.encode())
    expect(b"Traceback" not in done.stderr, done.stderr)
    return done.returncode, done.stdout.decode(), done.stderr.decode()


def settings_good():
    for given in (GOOD, "# a comment\n\n" + GOOD + "# one\nreset\nnonsense", made(GOOD + "\nreset")):
        status, out, said = settings(given, "--strict", "--start", "2026-03-01T06:30")
        expect(status == 0 and "warning" not in out and not said, out + said)
        has(out, "accepted", "= 30 + 30 + 200 + 2 = 262 ticks, 13.1 s\n", "6.805 years after a reset: 2032-12-19 18:49;")


def settings_warnings():
    for text, words in WARNINGS:
        line = "settings " + ("" if "watchdog" in text else "watchdog=1 ") + text
        status, out, _ = settings(line)
        found = [one for one in out.splitlines() if one.startswith("warning: ")]
        expect(status == 0 and len(found) == 1, f"{text}: status {status}, {found}")
        has(found[0], words)
        expect(settings(line, "--strict")[0] == 1, f"{text}: --strict")


def settings_that_warnings_tell_true():
    """With standstill from the first tick on, fuse does what the warnings say, and not one tick off."""
    stop = "chunk\nvalue chunk 0\nvalue pos 0\noutcome feasible=0\ntick\n"

    def states(line, ticks):
        rest = "".join(f"chunk seq={t} t_emit={t}\nvalue chunk 0\nvalue pos 0\noutcome\ntick t={t}\n" for t in range(1, ticks))
        return [one.split()[3] for one in fuse(made(line + "\nreset\n" + stop + rest))[:-1]]

    expect(states("settings brake=3 confirm=4", 9) == list("444477777"), "confirm above B")
    expect(states("settings brake=3 confirm=3", 5)[3] == "5", "confirm at B")
    expect(states("settings brake=0", 3) == list("477"), "B 0")
    expect("1" in states("settings confirm=1 hold=3 rearm_hold=3", 9), "rearm_hold at H")
    expect("1" not in states("settings confirm=1 hold=3 rearm_hold=4", 9), "rearm_hold above H")


def settings_refused():
    for number, text, words in (
        (1, "kind=9", "  kind is 9, and 0 to 4 are listed\n"),
        (2, "horizon=0", "  horizon is 0, not 1 to 64\n"),
        (3, "dt=nan", "  dt is nan\n"),
        (3, "inv_dt=inf tau=inf", "  inv_dt is inf\n"),
        (4, "box_lo=-1,2", "  pair 1: box_lo 2 is above box_hi 1\n"),
        (1, "mode=2 dim=0 dt=nan", "  mode is 2, and 0 to 1 are listed\n"),
    ):
        status, out, _ = settings("settings " + text)
        expect(status == 1, f"{text}: status {status}")
        has(out, f"refused {number}: ", words)
        expect("tau is" not in out.split("warning")[0], out)


def settings_outputs():
    reader, writer = os.pipe()
    os.close(reader)
    done = subprocess.run(["tools/settings"], input=b"settings", stdout=writer, stderr=subprocess.PIPE, cwd=TOP, timeout=60)
    os.close(writer)
    expect(done.returncode == 2 and done.stderr == b"", done.stderr)


def settings_failures():
    for given, words, what in (
        (b"", (), "there is no line `settings`"),
        (b"settings dimm=1", (), "line 1: settings: expected NAME=VALUE"),
        (STORY[:100], (), "the settings record is cut: 100 of 221 bytes"),
        (b"\xff\xfe", (), "neither text nor a journal"),
        (b"settings", ("--start", "tomorrow"), "expected a date"),
        (b"settings", ("--fuse", "/bin/false"), "neither end nor refused"),
        (b"", ("target/tools/there-is-no-such-file",), "No such file"),
    ):
        status, _, said = settings(given, *words)
        expect(status == 2, f"status {status}, {said}")
        has(said, what)


def main(words):
    failed = 0
    checks = [(name, it) for name, it in globals().items() if callable(it) and name.startswith(("explain_", "journal_", "settings_"))]
    for name, check in checks:
        what = name.replace("_", ": ", 1).replace("_", " ")
        if words and not any(word in what for word in words):
            continue
        try:
            check()
            print(f"tools: ok, {what}", flush=True)
        except Skipped as e:
            print(f"tools: SKIPPED, {what}: {e}", flush=True)
        except Exception as e:  # a check that ends in any other way failed too
            failed = 1
            print(f"tools: FAILED, {what}\n{type(e).__name__}: {e}", flush=True)
    return failed


if __name__ == "__main__":
    sys.exit(main(sys.argv[1:]))
