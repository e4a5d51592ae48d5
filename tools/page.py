"""The picture of tools/explain: one self-contained page.

For each episode it has a band of states over t, the stops, margin, score, trips and acknowledgements.
"""

import html
import json
import math

MOST, EPISODES = 100000, 500  # ticks and episodes that a page takes; of a longer journal it shows the last ones
DOTS = 400  # ticks of an episode up to which each value has its dot
LANE = 16
PLOT = 60
LABELS = 124  # width of the names at the left
LETTER = 7  # width of a letter, with some room
LEAST = 190  # width of a plot of few ticks, so that the length of a stop can be read
EVERY = [n * 10**e for e in range(10) for n in (5, 10, 20)]  # ticks from one written t to the next
HIDDEN = ' visibility="hidden"'

# colours in light and in dark; a state's lane tells it too, so that none is told by colour alone
COLOURS = {
    "paper": ("#ffffff", "#14171a"),
    "ink": ("#1c1f23", "#e6e8ea"),
    "faint": ("#667080", "#98a2ae"),
    "line": ("#e1e5ea", "#2b3138"),
    "state1": ("#2f9e62", "#3fbf7a"),
    "state2": ("#b8860b", "#d9a520"),
    "state3": ("#d9730d", "#f08c2e"),
    "state4": ("#c92a2a", "#ff6b6b"),
    "state5": ("#7048b6", "#a583e8"),
    "state6": ("#1c6fc4", "#58a6ff"),
    "state7": ("#8b0f0f", "#ff4d4d"),
    "state8": ("#4b5563", "#9aa5b1"),
    "state0": ("#9aa5b1", "#5d6772"),
    "span": ("#f7dede", "#4d2529"),
}


def style(scope):
    light = ";".join(f"--{name}:{pair[0]}" for name, pair in COLOURS.items())
    dark = ";".join(f"--{name}:{pair[1]}" for name, pair in COLOURS.items())
    states = "".join(f".s{i}{{fill:var(--state{i});stroke:var(--state{i})}}" for i in range(9))
    return (
        f"{scope}{{{light}}}@media(prefers-color-scheme:dark){{{scope}{{{dark}}}}}"
        "text{font:11px system-ui,sans-serif;fill:var(--ink)}.faint{fill:var(--faint)}.rule{stroke:var(--line)}"
        ".curve{fill:none;stroke:var(--state6);stroke-width:1.5;vector-effect:non-scaling-stroke}.dot{fill:var(--state6)}"
        ".limit{stroke:var(--state4);stroke-dasharray:4 3}.hit,.trip{fill:var(--state4);stroke:var(--state4)}.span{fill:var(--span);stroke:var(--state4)}"
        f".spent{{fill:var(--state1)}}.lost{{fill:none;stroke:var(--state4);stroke-width:1.5}}{states}"
    )


class Episode:
    def __init__(self, name, reset=False):
        self.name, self.reset, self.ticks, self.totals, self.left_out = name, reset, [], [], 0


class Shown:
    """What a picture needs of a tick."""

    __slots__ = ("t", "state", "margin", "s", "tau", "trips", "ack", "opens", "closes", "text")


class Pages:
    """Collects the events of a journal for its page, the last MOST ticks of it."""

    def __init__(self, names):
        self.states, self.trips = names
        self.episodes, self.count, self.bare, self.left_out = [Episode("Before the first reset")], 0, 0, 0
        self.settings, self.limit, self.last = "", 0, []

    def begin(self, name):
        """A reset. Of an episode without a tick only the count is kept."""
        if not self.episodes[-1].ticks:
            self.bare += self.episodes.pop().reset
        self.episodes.append(Episode(name, reset=True))

    def tick(self, it, text):
        one = Shown()
        one.t, one.state, one.margin, one.s, one.tau, one.trips = it.t, it.state, it.margin, it.s, it.tau, it.trips
        one.ack = None if it.ack is None else it.consumed
        one.opens, one.closes, one.text = it.opens, it.closes, text
        self.episodes[-1].ticks.append(one)
        self.count += 1
        if self.count >= MOST + MOST // 10 or len(self.episodes) > 2 * EPISODES:
            self.shorten()

    def shorten(self):
        while self.count > MOST or len(self.episodes) > EPISODES:
            first = self.episodes[0]
            n = len(first.ticks) if len(self.episodes) > EPISODES else min(len(first.ticks), self.count - MOST)
            del first.ticks[:n]
            first.left_out += n
            self.left_out += n
            self.count -= n
            if not first.ticks and len(self.episodes) > 1:
                self.episodes.pop(0)


# ---- one episode


def stops_of(ticks):
    """(first, last, length) of each stop; no first where it began earlier, no last where it is open."""
    found, first = [], None
    for i, it in enumerate(ticks):
        if it.opens:
            first = i
        if it.closes is not None:
            found.append((first, i, it.closes))
            first = None
    return found + ([(first, None, len(ticks) - 1 - first)] if first is not None else [])


def number(x):
    return f"{x:.4g}"


class Picture:
    """The shapes of an episode: names and numbers at the left, and the plot."""

    def __init__(self, episode, limit, names):
        self.ticks, self.limit = episode.ticks, limit
        self.states, self.trip_names = names
        n = len(self.ticks)
        self.step = max(4.0, min(28.0, 860 / n))
        self.width = max(math.ceil(n * self.step), LEAST)
        self.left, self.right, self.y = [], [], 4
        self.band()
        self.stops()
        self.curve("margin, m", [it.margin for it in self.ticks], 0.0, "0")
        tau = self.ticks[-1].tau
        if any(math.isfinite(it.s) for it in self.ticks):
            self.curve("score s", [it.s for it in self.ticks], *((tau, f"tau {number(tau)}") if math.isfinite(tau) else (None, "")))
        self.trips()
        self.acks()
        self.axis()

    def x(self, i):
        return round(i * self.step, 1)

    def name(self, text, y):
        self.left.append(f'<text x="8" y="{y + 12}">{html.escape(text)}</text>')

    def value(self, text, y):
        self.left.append(f'<text class="faint" x="{LABELS - 6}" y="{y + 4}" text-anchor="end">{html.escape(text)}</text>')

    def rule(self, y):
        self.right.append(f'<line class="rule" x1="0" x2="{self.width}" y1="{y}" y2="{y}"/>')

    def label(self, kind, text, i, x, seen):
        """A text in the plot for tick i, at x; the script moves, shows and hides it."""
        self.right.append(f'<text class="faint {kind}" data-x="{self.x(i)}" x="{x}" y="{self.y}"{"" if seen else HIDDEN}>{text}</text>')

    def runs(self, at):
        """Neighbours with the same value: (first, number, value)."""
        first = 0
        for i in range(1, len(self.ticks) + 1):
            if i == len(self.ticks) or at(self.ticks[i]) != at(self.ticks[first]):
                yield first, i - first, at(self.ticks[first])
                first = i

    def bar(self, kind, first, n, y, height, more=""):
        self.right.append(f'<rect class="{kind}"{more} x="{self.x(first)}" y="{y}" width="{round(n * self.step, 1)}" height="{height}"/>')

    def band(self):
        lanes = [state for state in range(9) if state or any(it.state == 0 for it in self.ticks)]
        for row, state in enumerate(lanes):
            self.name(self.states[state], self.y + row * LANE)
            self.rule(self.y + row * LANE + LANE - 0.5)
        for first, n, state in self.runs(lambda it: it.state):
            self.bar(f"s{state}", first, n, self.y + lanes.index(state) * LANE + 3, LANE - 7, f' data-n="{n}"')
        self.y += len(lanes) * LANE + 8

    def stops(self):
        """Each stop, in the frame of the ticks that it may take."""
        found = stops_of(self.ticks)
        if not found:
            return
        self.name("stops", self.y - 3)
        for first, last, length in found:
            begin = first if first is not None else 0
            n = (last + 1 if last is not None else len(self.ticks)) - begin
            # a frame that goes on after the last tick is cut by the plot's edge, and so stays open there
            self.bar("span", begin, min(self.limit + 1, 2 * len(self.ticks) + LEAST) if first is not None else n, self.y, 9)
            self.bar("s4", begin, n, self.y, 9)
        self.y += 21
        free = 0
        for first, last, length in found:
            text = f"{length} of {self.limit} ticks" + (", open" if last is None else "")
            begin = first if first is not None else 0
            x = max(0, min(self.x(begin), self.width - LETTER * len(text)))
            self.label("stop", text, begin, x, x >= free)
            free = x + LETTER * (len(text) + 2) if x >= free else free
        self.y += 11

    def curve(self, what, values, limit, limit_text):
        known = [x for x in values if math.isfinite(x)] + ([limit] if limit is not None else [])
        if not known:
            return
        low, high = min(known), max(known)
        room = high - low
        if not math.isfinite(room) or room == 0:
            room = 1.0 if room == 0 else math.inf
        self.name(what, self.y)
        self.y += LANE + 2
        place = lambda x: round(self.y + 4 + (PLOT - 8) * (1 - (0.5 if room == math.inf else min(max((x - low) / room, 0), 1))), 1)  # noqa: E731
        for x in {low, high} - {limit}:
            self.value(number(x), place(x))
        if limit is not None:
            # the limit's name keeps off the two others
            top, bottom = place(high) + (0 if high == limit else 12), place(low) - (0 if low == limit else 12)
            self.value(limit_text, min(max(place(limit), top), bottom))
            y = place(limit)
            self.right.append(f'<line class="limit" x1="0" x2="{self.width}" y1="{y}" y2="{y}"/>')
        path, marks, pen = [], [], "M"
        for i, x in enumerate(values):
            if not math.isfinite(x):
                pen = "M"
                continue
            at = round(self.x(i) + self.step / 2, 1)
            path.append(f"{pen}{at} {place(x)}")
            pen = "L"
            hit = what == "score s" and limit is not None and x > limit
            if hit or len(values) <= DOTS:
                marks.append(f'<circle class="{"hit" if hit else "dot"}" cx="{at}" cy="{place(x)}" r="{3 if hit else 2}"/>')
        self.right += [f'<path class="curve" d="{"".join(path)}"/>', *marks]
        self.y += PLOT + 6

    def trips(self):
        every = 0
        for it in self.ticks:
            every |= it.trips
        for bit in range(32):
            if every >> bit & 1:
                self.name(self.trip_names[bit] if bit < len(self.trip_names) else f"bit {bit}", self.y)
                self.rule(self.y + LANE - 0.5)
                for first, n, on in self.runs(lambda it: it.trips >> bit & 1):
                    if on:
                        self.bar("trip", first, n, self.y + 4, LANE - 9)
                self.y += LANE
        self.y += 4 if every else 0

    def acks(self):
        if all(it.ack is None for it in self.ticks):
            return
        self.name("acknowledged", self.y)
        for i, it in enumerate(self.ticks):
            if it.ack is not None:
                self.right.append(f'<circle class="{"spent" if it.ack else "lost"}" cx="{round(self.x(i) + self.step / 2, 1)}" cy="{self.y + 8}" r="4"/>')
        self.y += LANE + 4

    def axis(self):
        self.rule(self.y)
        self.name("t", self.y + 2)
        self.y += 14
        wide = LETTER * max(len(str(it.t)) for it in self.ticks)
        every = next(n for n in EVERY if n * self.step >= wide + 2 * LETTER)
        for i in range(0, len(self.ticks), 5):
            text = str(self.ticks[i].t)
            self.label("t", text, i, self.x(i), i % every == 0 and (i == 0 or self.x(i) + LETTER * len(text) <= self.width))
        self.y += 8


# ---- the page

SCRIPT = """
// All plots have the same room; asking for it once keeps a page of many episodes quick.
const given = document.querySelector('.scroll')?.clientWidth;
for (const figure of document.querySelectorAll('figure')) {
  const ticks = JSON.parse(figure.querySelector('script').textContent);
  const plot = figure.querySelector('svg.plot'), mark = plot.querySelector('.mark'), said = figure.querySelector('output');
  const box = plot.parentElement, drawn = Number(plot.dataset.step);
  const shapes = [...plot.querySelectorAll('rect:not(.mark),line,circle')].map((shape) =>
    [shape, ['x', 'width', 'x1', 'x2', 'cx'].filter((key) => shape.hasAttribute(key)).map((key) => [key, Number(shape.getAttribute(key))])]);
  const curves = plot.querySelectorAll('path');
  let step = drawn, at = -1;

  const show = (i) => {
    at = Math.max(0, Math.min(ticks.length - 1, i));
    mark.setAttribute('x', at * step);
    mark.setAttribute('width', Math.max(step, 2));
    mark.setAttribute('visibility', 'visible');
    said.textContent = ticks[at];
  };
  const zoom = (to) => {
    const by = to / drawn, width = Math.max(ticks.length * to, LEAST);
    step = to;
    plot.setAttribute('width', width);
    for (const [shape, keys] of shapes) for (const [key, x] of keys) shape.setAttribute(key, x * by);
    for (const curve of curves) curve.setAttribute('transform', `scale(${by} 1)`);
    let free = 0;
    const wide = (label) => LETTER * label.textContent.length;
    const put = (label, x, seen) => {
      label.setAttribute('x', x);
      label.setAttribute('visibility', seen ? 'visible' : 'hidden');
      return seen;
    };
    for (const label of plot.querySelectorAll('.stop')) {
      const x = Math.max(0, Math.min(label.dataset.x * by, width - wide(label)));
      if (put(label, x, x >= free)) free = x + wide(label) + 2 * LETTER;
    }
    const times = plot.querySelectorAll('.t'), widest = Math.max(...[...times].slice(-9).map(wide)) + 2 * LETTER;
    const every = EVERY.find((n) => n * step >= widest);
    times.forEach((label, i) => {
      const x = label.dataset.x * by;
      put(label, x, 5 * i % every === 0 && (i === 0 || x + wide(label) <= width));
    });
    if (at >= 0) show(at);
  };
  const within = (to, room) => Math.max(Math.min(room / ticks.length, MIN), Math.min(to, MAX));
  const point = (event) => show(Math.floor((event.clientX - plot.getBoundingClientRect().left) / step));
  const ways = { whole: (room) => room / ticks.length, closer: () => step * 2, wider: () => step / 2 };
  plot.addEventListener('pointermove', point);
  plot.addEventListener('pointerdown', point);
  plot.addEventListener('keydown', (event) => {
    const by = { ArrowLeft: -1, ArrowRight: 1, PageUp: -20, PageDown: 20 }[event.key];
    if (by === undefined) return;
    event.preventDefault();
    show(at + by);
    const x = at * step;
    if (x < box.scrollLeft || x + step > box.scrollLeft + box.clientWidth) box.scrollLeft = x - box.clientWidth / 2;
  });
  for (const button of figure.querySelectorAll('button')) {
    button.addEventListener('click', () => {
      const room = box.clientWidth, middle = at < 0 ? (box.scrollLeft + room / 2) / step : at;
      zoom(within(ways[button.name](room), room));
      box.scrollLeft = middle * step - room / 2;
    });
  }
  zoom(Math.max(MIN, within(given / ticks.length, given)));
}
""".replace("LETTER", str(LETTER)).replace("LEAST", str(LEAST)).replace("EVERY", str(EVERY)).replace("MIN", "4").replace("MAX", "80")

LOOKS = """
body{margin:0 auto;padding:16px;max-width:1080px;font:15px/1.45 system-ui,sans-serif;background:var(--paper);color:var(--ink)}
section{content-visibility:auto;contain-intrinsic-size:auto 640px}h1{font-size:20px;margin:0 0 4px}h2{font-size:16px;margin:28px 0 8px}p{margin:4px 0}
figure{margin:0}.picture{display:flex;border:1px solid var(--line);border-radius:6px}.picture>svg{flex:none}
.scroll{overflow-x:auto;flex:1;min-width:0}svg{display:block}svg.plot{cursor:crosshair;touch-action:pan-x pan-y}
svg.plot:focus{outline:none}svg.plot:focus-visible{outline:2px solid var(--state6);outline-offset:-2px}
.mark{fill:var(--ink);opacity:.18;pointer-events:none}
.zoom{display:flex;gap:6px;margin:6px 0 0}button{font:13px system-ui,sans-serif;padding:4px 12px;color:var(--ink);background:none;border:1px solid var(--faint);border-radius:6px}
output{display:block;min-height:3em;padding:6px 2px;font-size:14px;overflow-wrap:anywhere}
ul{margin:0 0 8px;padding-left:18px;color:var(--faint);font-size:14px}pre{white-space:pre-wrap;overflow-wrap:anywhere;font-size:13px}
.key{color:var(--faint);font-size:13px}
"""
ZOOM = '<div class="zoom"><button name="whole">whole</button><button name="wider">wider</button><button name="closer">closer</button></div>'


def figure(episode, limit, names):
    it = Picture(episode, limit, names)
    data = json.dumps([tick.text for tick in episode.ticks], ensure_ascii=False, separators=(",\n", ":")).replace("<", "\\u003c")
    yield f'<figure><div class="picture"><svg width="{LABELS}" height="{it.y}" aria-hidden="true">{"".join(it.left)}</svg><div class="scroll">'
    yield f'<svg class="plot" tabindex="0" role="img" aria-label="{len(episode.ticks)} ticks" data-step="{it.step}" width="{it.width}" height="{it.y}">'
    yield from it.right
    yield f'<rect class="mark" visibility="hidden" x="0" y="0" width="{it.step}" height="{it.y}"/></svg></div></div>{ZOOM}'
    yield f'<output>Point at a tick, tap it, or use the arrow keys.</output><script type="application/json">{data}</script></figure>'


def page(pages, name):
    """The text of the page, part by part."""
    pages.shorten()
    names = (pages.states, pages.trips)
    title = html.escape(f"Journal {name}" if name else "Journal")
    yield f'<!DOCTYPE html>\n<html lang="en"><head><meta charset="utf-8"><meta name="viewport" content="width=device-width,initial-scale=1"><title>{title}</title>'
    yield f"<style>:root{{color-scheme:light dark}}{style(':root')}{LOOKS}</style></head><body>\n<h1>{title}</h1>\n<p>{html.escape(pages.settings)}</p>\n"
    yield '<p class="key">Stops: the bar is the stop, the frame around it the B + H + E + 2 ticks that it may take. Dashes: margin 0, and tau; a score above tau is a hit, '
    yield "in red. Acknowledgements: a disc was consumed, a ring was not.</p>\n"
    if pages.left_out:
        yield f"<p>The first {pages.left_out} ticks are left out: a page shows the last {MOST} at most, of the last {EPISODES} episodes. "
        yield "tools/explain without --html says all of them.</p>\n"
    for episode in pages.episodes:
        if not episode.ticks:
            continue
        more = f", without its first {episode.left_out} ticks" if episode.left_out else ""
        yield f"<section><h2>{html.escape(episode.name)}{more}</h2>\n"
        yield from figure(episode, pages.limit, names)
        yield "<ul>" + "".join(f"<li>{html.escape(line)}</li>" for line in episode.totals) + "</ul></section>\n"
    bare = pages.bare + (pages.episodes[-1].reset and not pages.episodes[-1].ticks)
    if bare:
        yield f"<p>Resets without a tick: {bare}</p>\n"
    yield "<h2>The end of the journal</h2>\n<pre>" + html.escape("\n".join(pages.last)) + f"</pre>\n<script>{SCRIPT}</script></body></html>\n"


def svg(episode, limit, names):
    """The picture of one episode alone."""
    it = Picture(episode, limit, names)
    yield f'<svg xmlns="http://www.w3.org/2000/svg" viewBox="0 0 {LABELS + it.width + 8} {it.y + 4}" width="{LABELS + it.width + 8}" height="{it.y + 4}">'
    yield f'<style>{style("svg")}</style><rect width="100%" height="100%" fill="var(--paper)"/>\n'
    seen = [shape for shape in it.right if HIDDEN not in shape]
    yield "\n".join(it.left) + f'\n<g transform="translate({LABELS} 0)">\n' + "\n".join(seen) + "\n</g></svg>\n"
