"""The records of a journal as bytes and as text (docs/JOURNAL.md), for the tools beside this file."""

import re
import struct

MODE = ["observe", "enforce"]
KIND = ["ee_position", "ee_delta", "joint_position", "joint_velocity", "other"]
CLAMP = ["off", "project"]
REARM = ["auto", "ack_only"]
DECISION = ["resume", "abort", "retune"]
LIST = ["chunk", "pos", "vel", "aux", "ext"]

# kind: (name, fields); a field: (name, bytes, or a list of names, or ("f", count), default)
RECORDS = {
    1: ("settings", [
        ("mode", MODE, "enforce"), ("kind", KIND, "ee_position"), ("clamp", CLAMP, "project"), ("rearm", REARM, "auto"),
        ("dim", 1, "1"), ("pos_dim", 1, "1"), ("k", 1, "3"), ("clear", 1, "5"), ("streak", 1, "3"), ("confirm", 1, "2"),
        ("watchdog", 1, "2"), ("max_rearms", 1, "2"),
        ("horizon", 2, "1"), ("exec", 2, "1"), ("max_clamps", 2, "60"), ("brake", 2, "30"), ("rearm_hold", 2, "10"), ("hold", 2, "30"),
        ("handoff", 4, "200"), ("tier0", 4, "127"), ("calib", 4, "0"), ("window", 8, "31"),
        ("dt", ("f", 1), "0.05"), ("inv_dt", ("f", 1), "20"), ("a_max", ("f", 1), "1"), ("v_stop_eps", ("f", 1), "0.01"),
        ("warn_margin", ("f", 1), "0.5"), ("tau", ("f", 1), "3"), ("box_lo", ("f", 8), "-1"), ("box_hi", ("f", 8), "1")]),
    2: ("reset", []),
    3: ("ack", [("decision", DECISION, "resume"), ("slot", 1, "0"), ("nonce", 8, "1"), ("handoff", 4, "0")]),
    4: ("chunk", [("seq", 4, "0"), ("t_emit", 4, "0"), ("horizon", 2, "1"), ("dim", 2, "1"), ("exec", 2, "1")]),
    5: ("value", [("list", LIST, "pos"), ("x", ("f", 1), "0")]),
    6: ("outcome", [
        ("trips", 4, "0"), ("clamped_dims", 4, "0"), ("feasible", 1, "1"), ("margin", ("f", 1), "1"), ("s", ("f", 1), "-inf"),
        ("valid", 4, "0"), ("fired", 4, "0"), ("z", ("f", 12), "0"), ("policy", ("f", 8), "0"), ("clamped", ("f", 8), "0")]),
    7: ("tick", [("t", 4, "0"), ("idx", 2, "0"), ("missed", 1, "0"), ("schema", 1, "0"), ("vel", 1, "0")]),
    8: ("width", [("w", ("f", 1), "0")]),
}
KINDS = {name: kind for kind, (name, _) in RECORDS.items()}
ROOM = [512, 16, 16, 16, 16]  # values of each list
PART = 1 << 16  # bytes that are read at a time


class Bad(Exception):
    """Text that is no record; the message says what was expected."""


def found(text):
    """A word as it is shown: short, and without what a terminal would obey."""
    short = text if len(text) <= 60 else text[:60] + ".."
    return "found '" + "".join(c if c.isprintable() else "?" for c in short) + "'"


def width(form):
    return 1 if isinstance(form, list) else form if isinstance(form, int) else 8 * form[1]


# bytes of a record, its kind byte included
SIZE = {kind: 1 + sum(width(form) for _, form, _ in fields) for kind, (_, fields) in RECORDS.items()}
# and how struct takes its fields apart
FORM = {
    kind: struct.Struct("<x" + "".join("B" if isinstance(form, list) else {1: "B", 2: "H", 4: "I", 8: "Q"}[form] if isinstance(form, int) else f"{form[1]}d" for _, form, _ in fields))
    for kind, (_, fields) in RECORDS.items()
}


# ---- text to bytes


def number(text, size, what):
    if not re.fullmatch(r"\+?(0[xX][0-9a-fA-F]+|[0-9]+)", text):
        raise Bad(f"{what}: expected a number, {found(text)}")
    text = text.lstrip("+")
    n = int(text, 0) if text[:2] in ("0x", "0X") else int(text)
    if n >= 256**size:
        raise Bad(f"{what}: expected a number below {256**size}, {found(text)}")
    return n.to_bytes(size, "little")


def code(text, names, what):
    if text in names:
        return bytes([names.index(text)])
    if not re.fullmatch(r"\+?[0-9][0-9a-fA-FxX]*", text):
        raise Bad(f"{what}: expected one of {', '.join(names)}, or a number; {found(text)}")
    return number(text, 1, what)


def double(text, what):
    m = re.fullmatch(r"bits:([0-9a-fA-F]{16})", text)
    if m:
        return int(m.group(1), 16).to_bytes(8, "little")
    if not re.fullmatch(r"[+-]?(inf|nan|([0-9]+\.?[0-9]*|\.[0-9]+)([eE][+-]?[0-9]+)?)", text):
        raise Bad(f"{what}: expected a float (decimal, inf, -inf, nan or bits:HEX), {found(text)}")
    x = float(text)
    if x in (float("inf"), float("-inf")) and "inf" not in text:
        raise Bad(f"{what}: {text} is too large for a float; infinity is written inf or -inf")
    return struct.pack("<d", x)


def field(form, text, what):
    if isinstance(form, list):
        return code(text, form, what)
    if isinstance(form, int):
        return number(text, form, what)
    parts = text.split(",")
    if len(parts) > form[1]:
        raise Bad(f"{what}: expected at most {form[1]} floats, found {len(parts)}")
    parts += [parts[-1]] * (form[1] - len(parts))
    return b"".join(double(p, what) for p in parts)


DEFAULTS = {kind: [field(form, default, key) for key, form, default in fields] for kind, (_, fields) in RECORDS.items()}


def record(words):
    """The bytes of a line's record."""
    if words[0] == "raw":
        if len(words) != 2 or not re.fullmatch(r"([0-9a-fA-F]{2})+", words[1]):
            raise Bad("raw: expected an even number of hex digits")
        return bytes.fromhex(words[1])
    if words[0] not in KINDS:
        raise Bad(f"expected one of {', '.join(KINDS)}, raw; {found(words[0])}")
    kind = KINDS[words[0]]
    name, fields = RECORDS[kind]
    if name == "value" and len(words) == 3 and "=" not in words[1] + words[2]:
        words = ["value", "list=" + words[1], "x=" + words[2]]
    if name == "width" and len(words) == 2 and "=" not in words[1]:
        words = ["width", "w=" + words[1]]
    given = {}
    for w in words[1:]:
        key, eq, text = w.partition("=")
        if not eq or key not in [f[0] for f in fields]:
            raise Bad(f"{name}: expected NAME=VALUE with NAME one of {', '.join(f[0] for f in fields) or 'none'}; {found(w)}")
        if key in given:
            raise Bad(f"{name}: {key} is there twice")
        given[key] = text
    parts = (field(form, given[key], f"{name} {key}") if key in given else whole for (key, form, _), whole in zip(fields, DEFAULTS[kind]))
    return bytes([kind]) + b"".join(parts)


# ---- bytes to text


def shown_double(b):
    x = struct.unpack("<d", b)[0]
    text = "nan" if x != x else repr(x)
    return text if struct.pack("<d", float(text)) == b else f"bits:{int.from_bytes(b, 'little'):016x}"


def shown(form, b):
    if isinstance(form, list):
        return form[b[0]] if b[0] < len(form) else str(b[0])
    if isinstance(form, int):
        return str(int.from_bytes(b, "little"))
    parts = [shown_double(b[i : i + 8]) for i in range(0, len(b), 8)]
    while len(parts) > 1 and parts[-1] == parts[-2]:
        parts.pop()
    return ",".join(parts)


def text(b, defaults=False):
    """The line of a record, or `raw`; fields that have their default are left out, or shown too."""
    if SIZE.get(b[0]) != len(b):
        return "raw " + b.hex()
    name, fields = RECORDS[b[0]]
    parts, at = [name], 1
    for (key, form, _), usual in zip(fields, DEFAULTS[b[0]]):
        one = b[at : at + len(usual)]
        at += len(usual)
        if defaults or one != usual:
            parts.append(f"{key}={shown(form, one)}")
    return " ".join(parts)


def values(b):
    """The fields of a record by name; a list of floats is a tuple."""
    flat, at, fields = FORM[b[0]].unpack(b), 0, {}
    for key, form, _ in RECORDS[b[0]][1]:
        if isinstance(form, tuple) and form[1] > 1:
            fields[key] = flat[at : at + form[1]]
            at += form[1]
        else:
            fields[key] = flat[at]
            at += 1
    return fields


# ---- what the check of a record looks at

# codes and flags with their last number
LISTED = {
    1: [("mode", 1), ("kind", 4), ("clamp", 1), ("rearm", 1)],
    3: [("decision", 2)],
    5: [("list", 4)],
    6: [("feasible", 1)],
    7: [("schema", 1), ("vel", 1)],
}


def decimal(x):
    text = repr(x)
    return text[:-2] if text.endswith(".0") else text


def wrong(number, b):
    """What of a record meets refusal 1, 2, 3 or 4."""
    of, kind = values(b), b[0]
    if number == 1:
        return [f"{key} is {of[key]}, and 0 to {last} are listed" for key, last in LISTED.get(kind, []) if of[key] > last]
    if kind == 8 and number == 3:
        return [f"w is {of['w']!r}" + (", below zero" if of["w"] < 0 else "")] if not 0 <= of["w"] < float("inf") else []
    if kind != 1:
        return []
    if number == 2:
        ranges = [("dim", 1, 8), ("pos_dim", 1, 8), ("horizon", 1, 64), ("exec", 1, of["horizon"])]
        return [f"{key} is {of[key]}, not {low} to {high}" for key, low, high in ranges if not low <= of[key] <= high]
    if number == 3:
        floats = [(key, of[key]) for key in ("dt", "inv_dt", "a_max", "v_stop_eps", "warn_margin", "tau")]
        floats += [(f"{key} {i}", x) for key in ("box_lo", "box_hi") for i, x in enumerate(of[key])]
        return [f"{key} is {x!r}" for key, x in floats if x != x or x - x != 0 and key != "tau"]
    pairs = enumerate(zip(of["box_lo"], of["box_hi"]))
    return [f"pair {i}: box_lo {decimal(lo)} is above box_hi {decimal(hi)}" for i, (lo, hi) in pairs if lo > hi]


# ---- a journal, record by record


def stream(parts):
    """The records of a journal that comes in parts: (place, bytes).

    From the first bytes that are no whole record on, what is left comes as it is, in parts.
    """
    rest, base = b"", 0
    parts = iter(parts)
    for part in parts:
        rest = rest + part if rest else part
        at, have = 0, len(rest)
        while at < have:
            size = SIZE.get(rest[at])
            if size is None:
                yield base + at, rest[at:]
                place = base + have
                for more in parts:
                    yield place, more
                    place += len(more)
                return
            if at + size > have:
                break
            yield base + at, rest[at : at + size]
            at += size
        base, rest = base + at, rest[at:]
    if rest:
        yield base, rest


def parts_of(read, size=PART):
    """What a file gives, part by part."""
    return iter(lambda: read(size), b"")
