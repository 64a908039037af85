#!/usr/bin/env python3
"""A model of limitday, with no code in common: plays the same scripts by the rules of docs/, to compare answers with.

    python3 model/limitday.py < SCRIPT
"""
import re
import sys

MAX_TAPE = 1 << 20
LAST_TIME = 86_399_999
MAX_PRICE = 20_000_000


class Refused(Exception):
    def __init__(self, code, place=None):
        self.code, self.place = code, place

    def __str__(self):
        return f"refused {self.code}" + ("" if self.place is None else f" at {self.place}")


class ScriptError(Exception):
    pass


# --- words ---------------------------------------------------------------------------------------

def number(word):
    if not re.fullmatch(r"[0-9]+", word) or int(word) > 0xFFFFFFFF:
        raise ScriptError
    return int(word)


def price(word):
    m = re.fullmatch(r"([0-9]+)(?:\.([0-9]{1,2}))?", word)
    if not m:
        raise ScriptError
    hundredths = int(m[1]) * 100 + int((m[2] or "").ljust(2, "0"))
    if hundredths > 0xFFFFFFFF:
        raise ScriptError
    return hundredths


def hexes(word):
    if word == "-":
        return b""
    if not re.fullmatch(r"([0-9A-Fa-f]{2})+", word):
        raise ScriptError
    return bytes.fromhex(word)


def symbol(word):
    if word == "-":
        return b""
    if not re.fullmatch(r"(?:[!-\[\]-~]|\\x[0-9A-Fa-f]{2})+", word):
        raise ScriptError
    return bytes(int(p[2:], 16) if p.startswith("\\") else ord(p)
                 for p in re.findall(r"\\x[0-9A-Fa-f]{2}|[!-\[\]-~]", word))


def show_price(p):
    return f"{p // 100}.{p % 100:02}"


def show_symbol(s):
    if s == b"":
        return "-"
    if s == b"-":
        return "\\x2D"
    return "".join(chr(b) if 0x21 <= b <= 0x7E and b != 0x5C else f"\\x{b:02X}" for b in s)


def show_hex(b):
    return b.hex().upper() if b else "-"


# --- tape ----------------------------------------------------------------------------------------

def fields_hold(kind, time, a, b):
    if time > LAST_TIME:
        return False
    if kind == "trade":
        return 1 <= a <= MAX_PRICE and 1 <= b <= 1_000_000
    return 1 <= a <= b <= MAX_PRICE


def parse(tape):
    """The records as (place, kind, time, a, b, symbol)."""
    if len(tape) > MAX_TAPE:
        raise Refused(7)
    if tape[:1] != b"\x01":
        raise Refused(1, 0)
    records, at, last = [], 1, 0
    while at < len(tape):
        if len(tape) - at < 2:
            raise Refused(2, at)
        long = int.from_bytes(tape[at:at + 2], "big")
        if not 14 <= long <= 25:
            raise Refused(4, at)
        body = tape[at + 2:at + 2 + long]
        if len(body) < long:
            raise Refused(2, at)
        if body[0] not in (1, 2):
            raise Refused(3, at)
        kind = {1: "trade", 2: "quote"}[body[0]]
        time, a, b = (int.from_bytes(body[i:i + 4], "big") for i in (1, 5, 9))
        if not fields_hold(kind, time, a, b):
            raise Refused(5, at)
        if time < last:
            raise Refused(6, at)
        records.append((at, kind, time, a, b, body[13:]))
        at, last = at + 2 + long, time
    return records


class Tape:
    """A tape being written."""

    def __init__(self, capacity):
        if capacity < 1:
            raise Refused(12)
        self.room, self.bytes, self.last = min(capacity, MAX_TAPE), b"\x01", 0

    def append(self, kind, time, a, b, sym):
        place = len(self.bytes)
        if not 1 <= len(sym) <= 12:
            raise Refused(4, place)
        if not fields_hold(kind, time, a, b):
            raise Refused(5, place)
        if time < self.last:
            raise Refused(6, place)
        body = bytes([1 if kind == "trade" else 2]) + b"".join(n.to_bytes(4, "big") for n in (time, a, b)) + sym
        record = len(body).to_bytes(2, "big") + body
        if place + len(record) > self.room:
            raise Refused(12)
        self.bytes += record
        self.last = time


# --- reference -----------------------------------------------------------------------------------

WINDOW = 30_000
WIDTH = 30_00


def check_request(close, windows, sym=None):
    if sym is not None and not 1 <= len(sym) <= 12:
        raise Refused(8)
    if not 30_000 <= close <= 86_400_000 or not 1 <= windows <= 20 or windows * WINDOW > close:
        raise Refused(8)


def in_window(records, close, w):
    return [r for r in records if close - WINDOW * w <= r[2] < close]


def cut(tape, close, w):
    check_request(close, w)
    records = parse(tape)
    place = next((r[0] for r in records if r[2] >= close - WINDOW * w), len(tape))
    return place, sum(15 + len(r[5]) for r in in_window(records, close, w))


def mean(priced, divisor):
    weights = sum(w for w, _ in priced)
    return sum(w * v for w, v in priced) // (divisor * weights) if weights else None


def reference(tape, sym, close, windows):
    """Price, tier and number of windows."""
    check_request(close, windows, sym)
    records = [r for r in parse(tape) if r[5] == sym]
    for w in range(1, windows + 1):
        here = in_window(records, close, w)
        trades = [(b, a) for _, kind, _, a, b, _ in here if kind == "trade"]
        quotes = [(1 if b - a <= WIDTH else 0, a + b) for _, kind, _, a, b, _ in here if kind == "quote"]
        for tier, price in ((1, mean(trades, 1)), (2, mean(quotes, 2))):
            if price is not None:
                return price, tier, w
    raise Refused(9)


# --- limit rules ---------------------------------------------------------------------------------

class Rule:
    """Figures in hundredths; offsets from the price P."""

    def __init__(self, unit, offsets):
        self.unit, self.offsets = unit, offsets

    def offset(self, level, p):
        if p % self.unit or not 1_000_00 <= p <= 200_000_00:
            return None
        offsets = self.offsets(p)
        if offsets[-1] >= p or not 1 <= level <= len(offsets):
            return None
        return offsets[level - 1]

    @property
    def levels(self):
        return len(self.offsets(100_000_00))


PERCENTS = (8, 12, 16)


def daily():
    return Rule(10_00, lambda p: [p * k // 100 // 10_00 * 10_00 for k in PERCENTS])


def quarterly(closes):
    if len(closes) != 20 or any(not 1_000_00 <= c <= 200_000_00 for c in closes):
        raise Refused(11)
    total = sum(closes)
    offsets = [total * k // (20 * 100 * 10_00) * 10_00 for k in PERCENTS]
    return Rule(1_00, lambda p: offsets)


def monthly(settlement):
    if settlement % 5_00 or settlement > 200_000_00:
        raise Refused(11)
    offset = 1_000_00 if settlement <= 20_000_00 else 1_500_00 if settlement <= 30_000_00 else 2_000_00
    return Rule(5_00, lambda p: [offset])


# --- listings ------------------------------------------------------------------------------------

LETTERS = "FGHJKMNQUVXZ"
MOST_PLACES = 4096
MOST_STRIKE = 400_000


def is_code(word):
    return re.fullmatch("[" + LETTERS + "][0-9]{2}", word) is not None


def month_code(word):
    if not is_code(word):
        raise Refused(21)
    return word


def series_key(code, strike, right):
    if not 1 <= strike <= MOST_STRIKE:
        raise Refused(21)
    return month_code(code), strike, right


UNDERLYINGS = dict(zip(LETTERS, "HHHMMMUUUZZZ"))


def entry(entries, key):
    """Where an entry of this key stands, or None."""
    return next((i for i, (k, _) in enumerate(entries) if k == key), None)


class Roster:
    """Entries in the order of entering, as (key, last day); a change makes a new row of them."""

    def __init__(self, places):
        self.room, self.entries = min(places, MOST_PLACES), ()

    def list(self, key, last):
        if entry(self.entries, key) is not None:
            raise Refused(28)
        if len(self.entries) >= self.room:
            raise Refused(27)
        self.entries += ((key, last),)
        return f"listed {len(self.entries)}"

    def delist(self, key):
        i = entry(self.entries, key)
        if i is None:
            raise Refused(22)
        self.entries = self.entries[:i] + self.entries[i + 1:]
        return f"delisted {len(self.entries)}"


# --- day -----------------------------------------------------------------------------------------

SPAN = 120_000
TICK = 5_00
OPTION_TICK = 1_00
HIGHEST = 400_000_00
SIDES = {"lower": "offered", "upper": "bid"}


def watches(marks, side, n):
    """When the watches of a side started, read from the accepted marks (time, kind)."""
    starts = []
    for t, kind in marks:
        if kind == SIDES[side] and len(starts) + 1 < n and (not starts or starts[-1] + SPAN <= t):
            starts.append(t)
    return starts


def level(marks, side, n, t):
    return 1 + sum(s + SPAN <= t for s in watches(marks, side, n))


def watch_end(marks, side, n, t):
    return next((s + SPAN for s in watches(marks, side, n) if s <= t < s + SPAN), None)


def halts(marks, n):
    """Beginnings of halts: watch ends before which the last accepted mark is of the watch's side."""
    for side, kind in SIDES.items():
        for s in watches(marks, side, n):
            before = [k for t, k in marks if t < s + SPAN]
            if before and before[-1] == kind:
                yield s + SPAN


def halt_end(marks, n, t):
    return next((b + SPAN for b in halts(marks, n) if b <= t < b + SPAN), None)


def standing(marks, n, t):
    if not marks or marks[-1][1] == "clear" or any(marks[-1][0] < b <= t for b in halts(marks, n)):
        return None
    return marks[-1][1]


class Day:
    """The rule, the price, and what calls left behind: the clock and the accepted marks."""

    def __init__(self, rule, price):
        self.rule, self.p = rule, price // rule.unit * rule.unit
        if rule.offset(1, self.p) is None:
            raise Refused(10)
        self.clock, self.marks = 0, []

    def bounds(self, t):
        n = self.rule.levels
        low = self.p - self.rule.offset(level(self.marks, "lower", n, t), self.p)
        high = self.p + self.rule.offset(level(self.marks, "upper", n, t), self.p)
        return low, high, -(-low // TICK) * TICK, high // TICK * TICK

    def move(self, formed, t):
        if not formed:
            raise Refused(21)
        if not self.clock <= t <= LAST_TIME:
            raise Refused(20)
        self.clock = t

    def halted(self, t):
        return halt_end(self.marks, self.rule.levels, t) is not None

    def mark(self, t, kind, q):
        self.move(kind != "clear" or q == 0, t)
        if self.halted(t):
            raise Refused(23)
        _, _, low_edge, high_edge = self.bounds(t)
        if kind != "clear" and q != (high_edge if kind == "bid" else low_edge):
            raise Refused(26)
        self.marks.append((t, kind))
        return "accepted"

    def tick(self, t):
        self.move(True, t)
        return "ticked"

    def look(self, t):
        self.move(True, t)
        return f"look {self.view()}"

    def view(self):
        t, n = self.clock, self.rule.levels
        low, high, low_edge, high_edge = map(show_price, self.bounds(t))
        shown = [level(self.marks, "lower", n, t), level(self.marks, "upper", n, t), standing(self.marks, n, t),
                 watch_end(self.marks, "lower", n, t), watch_end(self.marks, "upper", n, t), halt_end(self.marks, n, t)]
        a, b, mark, lower, upper, halt = ("none" if x is None else x for x in shown)
        return (f"limits {low} {high} edges {low_edge} {high_edge} levels {a} {b} "
                f"mark {mark} watches {lower} {upper} halt {halt}")

    def future(self, t, code, q, months):
        self.move(is_code(code) and 0 < q <= HIGHEST and q % TICK == 0, t)
        at = entry(months, code)
        if at is None:
            raise Refused(22)
        if self.halted(t):
            raise Refused(23)
        low, high, _, _ = self.bounds(t)
        if not months[at][1] and not low <= q <= high:
            raise Refused(24)
        return "admitted"

    def option(self, t, code, strike, right, q, series, months):
        formed = is_code(code) and 1 <= strike <= MOST_STRIKE and 0 < q <= HIGHEST and q % OPTION_TICK == 0
        self.move(formed, t)
        at = entry(series, (code, strike, right))
        if at is None:
            raise Refused(22)
        if entry(months, UNDERLYINGS[code[0]] + code[1:]) is None:
            raise Refused(29)
        if self.halted(t):
            raise Refused(23)
        if self.stopped(t, series[at][1]):
            raise Refused(25)
        return "admitted"

    def stopped(self, t, last):
        """Whether the standing mark stands against an option, which may be on its last day."""
        n, mark = self.rule.levels, standing(self.marks, self.rule.levels, t)
        side = {"offered": "lower", "bid": "upper"}.get(mark)
        return mark is not None and not (last and level(self.marks, side, n, t) == n)

    def ask(self, call):
        verb, *words = call
        try:
            return getattr(self, verb)(*words)
        except Refused as refusal:
            return str(refusal)


def played(rule, price, calls):
    day = Day(rule, price)
    for call in calls:
        day.ask(call)
    return day


# --- script --------------------------------------------------------------------------------------

FORMS = {
    "tape": "tape HEX",
    "tape-file": "tape-file PATH",
    "records": "records",
    "start": "start CAPACITY",
    "write": "write trade TIME PRICE VOLUME SYMBOL or write quote TIME BID OFFER SYMBOL",
    "written": "written",
    "window": "window CLOSE W",
    "reference": "reference SYMBOL CLOSE K",
    "rule": "rule daily, rule quarterly C1 .. C20 or rule monthly SETTLEMENT",
    "offset": "offset LEVEL PRICE",
    "places": "places M S",
    "month": "month CODE [last]",
    "drop-month": "drop-month CODE",
    "series": "series CODE STRIKE call|put [last]",
    "drop-series": "drop-series CODE STRIKE call|put",
    "open": "open PRICE or open reference",
    "mark": "mark T bid|offered|clear PRICE",
    "tick": "tick T",
    "look": "look T",
    "replay": "replay T",
    "future": "future T CODE PRICE",
    "option": "option T CODE STRIKE call|put PRICE",
    "keep": "keep first|second",
    "pair": "pair SYMBOL CLOSE K CALL",
}

ASKING = ("mark", "tick", "look", "future", "option")


NO_TAPE = "error: expected a tape before this call"
NO_RULE = "error: expected a rule before this call"
NO_DAY = "error: expected a day before this call"


def show_reference(found):
    return f"reference {show_price(found[0])} tier {found[1]} windows {found[2]}"


class Session:
    def __init__(self):
        self.tape = None
        self.writer = None
        self.reference = None
        self.rule = None
        self.months, self.series = Roster(MOST_PLACES), Roster(MOST_PLACES)
        self.day = self.opening = None
        self.calls = []
        self.kept = {}

    def take(self, tape):
        self.tape = tape
        return [f"tape {len(tape)} bytes {len(parse(tape))} records"]

    def call(self, verb, words):
        if verb == "tape":
            (word,) = words
            return self.take(hexes(word))
        if verb == "tape-file":
            (path,) = words
            try:
                with open(path, "rb") as f:
                    tape = f.read()
            except OSError:
                return ["error: expected a file that can be read"]
            return self.take(tape)
        if verb == "records":
            () = words
            if self.tape is None:
                return [NO_TAPE]
            rows = [self.row(*r) for r in parse(self.tape)]
            return rows or ["no records"]
        if verb == "start":
            (word,) = words
            capacity = number(word)
            self.writer = None
            self.writer = Tape(capacity)
            return ["started 1 bytes"]
        if verb == "write":
            kind, time, a, b, sym = words
            if kind not in ("trade", "quote"):
                raise ScriptError
            record = (kind, number(time), price(a), number(b) if kind == "trade" else price(b), symbol(sym))
            if self.writer is None:
                return ["error: expected a started tape before this call"]
            self.writer.append(*record)
            return [f"written {len(self.writer.bytes)} bytes"]
        if verb == "written":
            () = words
            if self.writer is None:
                return ["error: expected a started tape before this call"]
            self.tape = self.writer.bytes
            return [f"bytes {show_hex(self.tape)}"]
        if verb == "window":
            close, w = map(number, words)
            if self.tape is None:
                return [NO_TAPE]
            return ["window at {} length {}".format(*cut(self.tape, close, w))]
        if verb == "reference":
            sym, close, k = words
            request = symbol(sym), number(close), number(k)
            if self.tape is None:
                return [NO_TAPE]
            self.reference = None
            self.reference = found = reference(self.tape, *request)
            return [show_reference(found)]
        if verb == "rule":
            kind, *figures = words
            figures = [price(w) for w in figures]
            if kind not in ("daily", "quarterly", "monthly") or len(figures) != {"daily": 0, "monthly": 1}.get(kind, len(figures)):
                raise ScriptError
            self.rule = None
            self.rule = daily() if kind == "daily" else quarterly(figures) if kind == "quarterly" else monthly(*figures)
            return [f"rule unit {show_price(self.rule.unit)} levels {self.rule.levels}"]
        if verb == "offset":
            level, p = words
            level, p = number(level), price(p)
            if self.rule is None:
                return [NO_RULE]
            offset = self.rule.offset(level, p)
            return ["offset none" if offset is None else f"offset {show_price(offset)}"]
        if verb == "places":
            months, series = map(number, words)
            self.months, self.series = Roster(months), Roster(series)
            return [f"places {self.months.room} {self.series.room}"]
        if verb in ("month", "drop-month"):
            code, *last = words
            if last not in ([], ["last"]) or (last and verb == "drop-month"):
                raise ScriptError
            key = month_code(code)
            return [self.months.list(key, bool(last)) if verb == "month" else self.months.delist(key)]
        if verb in ("series", "drop-series"):
            code, strike, right, *last = words
            strike = number(strike)
            if right not in ("call", "put") or last not in ([], ["last"]) or (last and verb == "drop-series"):
                raise ScriptError
            key = series_key(code, strike, right)
            return [self.series.list(key, bool(last)) if verb == "series" else self.series.delist(key)]
        if verb == "open":
            (word,) = words
            stated = None if word == "reference" else price(word)
            if self.rule is None:
                return [NO_RULE]
            if stated is None and self.reference is None:
                return ["error: expected a reference before this call"]
            self.day = None
            self.opening = self.rule, self.reference[0] if stated is None else stated
            self.day, self.calls = Day(*self.opening), []
            return [f"opened at {show_price(self.day.p)}"]
        if verb == "replay":
            (t,) = map(number, words)
            if self.day is None:
                return [NO_DAY]
            return [played(*self.opening, self.calls).look(t)]
        if verb in ASKING:
            call = self.asked(verb, words)
            if self.day is None:
                return [NO_DAY]
            self.calls.append(call)
            return [self.day.ask(call)]
        if verb == "keep":
            (seat,) = words
            if seat not in ("first", "second"):
                raise ScriptError
            if self.tape is None:
                return [NO_TAPE]
            if self.day is None:
                return [NO_DAY]
            self.kept[seat] = self.tape, list(self.calls)
            return [f"kept {seat} {len(self.calls)} calls"]
        if verb == "pair":
            sym, close, k, further, *words = words
            request = symbol(sym), number(close), number(k)
            further = self.asked(further, words)
            if self.rule is None:
                return [NO_RULE]
            if len(self.kept) < 2:
                return ["error: expected two kept days before this call"]
            return self.pair(request, further)
        raise AssertionError(verb)

    def asked(self, verb, words):
        """A call on a day, with the listings that it is shown."""
        if verb not in ASKING:
            raise ScriptError
        t, *words = words
        t = number(t)
        if verb == "mark":
            kind, q = words
            if kind not in ("bid", "offered", "clear"):
                raise ScriptError
            return verb, t, kind, price(q)
        if verb == "future":
            code, q = words
            return verb, t, code, price(q), self.months.entries
        if verb == "option":
            code, strike, right, q = words
            if right not in ("call", "put"):
                raise ScriptError
            return verb, t, code, number(strike), right, price(q), self.series.entries, self.months.entries
        if words:
            raise ScriptError
        return verb, t

    def pair(self, request, further):
        lines, answers = [], []
        for seat in ("first", "second"):
            tape, calls = self.kept[seat]
            try:
                found = reference(tape, *request)
                lines.append(f"{seat} {show_reference(found)}")
                day = played(self.rule, found[0], calls)
            except Refused as refusal:
                lines.append(f"{seat} {refusal}")
                continue
            lines += [f"{seat} opened at {show_price(day.p)}", f"{seat} clock {day.clock} {day.view()}"]
            answers.append(day.ask(further))
            lines.append(f"{seat} answer {answers[-1]}")
        if len(answers) == 2:
            lines.append("answers same" if answers[0] == answers[1] else "answers differ")
        return lines

    @staticmethod
    def row(place, kind, time, a, b, sym):
        second = str(b) if kind == "trade" else show_price(b)
        return f"record at {place} {kind} {time} {show_price(a)} {second} {show_symbol(sym)}"

    def line(self, text):
        words = text.split()
        if not words or words[0].startswith("#"):
            return []
        verb, words = words[0], words[1:]
        if verb not in FORMS:
            return ["error: expected a call that limitday --help lists"]
        try:
            return self.call(verb, words)
        except (ScriptError, ValueError):
            return [f"error: expected {FORMS[verb]}"]
        except Refused as refusal:
            return [str(refusal)]


def main():
    session = Session()
    for n, raw in enumerate(sys.stdin.buffer.read().split(b"\n"), 1):
        try:
            text = raw.decode("utf-8")
        except UnicodeDecodeError:
            print(f"{n}: error: expected text in UTF-8")
            continue
        for answer in session.line(text):
            print(f"{n}: {answer}")


main()
