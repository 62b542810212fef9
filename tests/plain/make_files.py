#!/usr/bin/env python3
"""Writes random and hostile case files: make_files.py FOLDER N [SEED]

The same N and SEED give the same files. Most are small problems (2 to 6 claims, small amounts, 0 to 8 letters), for these
show a difference of single units best; the others aim at limits, refusals, odd bytes and the size of the file.
"""
import os
import random
import sys

RULES = ["priority", "equal", "proportion", "talmud"]
LIMIT = 2_000_000_000
FILE_LIMIT = 32_768


def letters(rng, low, high):
    return "".join(rng.choice("dtmsr") for _ in range(rng.randint(low, high))) or "-"


def compare(rng, high=20):
    left = letters(rng, 0, high)
    if rng.random() < 0.4:
        # A string that is likely alike: pairs are slipped in that do nothing, or laws are used.
        right = "" if left == "-" else left
        for _ in range(rng.randint(1, 4)):
            at = rng.randint(0, len(right))
            swap = rng.choice([("", "dd"), ("t", "tt"), ("m", "mm"), ("tm", "mt"), ("mt", "tm"), ("td", "dm"),
                               ("md", "dt"), ("sd", "dr"), ("rd", "ds"), ("dr", "sd"), ("s", "rs"), ("r", "sr"),
                               ("tsd", "dmr"), ("ts", "tst"), ("ms", "msm"), ("ts", "sts")])
            if swap[0] in right[at:]:
                right = right[:at] + right[at:].replace(swap[0], swap[1], 1)
        right = right[:30] or "-"
    else:
        right = letters(rng, 0, high)
    return f"compare,{left},{right}"


class Sketch:
    """Lines of a history, with a rough idea of what the case holds, so that most funds and numbers make sense."""

    def __init__(self, rng):
        self.rng, self.lines, self.claims = rng, [], {}

    def add(self, line):
        self.lines.append(line)

    def total(self):
        return sum(self.claims.values())

    def claim(self, amount, klass, number=None):
        if number is None:
            number = self.rng.randint(1, 99)
            while number in self.claims:
                number = self.rng.randint(1, 65534)
        self.add(f"claim,{number},{amount},{klass}")
        if number not in self.claims and len(self.claims) < 64 and self.total() + amount <= LIMIT:
            self.claims[number] = amount

    def amend(self, amount):
        if self.claims:
            number = self.rng.choice(list(self.claims))
            self.add(f"amend,{number},{amount}")
            if self.total() - self.claims[number] + amount <= LIMIT:
                self.claims[number] = amount

    def fund(self):
        total, rng = self.total(), self.rng
        kind = rng.random()
        if kind < 0.75:
            amount = rng.randint(0, total)
        elif kind < 0.95:
            amount = rng.choice([0, min(1, total), total, max(total - 1, 0), total // 2, (total + 1) // 2])
        else:
            amount = total + rng.choice([1, 1, 2, 100])
        self.add(f"fund,{amount}")

    def divide(self):
        self.add("divide," + self.rng.choice(RULES))

    def pay(self):
        rng = self.rng
        kind = rng.random()
        if kind < 0.6:
            self.add("draw")
            self.add("sign")
        elif kind < 0.8:
            self.add("draw")
            self.add("return")
            if rng.random() < 0.5:
                self.add("draw")
                self.add("sign")
        else:
            for _ in range(rng.randint(1, 4)):
                self.add(rng.choice(["draw", "sign", "return", "draw", "fund,1", "press,-", "divide,equal"]))


def small(rng):
    s = Sketch(rng)
    top = rng.choice([3, 6, 10, 20, 60, 300])
    classes = rng.choice([1, 2, 2, 3, 3, 8])
    for _ in range(rng.randint(2, 6)):
        s.claim(rng.randint(0, top), rng.randint(1, classes))
    for _ in range(rng.randint(1, 4)):
        if rng.random() < 0.8:
            s.add("press," + letters(rng, 0, 8))
        for _ in range(rng.randint(1, 4)):
            s.fund()
            for rule in rng.sample(RULES, rng.randint(1, 4)):
                s.add("divide," + rule)
        if rng.random() < 0.4:
            s.pay()
        if rng.random() < 0.3:
            s.amend(rng.randint(0, top))
        if rng.random() < 0.5:
            s.add(compare(rng))
    return s.lines


def history(rng):
    s = Sketch(rng)
    top = rng.choice([10, 100, 1000, 10**6])
    for _ in range(rng.randint(5, 60)):
        kind = rng.random()
        if kind < 0.25:
            s.claim(rng.randint(0, top), rng.randint(1, 8))
        elif kind < 0.33:
            s.amend(rng.randint(0, top))
        elif kind < 0.48:
            s.fund()
        elif kind < 0.58:
            s.add("press," + letters(rng, 0, 8))
        elif kind < 0.75:
            s.divide()
        elif kind < 0.9:
            s.pay()
        elif kind < 0.95:
            s.add(compare(rng))
        elif kind < 0.97:
            s.add("# " + letters(rng, 0, 60))
        else:
            s.add(refusal(rng))
    if rng.random() < 0.4:
        s.fund()
        s.divide()
        s.add("draw")
    return s.lines


def wide(rng):
    s = Sketch(rng)
    top = rng.choice([1, 5, 50, 10**4, LIMIT // 66])
    count = rng.choice([rng.randint(7, 66), 63, 64, 65, 66])
    numbers = rng.sample(range(1, 65535), count)
    for number in numbers:
        s.claim(rng.randint(0, top), rng.randint(1, 8), number)
    for _ in range(rng.randint(1, 5)):
        s.add("press," + letters(rng, 0, 6))
        s.fund()
        s.divide()
        if rng.random() < 0.6:
            s.pay()
        if rng.random() < 0.3:
            s.amend(rng.randint(0, top))
    if rng.random() < 0.2:
        s.add("draw")
        s.claim(1, 1)
    return s.lines


def limits(rng):
    s = Sketch(rng)
    near = lambda: max(0, rng.choice([LIMIT, LIMIT // 2, LIMIT // 3, LIMIT - s.total(), 2**31, 2**32, 2**32 - LIMIT,
                                      2**32 - s.total(), 2**16, 1]) + rng.randint(-2, 2))
    count = rng.randint(1, 9)
    even = rng.random() < 0.4
    for i in range(count):
        if even:
            s.claim(LIMIT // count + rng.randint(-1, 1), rng.randint(1, 3))
        else:
            s.claim(near(), rng.randint(1, 3))
        if rng.random() < 0.3:
            s.claim(max(0, LIMIT - s.total() + rng.randint(-1, 1)), rng.randint(1, 8))
    for _ in range(rng.randint(2, 6)):
        if rng.random() < 0.5:
            s.add("press," + letters(rng, 0, 6))
        if rng.random() < 0.3:
            s.amend(near())
        if rng.random() < 0.2:
            s.add(f"amend,{rng.choice([0, 65535, 65534, 7])},{near()}")
        if rng.random() < 0.3:
            s.add(f"fund,{near()}")
        s.fund()
        s.divide()
        if rng.random() < 0.5:
            s.pay()
    return s.lines


def refusal(rng):
    """A line that is refused, or nearly so."""
    big = lambda: rng.choice([LIMIT + 1, 2**31, 2**32 - 1, 2**32 - LIMIT, LIMIT])
    return rng.choice([
        lambda: f"claim,{rng.randint(1, 9)},{big()},{rng.randint(0, 9)}",
        lambda: f"claim,{rng.randint(0, 5)},{rng.randint(0, 9)},{rng.choice([0, 9, 10, 255, 1])}",
        lambda: f"claim,{rng.choice([0, 65535])},{rng.choice([1, big()])},{rng.choice([0, 1, 9])}",
        lambda: f"claim,{rng.randint(1, 4)},1,1",
        lambda: f"amend,{rng.choice([0, 65535, 1, 2, 3, 777])},{rng.choice([1, big()])}",
        lambda: f"fund,{big()}",
        lambda: "press," + rng.choice(["", "q", "-t", "t-", "--", "T", "td ", " td", "tdq", "D", "t\r", "\0", "d" * 74]),
        lambda: "compare," + rng.choice([",", "t,", ",t", "q,t", "t,q", "--,-", "-,-", "-,--", "t", "t,t,t", "T,t"]),
        lambda: "divide," + rng.choice(["", "Equal", "equal ", "talmud\r", "equals", "equa", "priority,", "0", "-"]),
        lambda: rng.choice(["draw", "sign", "return", "draw,", "sign,", "return,", ",draw", "draw ", " draw", "Draw"]),
        lambda: rng.choice(["", ",", ",,,", " ", "claim", "fund", "press", "divide", "compare", "tally", "tally,1",
                            "claim,1,1", "claim,1,1,1,1", "claim,1,1,1,", "amend,1", "amend,1,1,1", "fund,1,1",
                            "press,t,t", "divide,equal,", " #", "claims,1,1,1", "open,1"]),
        lambda: malformed(rng),
    ])()


def malformed(rng):
    number = rng.choice(["", "00", "01", "007", "+1", "-1", "-0", " 1", "1 ", "1.0", "1e3", "0x1", "\t1", "1\r", "a", "-",
                         "1_000", "65535", "65536", "255", "256", "257", "4294967295", "4294967296", "4294967297",
                         "18446744073709551615", "18446744073709551616", "18446744073709551617", "99999999999",
                         "340282366920938463463374607431768211457", "9" * rng.randint(5, 60), "0" * rng.randint(1, 20),
                         "1" + "0" * rng.randint(1, 30), "1\0", "\0", "10000000000", "42949672950"])
    good = str(rng.randint(1, 8))
    return rng.choice([f"claim,{number},{good},{good}", f"claim,{good},{number},{good}", f"claim,{good},{good},{number}",
                       f"amend,{number},{good}", f"amend,{good},{number}", f"fund,{number}",
                       f"claim,{number},{number},{number}"])


def refusals(rng):
    s = Sketch(rng)
    for number in rng.sample(range(1, 6), rng.randint(0, 4)):
        s.claim(rng.randint(0, 20), rng.randint(1, 8), number)
    if rng.random() < 0.3:
        s.claim(LIMIT - s.total(), 1, 77)
    for _ in range(rng.randint(1, 4)):
        if rng.random() < 0.6:
            s.fund()
            s.divide()
            s.add("draw")
        for _ in range(rng.randint(2, 20)):
            s.add(refusal(rng))
        s.add(rng.choice(["sign", "return", "draw", "divide,talmud"]))
    return s.lines


def malformeds(rng):
    lines = ["claim,1,5,1", "claim,2,7,2", "fund,6"]
    for _ in range(rng.randint(3, 25)):
        lines.append(malformed(rng))
        if rng.random() < 0.2:
            lines.append("divide," + rng.choice(RULES))
    return lines


def lengths(rng):
    """Lines of 79 to 82 bytes: remarks, letters, numbers, words and odd bytes."""
    lines = ["claim,1,9,1", "claim,2,4,2", "fund,7"]
    for _ in range(rng.randint(3, 12)):
        size = rng.choice([78, 79, 80, 81, 82, 83, 160, 300])
        head = rng.choice(["#", "# ", "press,", "compare,t,", "compare,", "fund,", "claim,1,1,", "draw", "", "divide,", ","])
        fill = rng.choice("dtmsr") if head[:5] in ("press", "compa") else rng.choice("0 1x,#\r")
        lines.append((head + fill * size)[:size])
        if rng.random() < 0.2:
            lines.append("press," + "".join(rng.choice("dtmsr") for _ in range(rng.choice([73, 74, 75, 76]))))
        if rng.random() < 0.4:
            lines.append("divide," + rng.choice(RULES))
    return lines


def deep(rng):
    """Hundreds or thousands of letters on one case."""
    s = Sketch(rng)
    for _ in range(rng.randint(2, 12)):
        s.claim(rng.randint(0, 50), rng.randint(1, 4))
    for _ in range(rng.choice([2, 5, 20, 60, 150])):
        s.add("press," + letters(rng, 1, 74))
        if rng.random() < 0.3:
            s.fund()
            s.divide()
    s.fund()
    s.divide()
    return s.lines


def broken(rng):
    """A decent file with single bytes changed, put in or taken out."""
    data = bytearray("\n".join(rng.choice([small, history, refusals])(rng)).encode("latin-1") + b"\n")
    for _ in range(rng.choice([1, 1, 2, 5, 20])):
        at = rng.randrange(len(data)) if data else 0
        byte = rng.choice([0, 10, 10, 13, 32, 35, 43, 44, 44, 45, 48, 49, 57, 127, 128, 255, rng.randrange(256)])
        kind = rng.random()
        if kind < 0.4 and data:
            data[at] = byte
        elif kind < 0.7:
            data.insert(at, byte)
        elif data:
            del data[at]
    return bytes(data)


def noise(rng):
    kind = rng.randrange(5)
    size = rng.choice([1, 2, 10, 100, 1000, 5000])
    if kind == 0:
        return bytes(rng.randrange(256) for _ in range(size))
    if kind == 1:
        return bytes(rng.choice(b"\n,#-0129dtmsr claimfund\r\0") for _ in range(size))
    if kind == 2:
        words = [b"claim", b"amend", b"fund", b"press", b"divide", b"draw", b"sign", b"return", b"compare", b"equal",
                 b"talmud", b"1", b"2", b"0", b"t", b"-", b"ds", b",", b",", b",", b"\n", b"\n", b"#"]
        return b"".join(rng.choice(words) for _ in range(min(size, 1000)))
    if kind == 3:
        return "\r\n".join(small(rng)).encode("latin-1") + rng.choice([b"", b"\r\n", b"\n", b"\r"])
    return bytes(rng.randrange(128, 256) for _ in range(size)) + b"\n" + "\n".join(small(rng)).encode("latin-1")


def filled(rng, size):
    """A file of just so many bytes that does real work; the last line is a remark or a broken line of any length."""
    parts, have = [], 0
    while True:
        chunk = ("\n".join(rng.choice([small, history, refusals, wide])(rng)) + "\n").encode("latin-1")
        if have + len(chunk) > size - 200:
            break
        parts.append(chunk)
        have += len(chunk)
    parts.append(b"fund,0\ndivide,equal\ndraw\n")
    have += len(parts[-1])
    while size - have > 70:
        parts.append(b"#" + b"x" * 40 + b"\n")
        have += 42
    parts.append(b"#" + b"y" * (size - have - 1))
    data = b"".join(parts)
    if rng.random() < 0.5:
        data = data[:-1] + b"\n"
    assert len(data) == size
    return data


def edge(rng, turn):
    sheet = b"claim,1,5,1\nclaim,2,5,1\nfund,5\ndivide,equal\ndraw"
    n = FILE_LIMIT
    edges = [
        lambda: b"", lambda: b"\n", lambda: b"\n\n", lambda: b"\n" * rng.randint(3, 300), lambda: b",", lambda: b",\n,,\n,,,\n",
        lambda: b"," * rng.choice([79, 80, 81]), lambda: b"#", lambda: b"#\n", lambda: b"\r\n", lambda: b"\0", lambda: b"\xff\n",
        lambda: b"draw", lambda: b"draw\n", lambda: b"divide,equal", lambda: b"divide,talmud\ndraw\nsign\ndraw\n",
        lambda: sheet, lambda: sheet + b"\n", lambda: sheet + b"\nsign", lambda: sheet + b"\nreturn\ndraw\n",
        lambda: sheet + b"\nsign\nsign\nreturn\ndraw\n", lambda: sheet + b"\r\n", lambda: sheet + b"\n#",
        lambda: b"\n" * n, lambda: b"\n" * (n + 1), lambda: b"," * n, lambda: b"#" * n, lambda: b"#" * (n + 1),
        lambda: bytes(n), lambda: bytes(n + 1), lambda: b"draw\n" * (n // 5), lambda: b"#\n" * (n // 2),
        lambda: filled(rng, n), lambda: filled(rng, n), lambda: filled(rng, n - 1), lambda: filled(rng, n + 1),
        lambda: filled(rng, n + 1000), lambda: bytes(rng.randrange(256) for _ in range(n)),
        lambda: b"divide,priority\n" * (n // 16),
        lambda: b"#" + b"x" * 79 + b"\n#" + b"x" * 80 + b"\n" + b"x" * 80 + b"\n" + b"x" * 81,
        lambda: "\n".join(f"claim,{i},{rng.randint(0, 9)},{i % 8 + 1}" for i in range(1, 67)).encode()
        + b"\nclaim,1,1,1\nclaim,0,1,1\nclaim,99,1,9\nclaim,99,2000000000,1\nfund,100\npress,ts\ndivide,talmud\ndraw\nclaim,99,1,1\nsign\n",
    ]
    return edges[turn % len(edges)]()


KINDS = [(small, 58), (history, 10), (wide, 5), (limits, 7), (refusals, 6), (malformeds, 3), (lengths, 2), (deep, 1),
         (broken, 3), (noise, 2), (edge, 3)]


def main():
    if len(sys.argv) not in (3, 4):
        sys.exit(__doc__)
    folder, count = sys.argv[1], int(sys.argv[2])
    rng = random.Random(int(sys.argv[3]) if len(sys.argv) == 4 else 1)
    os.makedirs(folder, exist_ok=True)
    turn = 0
    for i in range(count):
        kind = rng.choices([k for k, _ in KINDS], [w for _, w in KINDS])[0]
        if kind is edge:
            data = edge(rng, turn)
            turn += 1
        else:
            data = kind(rng)
        if isinstance(data, list):
            text = "\n".join(data) + ("" if rng.random() < 0.1 else "\n")
            if rng.random() < 0.01:
                text = text.replace("\n", "\r\n")
            data = text.encode("latin-1")
        with open(os.path.join(folder, f"{i:05d}-{kind.__name__}.case"), "wb") as out:
            out.write(data)


if __name__ == "__main__":
    main()
