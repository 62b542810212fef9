#!/usr/bin/env python3
"""A second, plain way to the awards under letters: no forms and no layers, each letter applied to a function in turn.

Prints the table that the program normal_form_tests prints."""

LETTERS = ["", "d", "t", "m", "s", "r", "td", "dm", "ts", "st", "sm", "mr", "rt", "tmst", "srd", "dtrm", "smdst", "rdtsmdrtm"]
CLAIMS = [7, 30, 0, 11, 25]
CLASSES = [2, 1, 8, 2, 1]
ESTATES = [0, 9, 36, 60, 73]


def units(base, marked, missing):
    awards = list(base)
    for i, m in enumerate(marked):
        if m and missing > 0:
            awards[i] += 1
            missing -= 1
    return awards


def priority(claims, estate):
    awards = []
    for c in claims:
        awards.append(min(c, estate))
        estate -= awards[-1]
    return awards


def equal(claims, estate):
    level = max([k for k in range(max(claims, default=0) + 1) if sum(min(c, k) for c in claims) <= estate], default=0)
    base = [min(c, level) for c in claims]
    return units(base, [c > level for c in claims], estate - sum(base))


def proportion(claims, estate):
    total = sum(claims)
    if total == 0:
        return [0] * len(claims)
    base = [c * estate // total for c in claims]
    return units(base, [c * estate % total > 0 for c in claims], estate - sum(base))


def talmud(claims, estate):
    halves = [c // 2 for c in claims]
    if estate <= sum(halves):
        return equal(halves, estate)
    if estate >= sum(halves) + sum(c % 2 for c in claims):
        lost = equal(halves, sum(claims) - estate)
        return [c - x for c, x in zip(claims, lost)]
    return units(halves, [c % 2 == 1 for c in claims], estate - sum(halves))


def dual(rule):
    return lambda claims, estate: [c - a for c, a in zip(claims, rule(claims, sum(claims) - estate))]


def truncation(rule):
    return lambda claims, estate: rule([min(c, estate) for c in claims], estate)


def minimal_rights(rule):
    def applied(claims, estate):
        loss = sum(claims) - estate
        rights = [max(c - loss, 0) for c in claims]
        rest = rule([c - r for c, r in zip(claims, rights)], estate - sum(rights))
        return [r + a for r, a in zip(rights, rest)]
    return applied


def served(order):
    def layer(rule):
        def applied(claims, estate):
            awards = [0] * len(claims)
            for k in order:
                mine = [c if own == k else 0 for c, own in zip(claims, CLASSES)]
                share = min(sum(mine), estate)
                awards = [a + b for a, b in zip(awards, rule(mine, share))]
                estate -= share
            return awards
        return applied
    return layer


OPERATORS = {"d": dual, "t": truncation, "m": minimal_rights, "s": served(range(1, 9)), "r": served(range(8, 0, -1))}
RULES = [("priority", priority), ("equal", equal), ("proportion", proportion), ("talmud", talmud)]

for letters in LETTERS:
    for estate in ESTATES:
        for name, rule in RULES:
            for letter in letters:
                rule = OPERATORS[letter](rule)
            print(f"{name},{letters},{estate}: " + " ".join(map(str, rule(CLAIMS, estate))))
