#!/usr/bin/env python3
"""Prints the lines of docs/FIGURES.md, by docs/RULES.md, sharing nothing with the engine's sources."""

import sys
from fractions import Fraction

MASK = 2**64 - 1


class Generator:
    """The draws of one case."""

    def __init__(self, case):
        self.state = case

    def below(self, n):
        self.state = (self.state * 6364136223846793005 + 1442695040888963407) & MASK
        upper = self.state >> 32
        return (upper * upper >> 16) % n

    def figure(self, most):
        edge = self.below(8)
        inside = self.below(most + 1)
        return {0: 0, 1: most}.get(edge, inside)

    def most(self):
        return [0, 5, 5, 1_000, 1_000, 2_000_000, 2_000_000, 2_000_000][self.below(8)]

    def signed(self, most):
        figure = self.figure(most)
        return -figure if self.below(2) else figure


def listed(items):
    return "".join(f" {item}" for item in items)


# Division rules


def pro_rata(whole, claims):
    if sum(claims) == 0:
        claims = [1] * len(claims)
    total = sum(claims)
    parts = [int(Fraction(whole * claim, total)) for claim in claims]
    place = 0
    while sum(parts) < whole:
        parts[place] += 1
        place += 1
    return parts


def ranked(whole, claims):
    parts = []
    remaining = whole
    for claim in claims[:-1]:
        part = claim if claim < remaining else remaining
        parts.append(part)
        remaining -= part
    return parts + [remaining]


RULES = [("pro rata", pro_rata), ("ranked", ranked)]


def divide(rule, whole, claims, buffer):
    """The buffer after the call, and whether it was granted."""
    refused = (
        len(claims) == 0
        or len(claims) > 256
        or whole > 128_000_000
        or sum(claims) > 6_144_000_000
        or len(buffer) != len(claims)
    )
    return (buffer, False) if refused else (rule(whole, claims), True)


def divide_any_sign(rule, whole, claims, buffer):
    if whole >= 0:
        return divide(rule, whole, claims, buffer)
    after, granted = divide(rule, -whole, claims, buffer)
    return ([-part for part in after], True) if granted else (buffer, False)


# Divisions and signed divisions


def draw_magnitude(gen, kind):
    if kind == 0:
        return 128_000_000
    if kind == 1:
        return 128_000_001
    if kind <= 7:
        return gen.figure(20)
    if kind <= 11:
        return gen.figure(1_000)
    return gen.figure(128_000_000)


def draw_claim(gen, kind, place):
    if kind in (0, 1):
        return 0
    if kind in (2, 3):
        return (6_144_000_000 if kind == 2 else 6_144_000_001) if place == 0 else 0
    if kind == 4:
        return gen.below(2) * 2**63
    for last, most in ((7, 5), (10, 100), (13, 2_000_000), (15, 1_000_000_000)):
        if kind <= last:
            return gen.figure(most)
    raise AssertionError(kind)


def division_case(case, signed):
    gen = Generator(case)
    count = gen.below(13)
    name, rule = RULES[gen.below(2)]
    claim_kind = gen.below(16)
    room_kind = gen.below(20)
    room = {0: count + 1, 1: max(count - 1, 0)}.get(room_kind, count)
    whole_kind = gen.below(16)
    if whole_kind == 2:
        whole = -(2**63) if signed else 2**64 - 1
    else:
        whole = draw_magnitude(gen, whole_kind)
        if signed and gen.below(4) != 0:
            whole = -whole
    claims = [draw_claim(gen, claim_kind, place) for place in range(count)]
    after, granted = divide_any_sign(rule, whole, claims, [9] * room)
    outcome = "parts" if granted else "refused 15, buffer"
    return f"{case} divide: {name}, whole {whole}, claims{listed(claims)}, room {room}: {outcome}{listed(after)}"


# Trades


class Trades:
    """Lines by their keys (contract, direction, partner), in the order of filing."""

    def __init__(self, gen):
        count = min(gen.below(16), 12)
        first = gen.below(30)
        stride = [1, 1, 1, 7, 11, 17, 23, 29][gen.below(8)]
        most = gen.most()
        self.filed = {}
        for i in range(count):
            planned = gen.figure(most)
            agreed = gen.figure(most)
            key = self.key((first + i * stride) % 30)
            assert key not in self.filed
            self.filed[key] = (planned, agreed)

    @staticmethod
    def key(k):
        if k < 12:
            a, b = [(11, 12), (12, 13), (13, 11)][k // 4]
            return [
                (a, "sale", ("contract", b)),
                (b, "purchase", ("contract", a)),
                (a, "purchase", ("contract", b)),
                (b, "sale", ("contract", a)),
            ][k % 4]
        j = k - 12
        partner = [("exchange", 0), ("outside", 12), ("contract", 14)][j % 6 // 2]
        return (11 + j // 6, "purchase" if j % 2 else "sale", partner)

    def corrected(self, key):
        contract, direction, (kind, number) = key
        planned, agreed = self.filed[key]
        if kind != "contract":
            return agreed
        turned = "purchase" if direction == "sale" else "sale"
        opposite = (number, turned, ("contract", contract))
        other, _ = self.filed.get(opposite, (0, 0))
        return min(planned, other)

    def traded(self, contract, direction):
        return sum(self.corrected(key) for key in self.filed if key[0] == contract and key[1] == direction)

    def own(self, contract):
        return self.traded(contract, "sale") - self.traded(contract, "purchase")

    def text(self):
        pieces = []
        for key, (planned, agreed) in self.filed.items():
            contract, direction, (kind, number) = key
            verb = "sells to" if direction == "sale" else "buys from"
            partner = "exchange" if kind == "exchange" else f"{kind} {number}"
            pieces.append(f"; {contract} {verb} {partner}, planned {planned}, agreed {agreed}: {self.corrected(key)}")
        return "".join(pieces)


def trades_case(case):
    trades = Trades(Generator(case))
    balances = "".join(
        f"; contract {c} sold {trades.traded(c, 'sale')} bought {trades.traded(c, 'purchase')}" for c in (11, 12, 13)
    )
    return f"{case} trades{trades.text()}{balances}"


# Plans


def among(rule, whole, members):
    """The parts of a whole among members, a list of (name, claim), by name."""
    if not members:
        return {}
    claims = [claim for _, claim in members]
    after, granted = divide_any_sign(rule, whole, claims, [0] * len(claims))
    assert granted
    return {name: part for (name, _), part in zip(members, after)}


def plans_case(case):
    gen = Generator(case)
    first_name, first = RULES[gen.below(2)]
    second_name, second = RULES[gen.below(2)]
    trades = Trades(gen)
    second_is_negawatt = gen.below(2) == 1
    f = gen.below(2)
    most = gen.most()
    owner = {}
    filed = {}
    for place in range(5):
        group = 21 + place
        o = gen.below(2)
        if place % 2 == f:
            owner[group] = 11 if second_is_negawatt else 11 + o
        else:
            owner[group] = 12 + o if second_is_negawatt else 13
            filed[group] = gen.figure(most)
    producing = [group for group in owner if group not in filed]
    assert len(producing) == 3 - f
    shares = []
    for place in range(3 + gen.below(8)):
        any_group = producing[gen.below(len(producing))]
        planned = gen.figure(most)
        group = producing[place] if place < len(producing) else any_group
        shares.append((group, 31 + place, planned))

    def claim(group):
        if group in filed:
            return filed[group]
        return sum(planned for of, _, planned in shares if of == group)

    part = {}
    for contract in (11, 12, 13):
        mine = [(group, claim(group)) for group in owner if owner[group] == contract]
        part.update(among(first, trades.own(contract), mine))
    corrected = {}
    for group in producing:
        mine = [(plant, planned) for of, plant, planned in shares if of == group]
        corrected.update(among(second, part[group], mine))

    pieces = [f"{case} plans: {first_name}, then {second_name}", trades.text()]
    for group, contract in owner.items():
        if group in filed:
            plan = filed[group] + part[group]
            pieces.append(f"; curtailment group {group} of {contract}, filed {filed[group]}: {plan}")
        else:
            pieces.append(f"; generation group {group} of {contract}: {part[group]}")
    for group, plant, planned in shares:
        pieces.append(f"; share of {group} at {plant}, planned {planned}: {corrected[plant]}")
    return "".join(pieces)


# Curtailment


def settle(method, b, p, d, u):
    """Supplied, curtailed and imbalance."""
    if method == 2:
        return b - p, max(b - u, 0), d + u - b
    if u > b:
        return u - p, 0, d
    if u < b - p:
        return u, p, d - p
    return b - p, b - u, d - (b - u)


def curtailment_case(case):
    gen = Generator(case)
    most = gen.most()
    b = gen.figure(most)
    p = gen.figure(b)
    d = gen.signed(130_000_000 if gen.below(4) == 0 else most)
    kind = gen.below(10)
    if kind in (3, 4, 5):
        u = b - p + gen.below(p + 1)
    elif kind == 8:
        u = gen.below(b - p + 1)
    elif kind == 9:
        u = gen.figure(153_600_000)
    else:
        u = {0: 0, 1: max(b - p - 1, 0), 2: b - p, 6: b, 7: b + 1}[kind]
    own = gen.figure(153_600_000)
    demand = gen.signed(128_000_000)
    text = (
        f"{case} curtailment: baseline {b}, plan {p}, deemed plan {d}, metered {u}"
        f"; retailer: metered {own}, deemed demand {demand}"
    )
    for method in (1, 2):
        supplied, curtailed, imbalance = settle(method, b, p, d, u)
        assert supplied + imbalance == d + u - p and supplied >= 0 and curtailed >= 0
        text += (
            f"; method {method}: supplied {supplied}, curtailed {curtailed}, imbalance {imbalance}"
            f", retailer supplied {own + supplied}, imbalance {own + supplied - demand}"
        )
    return text


# Meters


def half_hour_row(gen):
    number = draw_number(gen)
    kwh = gen.figure(2_000_000)
    if gen.below(16) == 0:
        kwh = 2_000_001
    return (number, kwh)


def register_row(gen):
    number = draw_number(gen)
    start = gen.figure(99_999)
    end = gen.figure(99_999)
    factor = gen.figure(19) + 1
    spoilt = gen.below(32)
    if spoilt == 0:
        start = 100_000
    elif spoilt == 1:
        end = 100_000
    elif spoilt == 2:
        factor = 0
    elif spoilt == 3:
        factor = 21
    return (number, start, end, factor)


def draw_number(gen):
    return [0, 1, 1, 2, 2, 3, 99_999, 100_000][gen.below(8)]


def half_hour_reading(kwh):
    return kwh if 0 <= kwh <= 2_000_000 else None


def register_reading(start, end, factor):
    if not (0 <= start <= 99_999 and 0 <= end <= 99_999 and 1 <= factor <= 20):
        return None
    steps = end - start if end >= start else end + 100_000 - start
    return steps * factor


def meters_case(case):
    gen = Generator(case)
    if gen.below(2) == 0:
        name, draw_row, reading = "half-hour", half_hour_row, half_hour_reading
    else:
        name, draw_row, reading = "register", register_row, register_reading
    rows = [draw_row(gen) for _ in range(min(gen.below(12), 8))]
    known = {}
    for number, *rest in rows:
        if number not in known:
            known[number] = reading(*rest) if 1 <= number <= 99_999 else None
    multiplier = 10_000 + gen.figure(2_000)
    count = gen.below(5)
    start = gen.below(4)
    places = [(1, 2, 3, 99_999)[(start + i) % 4] for i in range(count)]
    without = [meter for meter in places if known.get(meter) is None]
    if without:
        outcome = f"without {without[0]}"
    else:
        outcome = f"demand {sum(known[meter] for meter in places) * multiplier // 10_000}"
    reads = "".join(
        f" {meter}: {'none' if known.get(meter) is None else known[meter]}" for meter in (0, 1, 2, 3, 99_999, 100_000)
    )
    shown = "".join(f"; row{listed(row)}" for row in rows)
    return f"{case} {name} meters{shown}; reads{reads}; multiplier {multiplier}, places{listed(places)}: {outcome}"


def check_worked_figures():
    """The worked figures of the rules: a slip in this program shows before anything is printed."""
    for rule, whole, claims, parts in (
        (pro_rata, 7, [4, 1, 5], [3, 1, 3]),
        (pro_rata, 8, [4, 1, 5], [4, 0, 4]),
        (pro_rata, 5, [0, 0, 0], [2, 2, 1]),
        (pro_rata, 5, [0, 3, 3], [1, 2, 2]),
        (ranked, 400, [150, 0], [150, 250]),
        (ranked, 120, [150, 100], [120, 0]),
    ):
        assert rule(whole, claims) == parts
    assert divide_any_sign(pro_rata, -5, [2, 1], [0, 0]) == ([-4, -1], True)
    assert register_reading(99_990, 15, 10) == 250
    for method, u, settled in (
        (1, 150, (100, 0, 50)),
        (2, 150, (50, 0, 100)),
        (1, 80, (50, 20, 30)),
        (2, 80, (50, 20, 30)),
        (1, 20, (20, 50, 0)),
        (2, 20, (50, 80, -30)),
    ):
        assert settle(method, 100, 50, 50, u) == settled


SORTS = [
    (1001, lambda case: division_case(case, False)),
    (2001, lambda case: division_case(case, True)),
    (3001, trades_case),
    (4001, plans_case),
    (5001, curtailment_case),
    (6001, meters_case),
]


def main():
    check_worked_figures()
    for first, print_case in SORTS:
        for case in range(first, first + 70):
            sys.stdout.write(print_case(case) + "\n")


if __name__ == "__main__":
    main()
