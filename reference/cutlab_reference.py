#!/usr/bin/env python3
"""What cutlab's table is, in plain Python: the definitions of docs/MODEL.md and docs/FORMATS.md, each function under the
name that its definition has there. It is slow and obvious, stands on the standard library alone, and shares no code
with the program.

    cutlab_reference.py run   < plan.json      the table
    cutlab_reference.py check < plan.json      cells, trials and quorum
    cutlab_reference.py read plan.json FILE    what the checkpoint file holds for this plan
"""
import hashlib
import json
import math
import re
import sys
from itertools import accumulate, product
from typing import Any, Iterable, NamedTuple

Plan = dict[str, Any]
Cell = tuple[int, int, int, int]  # K, H, L and F
Edge = tuple[int, int]  # a ring and a subject
Proposal = tuple[tuple[int, ...], int]  # its members, and after how many deliveries
Sums = dict[str, int]
Slip = tuple[int, int, Sums]  # the first trial, how many, and their sums


class Fault(Exception):
    """A fault: its number, its name and what it carries."""

    # fmt: off
    NAMES = {
        1: "NotJson", 2: "NotObject", 3: "UnknownField", 4: "MissingField", 5: "WrongKind", 6: "OutOfRange",
        7: "NotRising", 8: "NoCell", 9: "TooManyFaults", 10: "TooManyTrials", 17: "BadSlip", 19: "PlanTooLong",
        22: "NoStudy", 23: "OtherPlan", 24: "Damaged", 40: "BadKind", 41: "TooLong", 42: "Truncated", 45: "BadLength",
    }
    # fmt: on

    def __init__(self, number: int, carried: object = None) -> None:
        super().__init__(f"cutlab: fault {number} {self.NAMES[number]}" + ("" if carried is None else f" {carried}"))
        self.number, self.carried = number, carried


# ---- plans
# fmt: off
WHOLE, TEXT, TRUTH, WHOLES = "whole number", "text", "truth", "whole numbers"
COMMON: dict[str, tuple[Any, ...]] = {
    "copies": (WHOLE, 1, 4), "dead": (TEXT, ("silent", "speak")), "f": (WHOLES, 0, None), "h": (WHOLES, 1, 32),
    "implicit": (TRUTH,), "k": (WHOLES, 1, 32), "l": (WHOLES, 1, 32), "liars": (WHOLE, 0, 2048),
    "links": (WHOLE, 0, 2048), "nodes": (WHOLE, 2, 2048), "repeats": (WHOLE, 1, 1_000_000), "seed": (TEXT, None),
}
FIELDS: dict[int, dict[str, tuple[Any, ...]]] = {
    1: {**COMMON, "faults": (TEXT, ("crash", "deaf")), "version": (WHOLE, 1, 1)},
    2: {**COMMON, "deaf": (WHOLE, 0, 2048), "version": (WHOLE, 2, 2)},
}
# fmt: on


class Number(NamedTuple):
    """A number of a JSON text, as it is written there."""

    text: str


def is_whole(value: object) -> bool:
    return isinstance(value, Number) and value.text.isdigit() and int(value.text) < 2**64


def is_of_kind(kind: str, value: object) -> bool:
    if kind == WHOLES:
        return isinstance(value, list) and all(is_whole(item) for item in value)
    return {WHOLE: is_whole(value), TEXT: isinstance(value, str), TRUTH: isinstance(value, bool)}[kind]


def in_range(field: str, value: Any, rule: tuple[Any, ...], nodes: int) -> bool:
    kind = rule[0]
    if kind == TRUTH:
        return True
    if field == "seed":
        return len(value) == 64 and all(digit in "0123456789abcdefABCDEF" for digit in value)
    if kind == TEXT:
        return value in rule[1]
    numbers = value if kind == WHOLES else [value]
    high = nodes - 1 if field == "f" else rule[2]
    return numbers != [] and all(rule[1] <= number <= high for number in numbers)


def json_value(text: bytes) -> Any:
    """The value of a JSON text (RFC 8259), of 127 levels at most and with numbers that a double holds."""

    def number(digits: str) -> Number:
        if not math.isfinite(float(digits)):
            raise ValueError(digits)
        return Number(digits)

    try:
        decoded = text.decode("utf-8")
        value = json.loads(decoded, parse_int=number, parse_float=number, parse_constant=number)
        json.dumps(value, ensure_ascii=False).encode("utf-8")  # (half of a surrogate pair is refused)
    except (ValueError, RecursionError):
        raise Fault(1) from None
    without_texts = re.sub(r'"(?:[^"\\]|\\.)*"', "", decoded)
    if max(accumulate((it in "[{") - (it in "]}") for it in without_texts), default=0) > 127:
        raise Fault(1)
    return value


def plain(value: Any) -> Any:
    """A value of a field with its numbers as whole numbers."""
    if isinstance(value, list):
        return [int(it.text) for it in value]
    return int(value.text) if isinstance(value, Number) else value


def plan_of(text: bytes) -> Plan:
    """The plan of an accepted text, or the first fault of any other."""
    if len(text) > 65_536:
        raise Fault(19)
    value = json_value(text)
    if not isinstance(value, dict):
        raise Fault(2)
    version = 2 if is_whole(value.get("version")) and plain(value["version"]) == 2 else 1
    fields = FIELDS[version]
    if any(field not in fields for field in value):
        raise Fault(3)
    names = sorted(fields)
    for field in names:
        if field not in value:
            raise Fault(4, field)
    for field in names:
        if not is_of_kind(fields[field][0], value[field]):
            raise Fault(5, field)
    plan = {field: plain(value[field]) for field in names}
    for field in names:
        if not in_range(field, plan[field], fields[field], plan["nodes"]):
            raise Fault(6, field)
    plan["seed"] = plan["seed"].lower()
    for field in names:
        if fields[field][0] == WHOLES and any(a >= b for a, b in zip(plan[field], plan[field][1:])):
            raise Fault(7, field)
    if not cells(plan):
        raise Fault(8)
    if plan["f"][-1] + plan["liars"] + plan["links"] > plan["nodes"]:
        raise Fault(9)
    if len(cells(plan)) > 4096:
        raise Fault(10)
    return plan


def cells(plan: Plan) -> list[Cell]:
    """The combinations of the lists with l <= h <= k, in lexical order."""
    combinations = product(plan["k"], plan["h"], plan["l"], plan["f"])
    return [(k, h, l, f) for k, h, l, f in combinations if l <= h <= k]


def canonical_text(plan: Plan) -> bytes:
    return json.dumps(plan, sort_keys=True, separators=(",", ":")).encode()


# ---- rings
def ring(plan: Plan, number: int) -> list[int]:
    """The processes of a ring in its order."""

    def digest(process: int) -> bytes:
        text = bytes.fromhex(plan["seed"]) + number.to_bytes(4, "big") + process.to_bytes(4, "big")
        return hashlib.sha256(text).digest()

    return sorted(range(plan["nodes"]), key=lambda process: (digest(process), process))


class Layout:
    """The observers and subjects of the first rings."""

    def __init__(self, rings: list[list[int]]) -> None:
        self.rings = rings
        self.place = [{process: at for at, process in enumerate(ring)} for ring in rings]

    def observer(self, number: int, subject: int) -> int:
        return self.rings[number][self.place[number][subject] - 1]

    def subject(self, number: int, observer: int) -> int:
        return self.rings[number][(self.place[number][observer] + 1) % len(self.rings[number])]


def layout_of(plan: Plan) -> Layout:
    return Layout([ring(plan, number) for number in range(max(plan["k"]))])


# ---- draws
def quarter_round(state: list[int], a: int, b: int, c: int, d: int) -> None:
    for x, y, z, by in ((a, b, d, 16), (c, d, b, 12), (a, b, d, 8), (c, d, b, 7)):
        state[x] = (state[x] + state[y]) & 0xFFFFFFFF
        word = state[z] ^ state[x]
        state[z] = (word << by | word >> 32 - by) & 0xFFFFFFFF


def block(seed: bytes, stream: int, counter: int) -> list[int]:
    """A block of ChaCha with 8 rounds (RFC 8439), with a counter and a stream number of 64 bits each."""
    words = [int.from_bytes(seed[at : at + 4], "little") for at in range(0, 32, 4)]
    places = [half for number in (counter, stream) for half in (number & 0xFFFFFFFF, number >> 32)]
    first = [0x61707865, 0x3320646E, 0x79622D32, 0x6B206574, *words, *places]
    state = list(first)
    for _ in range(4):
        for at in range(4):
            quarter_round(state, at, at + 4, at + 8, at + 12)
        for at in range(4):
            quarter_round(state, at, (at + 1) % 4 + 4, (at + 2) % 4 + 8, (at + 3) % 4 + 12)
    return [(a + b) & 0xFFFFFFFF for a, b in zip(state, first)]


class Source:
    """The draws of a trial."""

    def __init__(self, plan: Plan, trial: int) -> None:
        self.seed, self.trial = bytes.fromhex(plan["seed"]), trial
        self.blocks: dict[int, list[int]] = {}

    def word(self, place: int) -> int:
        number = place // 16
        if number not in self.blocks:
            self.blocks[number] = block(self.seed, self.trial, number)
        return self.blocks[number][place % 16]

    def key(self, place: int) -> int:
        return self.word(place) << 32 | self.word(place + 1)


def deliveries(source: Source, receiver: int, k: int, edges: Iterable[Edge], copies: int) -> list[Edge]:
    """Each copy of each edge, in the order in which it comes to a receiver: edges are (ring, subject)."""

    def rank(delivery: tuple[Edge, int]) -> tuple[int, int, int]:
        (number, subject), copy = delivery
        edge = subject * k + number
        return source.key(2**20 + 2 * ((copy * 2**11 + receiver) * 2**16 + edge)), edge, copy

    return [edge for edge, _ in sorted(product(edges, range(copies)), key=rank)]


# ---- roles and alerts
class Roles:
    """What each process of a trial is: targets, of which some are deaf and the others crashed, liars, and cut links."""

    def __init__(self, plan: Plan, f: int, source: Source, layout: Layout) -> None:
        order = sorted(range(plan["nodes"]), key=lambda process: (source.key(2 * process), process))
        deaf = min(f, plan["deaf"]) if plan["version"] == 2 else f if plan["faults"] == "deaf" else 0
        self.targets, rest = order[:f], order[f:]
        self.crashed, self.deaf = set(order[: f - deaf]), set(order[f - deaf : f])
        self.liars, rest = set(rest[: plan["liars"]]), rest[plan["liars"] :]
        self.links = {(end, layout.subject(0, end)) for end in rest[: plan["links"]]}
        self.speak = plan["dead"] == "speak"


def is_alerted(layout: Layout, roles: Roles, number: int, subject: int) -> bool:
    observer = layout.observer(number, subject)
    up = observer not in roles.crashed
    is_failed = subject in roles.targets and (up or roles.speak)
    is_cut = up and ((observer, subject) in roles.links or (subject, observer) in roles.links)
    return is_failed or observer in roles.deaf or observer in roles.liars or is_cut


def alert_list(plan: Plan, layout: Layout, roles: Roles, k: int) -> list[Edge]:
    edges = product(range(plan["nodes"]), range(k))
    return [(number, subject) for subject, number in edges if is_alerted(layout, roles, number, subject)]


# ---- detection
class Detector:
    """The rule of cut detection at one receiver: reported rings by subject, counted anew after each delivery."""

    def __init__(self, layout: Layout, k: int, h: int, l: int, implicit: bool) -> None:
        self.layout, self.k, self.h, self.l, self.implicit = layout, k, h, l, implicit
        self.reported: dict[int, set[int]] = {}

    def full_reports(self, subject: int) -> int:
        """How many rings report the subject or are gained by it."""
        rings = set(self.reported[subject])
        if self.implicit and len(rings) >= self.l:
            often = {process for process, its in self.reported.items() if len(its) >= self.l}
            rings |= {number for number in range(self.k) if self.layout.observer(number, subject) in often}
        return len(rings)

    def deliver(self, edge: Edge) -> None:
        number, subject = edge
        self.reported.setdefault(subject, set()).add(number)

    def settled(self) -> list[int] | None:
        """The stable processes, where there is one and none is unstable."""
        counts = {subject: self.full_reports(subject) for subject in self.reported}
        unstable = any(self.l <= count < self.h for count in counts.values())
        stable = sorted(subject for subject, count in counts.items() if count >= self.h)
        return stable if stable and not unstable else None


def proposal(
    plan: Plan, layout: Layout, cell: Cell, edges: list[Edge], source: Source, receiver: int
) -> Proposal | None:
    """What a receiver proposes; None where it never does."""
    k, h, l, _ = cell
    detector = Detector(layout, k, h, l, plan["implicit"])
    for at, edge in enumerate(deliveries(source, receiver, k, edges, plan["copies"]), 1):
        detector.deliver(edge)
        if members := detector.settled():
            return tuple(members), at
    return None


# ---- trials
SUMS = ("receivers", "conflicts", "silent", "extra", "votes", "decided", "right", "settled")


def quorum(nodes: int) -> int:
    return nodes - (nodes - 1) // 4


def outcome(plan: Plan, layout: Layout, trial: int) -> Sums:
    """The sums of one trial."""
    cell = cells(plan)[trial // plan["repeats"]]
    source = Source(plan, trial)
    roles = Roles(plan, cell[3], source, layout)
    edges = alert_list(plan, layout, roles, cell[0])
    targets = set(roles.targets)
    receivers = (it for it in range(plan["nodes"]) if it not in targets)
    found = [proposal(plan, layout, cell, edges, source, it) for it in receivers]
    proposed = [it for it in found if it is not None]
    votes = [members for members, _ in proposed]
    most = max(map(votes.count, set(votes)), default=0)
    return {
        "receivers": len(found),
        "silent": len(found) - len(proposed),
        "conflicts": sum(not targets <= set(members) for members in votes),
        "extra": sum(not set(members) <= targets for members in votes),
        "votes": most,
        "decided": int(most >= quorum(plan["nodes"])),
        "right": int(votes.count(tuple(sorted(targets))) >= quorum(plan["nodes"])),
        "settled": sum(at for _, at in proposed) if plan["version"] == 2 else 0,
    }


def piece_sums(plan: Plan, layout: Layout, first: int, count: int) -> Sums:
    trials = [outcome(plan, layout, trial) for trial in range(first, first + count)]
    return {name: sum(trial[name] for trial in trials) for name in SUMS}


# ---- the table
def header(plan: Plan) -> str:
    return ",".join(["k", "h", "l", "f", "trials", *SUMS[: 6 + plan["version"]], "ppm"]) + "\n"


def line(plan: Plan, cell: Cell, trials: int, sums: Sums) -> str:
    counted = [sums[name] for name in SUMS[: 6 + plan["version"]]]
    return ",".join(map(str, [*cell, trials, *counted, sums["conflicts"] * 10**6 // sums["receivers"]])) + "\n"


def table(plan: Plan) -> str:
    return table_over(plan, [])


def table_over(plan: Plan, slips: list[Slip]) -> str:
    """The table of a study that went on from these slips, whatever their sums are."""
    layout, repeats = layout_of(plan), plan["repeats"]
    held, lines = {trial for first, count, _ in slips for trial in range(first, first + count)}, list[str]()
    for number, cell in enumerate(cells(plan)):
        trials = range(number * repeats, (number + 1) * repeats)
        parts = [sums for first, _, sums in slips if first in trials]
        parts += [outcome(plan, layout, trial) for trial in trials if trial not in held]
        lines.append(line(plan, cell, repeats, {name: sum(it[name] for it in parts) for name in SUMS}))
    return header(plan) + "".join(lines)


# ---- checkpoint files
def numbers_of(plan: Plan) -> int:
    return 8 + int(plan["version"])


def file_of(plan: Plan, slips: Iterable[Slip]) -> bytes:
    """The checkpoint file that holds these slips: (first, count, sums)."""
    text = canonical_text(plan)
    head = b"CUTLAB0" + str(plan["version"]).encode() + len(text).to_bytes(4, "big") + text
    digest = hashlib.sha256(head).digest()
    whole = b"\xa5" + head + digest
    for first, count, sums in slips:
        numbers = [first, count, *(sums[name] for name in SUMS)][: numbers_of(plan)]
        held = b"".join(number.to_bytes(8, "big") for number in numbers)
        whole += b"\xa5" + held + hashlib.sha256(digest + held).digest()
    return whole + b"\0"


def slips_of(plan: Plan, held: bytes) -> list[Slip]:
    """The slips that a file holds for this plan, or the fault of reading it."""
    if len(held) <= 1 or held[0] != 0xA5:
        raise Fault(22)
    n = int.from_bytes(held[9:13], "big")
    if len(held) < 13 or held[1:9] not in (b"CUTLAB01", b"CUTLAB02") or n > 65_536 or len(held) < n + 46:
        raise Fault(24, 0)
    digest = held[13 + n : 45 + n]
    if hashlib.sha256(held[1 : 13 + n]).digest() != digest:
        raise Fault(24, 0)
    if held[13 : 13 + n] != canonical_text(plan):
        raise Fault(23)
    if held[8] != ord(str(plan["version"])):
        raise Fault(24, 0)
    slips: list[Slip] = []
    at, size = 45 + n, 8 * numbers_of(plan)
    while held[at] == 0xA5:
        number = len(slips) + 1
        part = held[at + 1 : at + 1 + size]
        whole = len(held) > at + 1 + size + 32
        if not whole or hashlib.sha256(digest + part).digest() != held[at + 1 + size : at + 33 + size]:
            raise Fault(24, number)
        numbers = [int.from_bytes(part[i : i + 8], "big") for i in range(0, size, 8)]
        if max(numbers[:2]) >= 2**32:
            raise Fault(24, number)
        slips.append((numbers[0], numbers[1], dict(zip(SUMS, numbers[2:] + [0]))))
        at += size + 33
    return slips


def checked_slips(plan: Plan, slips: list[Slip]) -> list[Slip]:
    """The slips, or the fault of the first that is no piece, overlaps an earlier one, or has impossible sums."""
    held: set[int] = set()
    repeats = plan["repeats"]
    for number, (first, count, sums) in enumerate(slips, 1):
        last = first + count - 1
        if count < 1 or last >= len(cells(plan)) * repeats or first // repeats != last // repeats:
            raise Fault(17, number)
        k, _, _, f = cells(plan)[first // repeats]
        trials = range(first, first + count)
        speaking = sums["receivers"] - sums["silent"]
        least = speaking if plan["version"] == 2 else 0
        possible = (
            sums["receivers"] == count * (plan["nodes"] - f)
            and max(sums["silent"], sums["votes"]) <= sums["receivers"]
            and max(sums["conflicts"], sums["extra"]) <= speaking
            and sums["right"] <= sums["decided"] <= count
            and least <= sums["settled"] <= least * plan["nodes"] * k * plan["copies"]
        )
        if not held.isdisjoint(trials) or not possible:
            raise Fault(17, number)
        held.update(trials)
    return slips


# ---- messages
Lengths = dict[str, int | None]  # of the payload of each kind, where it is fixed
REQUESTS: Lengths = {"R": None, "S": 4, "Q": 0}
REPLIES: Lengths = {"T": None, "Z": 0, "S": 8, "E": 2}


def frame(kind: str, payload: bytes = b"") -> bytes:
    return kind.encode() + len(payload).to_bytes(4, "big") + payload


def messages(lengths: Lengths, stream: bytes) -> tuple[list[tuple[str, bytes]], int | None]:
    """The messages of a whole stream, and its fault, if it has one."""
    found: list[tuple[str, bytes]] = []
    while stream:
        kind = chr(stream[0])
        if kind not in lengths:
            return found, 40
        if len(stream) < 5:
            return found, 42
        length = int.from_bytes(stream[1:5], "big")
        if length > 65_536:
            return found, 41
        if lengths[kind] not in (None, length):
            return found, 45
        if len(stream) < 5 + length:
            return found, 42
        found.append((kind, stream[5 : 5 + length]))
        stream = stream[5 + length :]
    return found, None


# ---- commands
def main(words: list[str]) -> None:
    try:
        if words[:1] == ["run"]:
            sys.stdout.write(table(plan_of(sys.stdin.buffer.read())))
        elif words[:1] == ["check"]:
            plan = plan_of(sys.stdin.buffer.read())
            count = len(cells(plan))
            print(f"cells {count}\ntrials {count * plan['repeats']}\nquorum {quorum(plan['nodes'])}")
        elif words[:1] == ["read"] and len(words) == 3:
            with open(words[1], "rb") as plan_file, open(words[2], "rb") as study:
                plan = plan_of(plan_file.read())
                for first, count, sums in checked_slips(plan, slips_of(plan, study.read())):
                    print(first, count, *sums.values())
        else:
            sys.exit(__doc__)
    except Fault as fault:
        print(fault, file=sys.stderr)
        sys.exit(3 if fault.number < 11 or fault.number == 19 else 4)


if __name__ == "__main__":
    main(sys.argv[1:])
