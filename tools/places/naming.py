"""A proof file with its places named: each path `c .before .. .before` of LEAST or more steps becomes `NAME (search c)`.

NAME is the place that the path leads to, and antt's `search` finds it below `c` by its type, so that no step is counted. The names
stand once, in a block above the first declaration that has a `c`; the block is written anew on each run. `search` reads the nearest
128 records. Where a need looks further back, the block has a step from each named place to the one before it, the set `past` has
those steps, and the needs say `NAME (search past)`. What is in this form already is left as it is."""

import re
from dataclasses import dataclass
from typing import Dict, Iterable, List, Optional, Set

from places.plan import START, Plan, name_of
from places.terms import inside, parts

LEAST, REACH = 3, 100
HEAD = "-- The places that the needs name (tools/name-places writes this block)."

NAME = r"[\w\-·]+"
SEARCHED = r"\(search (?:past|c)\)"
NAMED = NAME + " " + SEARCHED
USED = re.compile(f"({NAME}) {SEARCHED}|let ({NAME}) : tie\\.[^=]* = search (?:past|c) in")
STEPS = re.compile(r"(?<![\w.·\-])c((?:\s+\.before)+)(?=[\s),;]|$)")
NEED = re.compile(r"(?P<name>\S+) :\s+tie\.Need-(?P<need>\S+)(?P<given>(?:.|\n(?=\s))*)")
HELPER = re.compile(r"(?P<name>\S+) :\s+\(c : tie\.(?P<place>[^\s)]+)(?P<given>[^)]*)\)")
GENERATED = re.compile(r"abbrev (\S+) :\s+tie\.[^→]*→\s+tie\.[^→]*\n\1 p = (?:p|search p|p(?:\s+\.before)+)|ruleset past = \([^()]*\)")
KEPT = re.compile(r"\s*(?P<call>(?:c|" + NAMED + r")(?: \.[\w\-·]+)* \.kept)(?: \.1){2,}(?: \.0)?(?P<end>\s*)")


@dataclass(frozen=True)
class Clause:
    """A declaration with a `c`: the places from its `c` back to the start, what the types of places are given, where names may
    stand from, and whether lets can bind them there."""

    way: List[str]
    given: str
    at: int
    binds: bool


def rewrite(text: str, plan: Plan, kept: bool = False) -> str:
    """The proof file with its places named; with `kept`, what a call kept is found by its type too."""
    blocks = without_block(text.split("\n\n"))
    clauses = clauses_in(blocks, plan)
    wanted = {place for at, clause in clauses.items() for place in places_in(blocks[at], clause, plan)}
    for at, clause in clauses.items():
        blocks[at] = blocks[at][:clause.at] + named(blocks[at][clause.at:], clause, wanted, plan, kept)
    if not wanted:
        return "\n\n".join(blocks)
    ways = [looked_over(blocks[at], clause, plan) for at, clause in clauses.items()]
    far = any(plan.weight(way[:-1]) > REACH for way in ways)
    for at in clauses:
        blocks[at] = re.sub(r"(\(|= )search (?:past|c)(\)| in)", rf"\1search {'past' if far else 'c'}\2", blocks[at])
    first = min(clauses)
    called = {place for at in clauses for place in called_in(blocks[at], plan)}
    stops = with_stops(plan, wanted, ways) if far else set()
    blocks[first:first] = block_of(plan, called, stops, clauses[first].given)
    return "\n\n".join(blocks)


def without_block(blocks: List[str]) -> List[str]:
    """The declarations without those that an earlier run wrote."""
    start = next((at for at, block in enumerate(blocks) if block.startswith(HEAD)), len(blocks))
    end = start
    while end < len(blocks) and GENERATED.fullmatch(re.sub(r"^--.*\n", "", blocks[end]).strip()):
        end += 1
    return blocks[:start] + blocks[end:]


def clauses_in(blocks: List[str], plan: Plan) -> Dict[int, Clause]:
    """Of each answered need, and of each helper that takes a place as `c`, its clause."""
    found = {}
    for at, block in enumerate(blocks):
        clause = need_in(block, plan) or helper_in(block, plan)
        if clause:
            found[at] = clause
    return found


def need_in(block: str, plan: Plan) -> Optional[Clause]:
    head = NEED.match(without_comment(block))
    left = head and re.search(r"^" + re.escape(head.group("name")) + r" c\b[^=\n]* =", block, re.M)
    if not head or not left or head.group("need") not in plan.needs:
        return None
    return Clause(plan.way(plan.needs[head.group("need")]), given_in(head), left.end(), binds=True)


def helper_in(block: str, plan: Plan) -> Optional[Clause]:
    bare = without_comment(block)
    head = HELPER.match(bare)
    if not head or head.group("place") not in plan or not re.search(r"^" + re.escape(head.group("name")) + r" c\b", block, re.M):
        return None
    return Clause(plan.way(head.group("place")), given_in(head), len(block) - len(bare) + head.end(), binds=False)


def given_in(head: "re.Match[str]") -> str:
    return "".join(" " + word for word in head.group("given").split())


def without_comment(block: str) -> str:
    return re.sub(r"\A(?:--.*\n)+", "", block)


def places_in(block: str, clause: Clause, plan: Plan) -> Iterable[str]:
    """The places that a clause names, or reaches by a path long enough to be named."""
    for path in STEPS.finditer(block, clause.at):
        count = path.group(1).count(".before")
        if LEAST <= count < len(clause.way):
            yield clause.way[count]
    yield from named_in(block, plan)


def named_in(block: str, plan: Plan) -> List[str]:
    """The places that a text names: in `NAME (search c)`, and in `let NAME : .. = search c in`."""
    by_name = {name_of(place): place for place in [START, *plan.before]}
    names = [first or second for first, second in USED.findall(" ".join(block.split()))]
    return [by_name[name] for name in names if name in by_name]


def called_in(block: str, plan: Plan) -> List[str]:
    """The places that a text names in `NAME (search c)`."""
    return named_in(" ".join(re.findall(NAMED, " ".join(block.split()))), plan)


def named(body: str, clause: Clause, wanted: Set[str], plan: Plan, kept: bool) -> str:
    """A clause's answer with the wanted places named."""
    def name(path: "re.Match[str]") -> str:
        count = path.group(1).count(".before")
        place = clause.way[count] if count < len(clause.way) else None
        return name_of(place) + " (search c)" if place in wanted else path.group(0)

    new = joined(STEPS.sub(name, body))
    if new != body and rewrites_by_path(body):
        new = with_lets(new, clause, plan) if clause.binds else body
    row = KEPT.fullmatch(new) if kept else None
    return f" search ({row.group('call')}){row.group('end')}" if row else new


def with_lets(body: str, clause: Clause, plan: Plan) -> str:
    """The answer with its places bound by typed lets, the nearest first."""
    places = called_in(body, plan)
    lets = [f" let {name_of(place)} : tie.{place}{clause.given} = search c in" for place in clause.way if place in places]
    return "".join(lets) + re.sub(NAMED, lambda found: found.group(0).split()[0], body)


def joined(body: str) -> str:
    """The answer with `((X .a) .b)`, where X is a place, written `(X .a .b)`."""
    path = r"\(((?:c|" + NAMED + r")(?: \.[\w\-·]+)+)\)"
    while True:
        new = re.sub(r"(^ |\(|, |∙ |= |; )" + path + r"(?= \.)", r"\1\2", body)
        new = re.sub(r"\(" + path + r"\)", r"(\1)", new)
        if new == body:
            return body
        body = new


def rewrites_by_path(body: str) -> bool:
    """Whether an answer rewrites by what a path says, or rewrites that: `rw e at (c ..)`, `simp (.., ← c ..)`. It wants the path
    itself, as a `let` gives it, and not a term with `search` in it."""
    body = re.sub(r"(?<=[(\[]) | (?=[)\]])", "", " ".join(body.split()))
    path = r"\(*(?:c|" + NAMED + r") \."
    rules = [rule.strip() for found in re.finditer(r"\b(?:simp|rw) \(", body) for rule in parts(inside(body, found.end() - 1))]
    return bool(re.search(" at " + path, body)) or any(re.match("(?:← )?" + path, rule) for rule in rules)


def looked_over(block: str, clause: Clause, plan: Plan) -> List[str]:
    """The places from a clause's `c` to the last that it names."""
    last = max((clause.way.index(place) for place in named_in(block, plan) if place in clause.way), default=0)
    return clause.way[:last + 1]


def with_stops(plan: Plan, wanted: Set[str], ways: List[List[str]]) -> Set[str]:
    """The wanted places, and stops on the ways to them so that each is within what `search` reads from the one behind it."""
    places = set(wanted)
    for way in ways:
        since: List[str] = []
        for place in way:
            since = [] if place in places else since + [place]
            if plan.weight(since) > REACH:
                places.add(place)
                since = []
    return places


def block_of(plan: Plan, called: Set[str], stops: Set[str], given: str) -> List[str]:
    """The declarations of the names, and of the steps between stops where a need looks further back than `search` reads."""
    declarations = [declared(name_of(place), place, place, given, "p") for place in in_order(plan, called)]
    if stops:
        ends = [(place, nearest(plan, place, stops)) for place in in_order(plan, stops)]
        steps = [(name_of(place) + "-back", place, before) for place, before in ends if before is not None]
        declarations += [declared(name, place, before, given, "search p") for name, place, before in steps]
        declarations.append("ruleset past = (" + ", ".join(name for name, _, _ in steps) + ")")
    return [HEAD + "\n" + declarations[0], *declarations[1:]] if declarations else []


def in_order(plan: Plan, places: Set[str]) -> List[str]:
    return sorted(places, key=lambda place: (len(plan.way(place)), place))


def declared(name: str, start: str, end: str, given: str, body: str) -> str:
    return f"abbrev {name} : tie.{start}{given} → tie.{end}{given}\n{name} p = {body}"


def nearest(plan: Plan, place: str, places: Set[str]) -> Optional[str]:
    """The nearest of some places before `place`."""
    return next((before for before in plan.way(place)[1:] if before in places), None)
