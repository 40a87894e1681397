"""What the tests share: the places of a small function, and proofs of it."""

from pathlib import Path

from places import plan

HERE = Path(__file__).resolve().parent
PLAN = plan.read((HERE / "lts.txt").read_text(encoding="utf-8"))

USES = "use Rattle·lay.Tie as tie\n\n"


def need(name: str, answer: str, given: str = "", arguments: str = "c") -> str:
    """A need and its answer."""
    return f"{name} : tie.Need-{name}{given}\n{name} {arguments} = {answer}\n"


def steps(count: int) -> str:
    return "c" + " .before" * count
