"""A stage of the gate by its name, from the root of the repository: `python3 -m gate STAGE [WORDS..]`. `.ci/run` calls it."""

import sys
from pathlib import Path

from . import each, facts, layout, listing, papers, trust

STAGES = {"each": each, "facts": facts, "layout": layout, "listing": listing, "papers": papers, "trust": trust}

if __name__ == "__main__":
    if len(sys.argv) < 2 or sys.argv[1] not in STAGES:
        sys.exit(f"gate: a stage is one of {', '.join(STAGES)}")
    sys.exit(STAGES[sys.argv[1]].run(Path.cwd(), sys.argv[2:]))
