"""Makes random calls of fuzz/calls.py by the package, and compares the answers with those that its model expects. The
package has no calls with keys and slots, or with commands as structs."""

from __future__ import annotations

import sys

from .answers import CALLS, FILE_CALLS, FREE_CALLS, MAKES
from .helpers import ROOT

sys.path.insert(0, str(ROOT / "fuzz"))
import calls  # noqa: E402

sys.path.remove(str(ROOT / "fuzz"))

HAS = {*CALLS, *FILE_CALLS, *FREE_CALLS, *MAKES, "free", "answer", "journal_begin", "journal_free"}


def main(count: int, seed: str) -> None:
    """Makes so many calls. Ends the process at the first answer that differs."""
    lines, answers = zip(*calls.Calls(seed, in_c_too=False).all(count))
    unknown = {it.split()[0] for it in lines} - HAS
    if unknown:
        sys.exit(f"tests/answers.py does not make: {', '.join(sorted(unknown))}")
    calls.compare([sys.executable, "-m", "tests.answers"], seed, lines, answers)


if __name__ == "__main__":
    main(int(sys.argv[1]), sys.argv[2])
