"""What to do about a failed check: tools/check prints it below what the check printed."""

from __future__ import annotations

from house import ROOT

# The check, or "" for each one; a text that it prints; and what to do. The first rows that apply are printed.
# fmt: off
WAYS: list[tuple[str, str, str]] = [
    ("needed", "is not on the PATH", "install the package named there; for rt, Rattle"),
    ("", "right to make network namespaces", "run the gate as root"),
    ("edits", "times", "the text to change has moved: make the same mistake in the present code, and delete the edit "
     "only if nobody can make the mistake any more"),
    ("edits", "there is no file", "a tool that a row names has moved: change its name in tools/edits"),
    ("edits", "nothing cites", "no proof needs this lemma: delete it, and the imports that only it used"),
    ("edits", "GROUPS", "put the crate below a heading in tools/edits"),
    ("table", "tests/manual.tsv", "delete the row, or record the run again"),
    ("reference", "is of nothing", "no source makes this file any more: delete it"),
    ("sizes", "over its limit", "cut, or raise the limit in this commit, tools/sizes --write PART, and say why in its "
     "body"),
    ("sizes", "new or changed file", "wrap the lines that are too long; write a long import as two of the same module, "
     "since rt fmt gives each name of a wrapped one a line"),
    ("version", "has version", "docs/MAINTAINING.md, A new version"),
    ("proofs", "no check reads", "move the .rt or .antt file into a crate, or delete it"),
    ("proofs", "its library", "a crate below was not proved: mend that one"),
    ("proofs", "killed, most likely for memory", "stop what runs beside rt ci, and run it again"),
    ("proofs", "NOT PROVED", "docs/MAINTAINING.md, A proof that fails"),
    ("proofs", "is not in the layout", "run rt fmt in the crate's folder"),
    ("proofs", "its tests FAILED", "run rt try --test in the crate, or make test"),
    ("proofs", "is not what its file stdout has", "decide by the rules which is right, then change the code or the "
     "file"),
    ("proofs", "NOT REFUSED", "the contract allows the mistake: strengthen it, and remove the edit only if the mutant "
     "does the same as the code"),
    ("proofs", "BAD EDIT", "make the same mistake in a text that applies, parses and compiles"),
    ("proofs", "NOT TRIED", "rt must-fail CRATE at the top tries the edits of one crate"),
    ("edits-refused", "only by a limit of the prover", "answer the goal that breaks (docs/MAINTAINING.md, Must-fail "
     "edits)"),
    ("edits-refused", "names what the edit took away", "make the same mistake in a text that keeps the goal's name"),
    ("edits-refused", "", "see the end of build/ci.log, and run the gate again without changes beside it"),
    ("mistakes", "NOT REFUSED", "the contract of that function allows the mistake: strengthen it"),
    ("mistakes", "NOT TRIED", "make the same mistake in a text that applies and compiles, in a function that has the "
     "line fn FUNCTION of the prover"),
    ("kept-frames", "NOT REFUSED", "a caller may keep a frame: restore the lifetime of the result"),
    ("stored-runs", "runs are stored", "change COUNT there, or restore the run"),
    ("stored-runs", "", "decide by the rules, then change the code, or the stored text and the page"),
    ("failures", "WRONG", "mend the code; docs/HOSTILE.md says how runs end"),
    ("fuzz", "no input met", "extend fuzz/inputs.py, fuzz/made.py, or for pcapng fuzz/blocks.py"),
    ("fuzz", "input", "python3 fuzz/fuzz.py --seed SEED --only N prints the input: decide by the pages which is wrong"),
    ("readers", "no input ended with status", "extend Corpus.input in fuzz/readers.py"),
    ("readers", "input", "python3 fuzz/readers.py --seed S --only N prints the input: mend the command"),
    ("planted", "not shown", "no input shows that wrong rule: extend fuzz/inputs.py, fuzz/made.py or fuzz/blocks.py"),
    ("planted", "WRONG: there are", "change COUNT there and the number in docs/HOSTILE.md, or restore the mistake"),
    ("", "expected.py has another text", "decide by the pages, then change fuzz/expected.py, or the script and its "
     "text"),
    ("instructions", "has no ", "the text of a planted mistake has moved: change it in the check"),
    ("keys-in-memory", "has no ", "the text of a planted mistake has moved: change it in the check"),
    ("", "a mistake can't be planted", "the text has moved: change it in MISTAKES or CONTROLS of the check"),
    ("journal", "a program was not built", "add the file, or a stand-in, to device/tests/journal_runs.py"),
    ("pages", "differ", "mend the page: a command prints something else, or a link or a path leads nowhere"),
    ("conformance", "WRONG", "do what the line says; else mend the row in conformance/, and run "
     "conformance/conformance --write"),
    ("c-header", "kept: the header lacks", "all versions 1 keep it: restore it, and add another one beside it"),
    ("c-header", "lacks", "add its line to kept.txt"),
    ("c-header", "MAKES", "add the call to tools/library/clearing.c"),
    ("c-header", "", "include/macsec.h and the crates differ: change the one that is wrong"),
    ("c-programs", "is in no list", "add the program to printing or others there"),
    ("c-programs", " needs ", "the library takes another call of the C library: mend it, or the lists there and in "
     "docs/C.md"),
    ("c-programs", "", "decide by the header which is right; else extend fuzz/calls.py or fuzz/rarely.py"),
    ("python", "tests/answers.py does not make", "add the call to python/tests/answers.py"),
    ("device-fuzz", "ends with status", "mend the reader, and add the input to device/tests/fuzz/corpus/; the head of "
     "the check says how to try it again"),
    ("keys-in-memory", "on the stack", "look at what that call passes to its functions, or list the call in "
     "tools/library/clearing.c"),
    ("keys-in-memory", "parts of the key are known", "measure SECTIONS of tools/house/memory.py again"),
    ("instructions", "too many", "find what costs more, such as a cipher that is not built of its lanes any more"),
    ("instructions", "far fewer", "lower the limit in tests/library/costs/limits.txt"),
    ("constant-time", "places, and not", "mend the code, or, if the branch may be there, the list in that tool"),
    ("two-hosts", "docs/TWO-HOSTS.md", "mend the page or the device, or REPLACED, ANSWERED or WRONG there"),
    ("controls", "has no text", "the text that is changed has moved: name another one in tests/program/controls"),
    ("controls", "NOT REPORTED", "a tool did not report something wrong: until it is mended, its passing means "
     "nothing"),
    ("packages", "was not proved of the sources", "run make dist, which proves and builds them"),
    ("any-order", "refuses a checkout", "keep libraries where rt ci does not look, and put no link into build/"),
]
# fmt: on
MOST = 3


def of(name: str, log: str, command: str) -> list[str]:
    """What to do about a check that failed with this log."""
    found = [way for check, text, way in WAYS if check in ("", name) and text in log]
    alone = f"alone: tools/check {name}; the head of {command} says what it looks at"
    return [f"what to do: {it}" for it in (*found[:MOST], alone)]


def unprinted() -> list[str]:
    """The texts of rows that no check prints any more. What rt prints is not looked for."""
    folders = [ROOT / it for it in ("tools", "tests", "fuzz", "device/tests", "python/tests", "conformance")]
    files = [it for folder in folders for it in folder.rglob("*") if it.is_file() and it.suffix not in (".hex", ".pyc")]
    printed = "\n".join(it.read_text(encoding="utf-8", errors="replace") for it in files if it.name != "ways.py")
    of_rt = ("proofs", "edits-refused")
    return sorted({text for check, text, _ in WAYS if check not in of_rt and text not in printed})
