"""The proved program crates/call_cases/out/call_cases beside the second implementation, on a script of calls that the second implementation makes
(docs/SCRIPT.md)."""

import pathlib
import subprocess
import sys
import tempfile
from itertools import zip_longest

ROOT = pathlib.Path(__file__).resolve().parent.parent
SECOND = ROOT / "second/target/release/second"
PROVED = ROOT / "crates/call_cases/out/call_cases"


def first_difference(script, expected, printed):
    """The first line that differs, with the command that it belongs to."""
    # no other commands start with these letters, and each of these prints one line
    calls = [f"line {at}, {line}" for at, line in enumerate(script, 1) if line[0] in "cgmopt"]
    lines = zip_longest(calls, expected, printed, fillvalue="nothing")
    for number, (call, second, proved) in enumerate(lines, 1):
        if second != proved:
            return f"printed line {number}, by the script's {call}\nsecond: {second}\nproved: {proved}"
    return "all lines are equal"


def compare(what, options):
    """Runs both on the script that these options of `second script` make. Prints nothing where all is equal; else what was run and the first line
    that differs, and fails."""
    if not PROVED.exists():
        sys.exit(f"{what}: crates/call_cases/out/call_cases is not there; rt ci makes it")
    subprocess.run(["cargo", "build", "--release", "--offline", "--quiet"], cwd=ROOT / "second", check=True)
    with tempfile.TemporaryDirectory() as directory:
        made = pathlib.Path(directory)
        if subprocess.run([SECOND, "script", *options, made]).returncode != 0:
            sys.exit(f"{what}: no script was made")
        with open(made / "stdin", "rb") as script:
            run = subprocess.run([PROVED], stdin=script, stdout=subprocess.PIPE)
        texts = [(made / "stdin").read_bytes(), (made / "stdout").read_bytes(), run.stdout]
    if run.returncode != 0 or texts[1] != texts[2]:
        lines = [text.decode(errors="replace").splitlines() for text in texts]
        print(f"{what}: call_cases ended with {run.returncode}\n{first_difference(*lines)}")
        sys.exit(1)
