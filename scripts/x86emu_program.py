"""Finds the program x86emu of this repository: the proved one where it is built, else one that is built unproved for one run.

The variable X86EMU_PROGRAM of the environment names a program that is taken in their place.
"""
import os
import re
import subprocess
import sys

ROOT = os.path.dirname(os.path.dirname(os.path.abspath(__file__)))
CRATE = os.path.join(ROOT, "crates", "x86emu")
PROGRAM = os.path.join(CRATE, "out", "x86emu")
BUILD = os.path.join(ROOT, "scripts", "build")


class Unusable(Exception):
    """What a script can't go on from, in one line for its user."""


def newest_source():
    """The time of the last change of the code, the definitions or the proofs of any crate."""
    newest = 0.0
    for folder, below, files in os.walk(os.path.join(ROOT, "crates")):
        below[:] = [name for name in below if name != "out"]
        for name in files:
            if name.endswith((".rt", ".antt")):
                newest = max(newest, os.path.getmtime(os.path.join(folder, name)))
    return newest


def is_built():
    return os.path.isfile(PROGRAM) and os.path.getmtime(PROGRAM) >= newest_source()


def program():
    """The path of the proved program, which `scripts/build` builds first where it isn't built: it proves what isn't proved yet, and
    that can take half an hour."""
    named = os.environ.get("X86EMU_PROGRAM")
    if named:
        if not os.path.isfile(named) or not os.access(named, os.X_OK):
            sys.exit(f"X86EMU_PROGRAM names no program: {named}")
        return os.path.abspath(named)
    if not is_built() and subprocess.run([BUILD], stdout=sys.stderr).returncode != 0:
        sys.exit("x86emu could not be built")
    return PROGRAM


def run_unproved(words, text):
    """Builds the program without a proof, runs it once on the words and the text, and answers its output and its status."""
    try:
        ran = subprocess.run(["rt", "try", "--", *words], cwd=CRATE, input=text, stdout=subprocess.PIPE, stderr=subprocess.PIPE)
    except FileNotFoundError:
        raise Unusable("the command rt of the toolchain isn't on the path") from None
    ended = re.findall(rb"(?m)^run=ended status=(\d+) ", ran.stderr)
    if not ended:
        said = (ran.stderr.strip() or b"nothing").splitlines()[-1].decode("utf-8", "replace")
        raise Unusable(f"the unproved program gave no answer (rt try: {said}); it answers at most 1 MiB, within a minute: scripts/build builds the proved one")
    return ran.stdout, int(ended[-1])


def run_once(words, text):
    """Runs the program on the words and the text, and answers its output and its status: the proved program where it is built, else
    one that is built for this run alone without a proof, which is said on standard error."""
    if os.environ.get("X86EMU_PROGRAM") or is_built():
        ran = subprocess.run([program(), *words], input=text, stdout=subprocess.PIPE)
        return ran.stdout, ran.returncode
    print("x86emu isn't built: this run is by a program that isn't proved; scripts/build builds the proved one", file=sys.stderr, flush=True)
    return run_unproved(words, text)
