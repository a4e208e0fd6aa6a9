"""The programs of this repository, for every script that runs one: proved and built as the sources stand, and how they start."""
import os
import subprocess
import sys

ROOT = os.path.dirname(os.path.dirname(os.path.dirname(os.path.realpath(__file__))))


def build(name):
    """rt proves again what changed, builds, and then runs the program once, here on no input: its last word is that it runs it."""
    run = subprocess.run(["rt", "run"], cwd=f"{ROOT}/crates/{name}", stdin=subprocess.DEVNULL, capture_output=True)
    said = (run.stdout + run.stderr).decode(errors="replace")
    if f"rt: running out/{name}" not in said or not os.path.exists(f"{ROOT}/crates/{name}/out/{name}"):
        sys.exit(f"{os.path.basename(sys.argv[0])}: {name} is not proved:\n" + said[-4_000:])


def command(name):
    """The words that start a program, which is for x86-64."""
    return [f"{ROOT}/crates/{name}/out/{name}"]
