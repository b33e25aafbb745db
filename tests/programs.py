"""What the test scripts share: where the programs are, how they are run, how results are counted."""

import os
import subprocess
from concurrent.futures import ThreadPoolExecutor
from pathlib import Path

ROOT = Path(__file__).resolve().parent.parent
TARGET = ROOT / "target"
PROGRAMS = ["lister", "plan_writer", "runner", "replay"]
LONGEST_RUN = 300


def program(name):
    """The file of a built program."""
    return ROOT / "crates" / name / "out" / name


def listed():
    """The names of the crates in crates.txt."""
    lines = (ROOT / "crates.txt").read_text().splitlines()
    return {line.split(":")[0].split()[0] for line in lines if ":" in line and not line.startswith("#")}


def built(name):
    """Proves and builds a program, if it changed since, by a run without input; says whether it is there."""
    folder = ROOT / "crates" / name
    run = subprocess.run(["rt", "run"], cwd=folder, stdin=subprocess.DEVNULL, stdout=subprocess.DEVNULL, stderr=subprocess.PIPE, text=True)
    if run.returncode == 0 and program(name).is_file():
        return True
    print(f"{name} is not built: {run.stderr[-2000:]}", flush=True)
    return False


def fault(name, given, expected, wrote):
    """Runs a program on a file and says how it differs from what it must print; None if it does not."""
    words = [str(program(name))]
    try:
        with open(given, "rb") as stdin:
            run = subprocess.run(words, stdin=stdin, capture_output=True, timeout=LONGEST_RUN)
    except subprocess.TimeoutExpired as late:
        run = subprocess.CompletedProcess(words, None, late.stdout or b"")
    if run.returncode is not None and run.stdout == Path(expected).read_bytes():
        return None
    if wrote:
        Path(wrote).write_bytes(run.stdout)
    endings = {0: "wrote something else", None: "did not end"}
    return endings.get(run.returncode, f"ended with status {run.returncode}")


def compare(name, cases):
    """Runs a program on (given, expected, wrote) files, prints each fault, and counts (passed, failed)."""
    if not built(name):
        return 0, len(cases)
    with ThreadPoolExecutor(os.cpu_count()) as pool:
        faults = list(pool.map(lambda case: fault(name, *case), cases))
    for (given, expected, _), what in zip(cases, faults):
        if what:
            print(f"{name} {what}: input {shown(given)}, must print {shown(expected)}", flush=True)
    failed = sum(what is not None for what in faults)
    return len(cases) - failed, failed


def shown(path):
    """A path below the repository's top."""
    return os.path.relpath(path, ROOT)


def ended(passed, failed):
    """Prints the last line and gives the exit status."""
    print(f"{passed} passed, {failed} failed", flush=True)
    return 0 if failed == 0 and passed > 0 else 1
