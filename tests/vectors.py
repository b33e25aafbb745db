#!/usr/bin/env python3
"""Runs the built programs on every file of tests/vectors and compares what they print on standard output."""

import sys

import programs


def run():
    """The counts over all vectors of the programs that are listed."""
    passed = failed = 0
    listed = programs.listed()
    for group in sorted((programs.ROOT / "tests" / "vectors").iterdir()):
        for folder in sorted(group.iterdir()):
            if folder.name not in listed:
                print(f"vectors {group.name} {folder.name}: left out, it is not in crates.txt", flush=True)
                continue
            cases = [(path, path.with_suffix(".out"), None) for path in sorted(folder.glob("*.in"))]
            good, bad = programs.compare(folder.name, cases)
            print(f"vectors {group.name} {folder.name}: {good} passed, {bad} failed", flush=True)
            passed, failed = passed + good, failed + bad
    return passed, failed


if __name__ == "__main__":
    sys.exit(programs.ended(*run()))
