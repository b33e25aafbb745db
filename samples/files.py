#!/usr/bin/env python3
"""Table and plan files as text, and back.

  files.py write < TEXT > FILE   makes a table or plan file, or a replay's input, from text
  files.py show < FILE           prints a table or plan file as text
  files.py make                  makes every file of this folder again from its .txt

The text has a line for each field, in the order of the file:

  cores 2              the core count
  6 10 10              a task: cost, deadline, period
  0 1 whole 6          a piece: task, core, whole or share (or a kind's number), cost
  bytes 01 00          any bytes, as they are
  tick -2 +0 +1        a replay's tick: task 2 finished, tasks 0 and 1 released
  # ..                 a comment

Nothing is checked: files that a reader must refuse are written as well. A text with ticks makes a
replay's input, which begins with the length of its plan file.
"""
import os
import struct
import sys

KINDS = ["whole", "share"]


def field(tag, body):
    return bytes([tag]) + struct.pack(">H", len(body)) + body


def tick(words):
    finished = [int(w[1:]) for w in words if w.startswith("-")]
    released = [int(w[1:]) for w in words if w.startswith("+")]
    return bytes([len(finished), *finished, len(released), *released])


def write(text):
    fields, ticks, replays = b"", b"", False
    for line in text.splitlines():
        words = line.split("#")[0].split()
        if not words:
            continue
        if words[0] == "cores":
            fields += field(1, bytes([int(words[1])]))
        elif words[0] == "bytes":
            fields += bytes.fromhex("".join(words[1:]))
        elif words[0] == "tick":
            ticks, replays = ticks + tick(words[1:]), True
        elif len(words) == 3:
            fields += field(2, struct.pack(">III", *map(int, words)))
        else:
            task, core, kind, cost = words
            kind = KINDS.index(kind) if kind in KINDS else int(kind)
            fields += field(3, struct.pack(">BBBI", int(task), int(core), kind, int(cost)))
    return struct.pack(">H", len(fields)) + fields + ticks if replays else fields


def show(data):
    lines, at = [], 0
    while at < len(data):
        tag, length = data[at], int.from_bytes(data[at + 1 : at + 3], "big")
        body = data[at + 3 : at + 3 + length]
        if len(data) < at + 3 + length or {1: 1, 2: 12, 3: 7}.get(tag) != length:
            lines.append("bytes " + data[at:].hex(" "))
            break
        if tag == 1:
            lines.append("cores %d" % body[0])
        elif tag == 2:
            lines.append("%d %d %d" % struct.unpack(">III", body))
        else:
            task, core, kind, cost = struct.unpack(">BBBI", body)
            lines.append("%d %d %s %d" % (task, core, KINDS[kind] if kind < 2 else kind, cost))
        at += 3 + length
    return "".join(line + "\n" for line in lines)


def make(folder):
    for name in sorted(os.listdir(folder)):
        if name.endswith(".txt"):
            path = os.path.join(folder, name)
            with open(path) as text, open(path[: -len(".txt")], "wb") as out:
                out.write(write(text.read()))


if __name__ == "__main__":
    command = sys.argv[1] if len(sys.argv) == 2 else ""
    if command == "write":
        sys.stdout.buffer.write(write(sys.stdin.read()))
    elif command == "show":
        sys.stdout.write(show(sys.stdin.buffer.read()))
    elif command == "make":
        make(os.path.dirname(os.path.abspath(__file__)))
    else:
        sys.exit(__doc__)
