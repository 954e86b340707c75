#!/usr/bin/env python3
"""Reads the lines that `z80dev explain --json` prints on standard input, and prints them as `explain` does without --json, without the lines
of the sources. Ends with an error if a line is not an object with just the members of docs/FORMATS.md, in their order and of their types."""

import json
import sys

MEMBERS = {
    "column": (int, type(None)),
    "line": (int, type(None)),
    "name": (str,),
    "notes": (list,),
    "path": (str, type(None)),
    "severity": (str,),
    "text": (str,),
}


def read(line):
    found = json.loads(line)
    if list(found) != list(MEMBERS) or any(type(found[name]) not in types for name, types in MEMBERS.items()):
        sys.exit(f"not a message: {line}")
    if len({found[name] is None for name in ("path", "line", "column")}) > 1 or found["severity"] not in ("error", "warning", "note"):
        sys.exit(f"not the place or the severity of a message: {line}")
    for note in found["notes"]:
        if list(note) != ["kind", "text"] or note["kind"] not in ("help", "note") or type(note["text"]) is not str:
            sys.exit(f"not a note: {line}")
    return found


for line in sys.stdin:
    it = read(line)
    place = "" if it["path"] is None else f"{it['path']}:{it['line']}:{it['column']}: "
    name = f" [{it['name']}]" if it["name"] else ""
    print(f"{place}{it['severity']}: {it['text']}{name}")
    for note in it["notes"]:
        print(f"  {note['kind']}: {note['text']}")
