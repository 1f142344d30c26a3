#!/usr/bin/env python3
"""A client of `tophat json`: shows the page of seat 1, and sets the first empty editor of ints to a number.

    docs/client.py PROGRAM FILE NUMBER
"""
import json
import subprocess
import sys

program, file, number = sys.argv[1:]
tophat = subprocess.Popen([program, "json", file], stdin=subprocess.PIPE, stdout=subprocess.PIPE, text=True, encoding="utf-8")


def ask(line):
    """Writes a line, and reads the answer to it. Python's numbers hold each int."""
    print(json.dumps(line), file=tophat.stdin, flush=True)
    return json.loads(tophat.stdout.readline())


page = ask({"seat": 1, "show": True})
path = next(it["path"] for it in page["widgets"] if it["kind"] == "enter" and it["type"] == "int")
print(ask({"seat": 1, "path": path, "act": "set", "value": int(number)}))
print(next(it for it in ask({"seat": 1, "show": True})["widgets"] if it["path"] == path and it["kind"] == "edit"))
tophat.stdin.close()
sys.exit(tophat.wait())
