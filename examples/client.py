#!/usr/bin/env python3
"""Talks to tql from Python: one statement in, one line of JSON out.

Usage: examples/client.py [PROGRAM]        (./tql by default)

Each text that is sent has exactly one answer. A text without a statement would have none, one of two statements two, and one that ends in a quote
none until the quote is closed. Later answers would then belong to the wrong statements, so `ask` refuses such texts.
"""
import itertools
import json
import re
import subprocess
import sys

program = sys.argv[1] if len(sys.argv) > 1 else "./tql"
tql = subprocess.Popen([program, "--quiet", "--format", "json"], stdin=subprocess.PIPE, stdout=subprocess.PIPE, encoding="utf-8")
numbers = itertools.count(1)


def ask(statement: str) -> dict:
    """Sends one statement without its semicolon, and returns its answer."""
    outside = re.sub(r"--[^\n]*|('[^']*'|\"[^\"]*\")", lambda it: "0" if it[1] else " ", statement)
    if not outside.strip() or re.search("[;'\"]", outside):
        raise ValueError("not exactly one statement")
    tql.stdin.write(f"{statement}\n;\n")    # the line feed ends a comment
    tql.stdin.flush()
    answer = json.loads(tql.stdout.readline())
    if answer["statement"] != next(numbers):
        raise RuntimeError("the answer is that of another statement")
    return answer


print(ask("CREATE TABLE price (item INTEGER, cents INTEGER, PRIMARY KEY (item))")["reply"])
print(ask("INSERT INTO price VALUES (1, 100), (2, 250)")["count"])
print(ask("INSERT INTO price VALUES (1, 120)")["text"])
answer = ask("SELECT item, cents FROM price ORDER BY cents DESC")
print([dict(zip(answer["columns"], row)) for row in answer["rows"]])
