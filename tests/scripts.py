#!/usr/bin/env python3
"""shellcheck finds nothing in shell scripts, and Python scripts parse as Python 3.8.

Needs: for shell scripts shellcheck
"""
import ast
import re

from lib.program import TOP, asked, end, has, wrong

FOLDERS = ("tools", "tests", "examples", "share", ".ci")
shell, python = [], []
for folder in FOLDERS:
    for path in sorted((TOP / folder).rglob("*")):
        if path.is_file() and "__pycache__" not in path.parts:
            with open(path, "rb") as file:
                first = file.readline()
            if re.match(rb"#!/bin/(ba)?sh|#!/usr/bin/env bash", first):
                shell.append(path)
            elif first.startswith(b"#!/usr/bin/env python3") or path.suffix == ".py":
                python.append(path)
print(f"{len(shell)} shell scripts, {len(python)} Python scripts")
for path in python:
    try:
        ast.parse(path.read_text(encoding="utf-8"), str(path), feature_version=(3, 8))
    except SyntaxError as fault:
        wrong(f"{path.relative_to(TOP)}: {fault}")
if has("shellcheck", "shell scripts aren't looked at"):
    answer = asked("shellcheck", *shell)
    if answer.status:
        wrong(answer.out + answer.err)
end()
