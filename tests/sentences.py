#!/usr/bin/env python3
"""Each definition that contracts cite, and each clause of the top call, has a comment that says it."""
import sys

from lib.program import TOP, asked, end, wrong

answer = asked(sys.executable, TOP / "tools" / "definitions", "--check")
if answer.status:
    wrong(answer.out + answer.err)
end()
