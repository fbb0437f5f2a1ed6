#!/usr/bin/env python3
"""The completions of bash and zsh are those that tools/completions makes of the table of options."""
import sys

from lib.program import TOP, asked, end, expect

expect("tools/completions --check", asked(sys.executable, TOP / "tools" / "completions", "--check"), (0, "", ""))
end()
