"""The runner's lines for a recording on standard input."""

import sys

import coding

sys.stdout.write(coding.runner_lines(sys.stdin.buffer.read()))
