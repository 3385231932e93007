#!/usr/bin/env python3
"""Conditional jumps and conditional moves in the compiled functions of an archive.

    python3 tools/conditional_jumps.py ARCHIVE               # how many each function has
    python3 tools/conditional_jumps.py ARCHIVE FUNCTION      # each jump, after the instruction that it depends on

FUNCTION is the name that the first form prints. Needs objdump (binutils).
"""
import re
import subprocess
import sys

FUNCTION = re.compile(r"^[0-9a-f]+ <(.+)>:$")
INSTRUCTION = re.compile(r"^ *([0-9a-f]+):\t(\S+) *([^#<]*)")
# Those of the compiled functions that say whether a jump is taken.
SETS_FLAGS = re.compile(r"(adc|add|and|bt|cmp|dec|imul|inc|neg|or|sar|sbb|shl|shr|sub|test|xor)[bwlq]?")


def instructions_by_function(archive):
    """For each function its instructions: offset, name and operands."""
    text = subprocess.run(
        ["objdump", "-d", "-C", "--no-show-raw-insn", archive], check=True, capture_output=True, text=True
    ).stdout
    functions = {}
    for line in text.splitlines():
        named, step = FUNCTION.match(line), INSTRUCTION.match(line)
        if named:
            instructions = functions.setdefault(named[1], [])
        elif step:
            instructions.append((step[1], step[2], step[3].strip()))
    return functions


def is_conditional_jump(name):
    return name.startswith("j") and not name.startswith("jmp")


def print_counts(functions):
    print("| function | instructions | conditional jumps | conditional moves |")
    print("|---|---|---|---|")
    for function, instructions in functions.items():
        names = [name for _, name, _ in instructions]
        jumps = sum(map(is_conditional_jump, names))
        moves = sum(name.startswith("cmov") for name in names)
        print(f"| {function} | {len(names)} | {jumps} | {moves} |")


def print_jumps(instructions):
    decides = ""
    for offset, name, operands in instructions:
        if SETS_FLAGS.fullmatch(name):
            decides = f"{name} {operands}"
        elif is_conditional_jump(name):
            print(f"{offset:>5}  {decides:<28} {name} {operands}")


def main():
    if len(sys.argv) not in (2, 3):
        sys.exit(__doc__)
    functions = instructions_by_function(sys.argv[1])
    if len(sys.argv) == 2:
        print_counts(functions)
    elif sys.argv[2] in functions:
        print_jumps(functions[sys.argv[2]])
    else:
        sys.exit(f"no function {sys.argv[2]}; there are: {', '.join(functions)}")


main()
