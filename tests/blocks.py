"""Where the basic blocks of some functions begin, from objdump's disassembly of a shared object.

A block begins at the entry of a function, at the target of a jump, and after a jump or a return; padding begins none.
"""
import re
import subprocess

SYMBOL = re.compile(r"^[0-9a-f]+ .{6}F \.text\S*\s+[0-9a-f]+ (?:\.hidden )?(\S+)$", re.MULTILINE)
OUTSIDE = re.compile(r"^[0-9a-f]+ .{7} \*UND\*\s+[0-9a-f]+ (\S+)$", re.MULTILINE)
ENTRY = re.compile(r"^([0-9a-f]+) <(.+)>:$")
INSTRUCTION = re.compile(r"^ *([0-9a-f]+):\t(\S.*)$")
TARGET = re.compile(r"^(?:bnd |notrack )?(?:j\w+|loop\w*) +([0-9a-f]+) <")
LEAVES = re.compile(r"^(?:bnd |notrack |repz )?(?:j\w+|loop\w*|ret\w*)\b")
PADDING = re.compile(r"^(?:(?:data16|cs) )*(?:nop\w*|int3|xchg +%ax,%ax)\b")


def objdump(*words):
    return subprocess.run(["objdump", *words], stdout=subprocess.PIPE, check=True, text=True).stdout


def functions_of(archive):
    """The names of the functions that an archive defines."""
    return set(SYMBOL.findall(objdump("-t", archive)))


def needed_by(archive):
    """The names that an archive takes from outside."""
    return set(OUTSIDE.findall(objdump("-t", archive)))


def disassembled(shared):
    """(function, address, instruction) for each instruction of a shared object."""
    function = None
    for line in objdump("-d", "--no-show-raw-insn", shared).splitlines():
        entry, instruction = ENTRY.match(line), INSTRUCTION.match(line)
        if entry:
            function = entry[2]
        elif instruction:
            yield function, int(instruction[1], 16), instruction[2]


def blocks_of(shared, functions):
    """The addresses, rising, at which the blocks of these functions begin, and the entry of each function."""
    code = [each for each in disassembled(shared) if each[0] in functions]
    entries, starts, follows = {}, set(), True
    for function, address, instruction in code:
        if function not in entries:
            entries[function] = address
            follows = True
        if follows and not PADDING.match(instruction):
            starts.add(address)
            follows = False
        target = TARGET.match(instruction)
        if target:
            starts.add(int(target[1], 16))
        follows = follows or bool(LEAVES.match(instruction))
    return sorted(starts & {address for _, address, _ in code}), entries
