#!/usr/bin/env python3
"""Computes the stack that each call of kelontsira.h needs from the compiled code, and prints it as a table. Run by firmware/check as:
stack.py HEADER DISASSEMBLY, the latter as 'objdump -dr --no-show-raw-insn' writes it. Needs nothing but Python's standard library.

Each function is followed instruction by instruction along every jump, with the bytes that the stack pointer stands below its place at
entry. It fails where that cannot be told: an indirect call or jump, recursion, a stack pointer moved by anything but a constant, two
different depths at one instruction, or a return at a depth other than 0."""
import re
import sys

OUTSIDE = ("memset", "memcpy", "memmove", "memcmp", "bcmp")
RETURN_ADDRESS = 8
RED_ZONE = 128

TITLE = re.compile(r"^([0-9a-f]+) <(.+)>:$")
RELOCATION = re.compile(r"^\s+([0-9a-f]+): (R_X86_64_\w+)\s+(\S+)$")
INSTRUCTION = re.compile(r"^\s+([0-9a-f]+):\t(.+?)\s*$")
MEMORY = re.compile(r"(-?0x[0-9a-f]+)?\(%(rsp|rbp)([,)])")
STACK_POINTER = ("%rsp", "%esp", "%sp", "%spl")


class Unknown(Exception):
    """What the program cannot tell the stack of."""


class Instruction:
    def __init__(self, address, text):
        text = re.sub(r"\s+#.*$", "", text)
        words = text.split(None, 1)
        while words[0] in ("rep", "repz", "repnz", "lock", "notrack", "bnd", "data16", "cs", "ds"):
            words = words[1].split(None, 1) if len(words) > 1 else ["nop"]
        self.address = address
        self.name = words[0]
        self.operands = re.split(r",(?![^(]*\))", words[1]) if len(words) > 1 else []
        self.relocation = None

    def last(self):
        return self.operands[-1].strip() if self.operands else ""

    def jumps(self):
        return self.name.startswith("j") or self.name.startswith("loop")


class Function:
    """A function's instructions by address, in order."""

    def __init__(self, section, name, start):
        self.section = section
        self.name = name
        self.start = start
        self.instructions = {}
        self.next = {}

    def finish(self):
        addresses = sorted(self.instructions)
        self.next = dict(zip(addresses, addresses[1:]))


def read_functions(lines):
    """The functions of a disassembly. A name stands for one function."""
    functions, current, section = {}, None, None
    for line in lines:
        title = TITLE.match(line)
        if line.endswith("file format elf64-x86-64") and functions:
            raise Unknown("the archive has more than one object file")
        if line.startswith("Disassembly of section "):
            section, current = line[len("Disassembly of section "):-1], None
        elif title:
            if title.group(2) in functions:
                raise Unknown("two functions are named " + title.group(2))
            current = Function(section, title.group(2), int(title.group(1), 16))
            functions[current.name] = current
        elif current is not None:
            read_line(current, line)
    for function in functions.values():
        function.finish()
    return functions


def read_line(function, line):
    relocation, instruction = RELOCATION.match(line), INSTRUCTION.match(line)
    if relocation:
        last = function.instructions[max(function.instructions)]
        last.relocation = relocation.group(3)
    elif instruction:
        address = int(instruction.group(1), 16)
        function.instructions[address] = Instruction(address, instruction.group(2))


def relocated(functions, function, relocation):
    """The name of the function that a relocation names, itself or by its section and place. A jump's place is counted from its end, four
    bytes on."""
    name, sign, addend = re.match(r"^(.+?)(?:([-+])0x([0-9a-f]+))?$", relocation).groups()
    place = int((sign or "+") + (addend or "0"), 16) + 4
    for other in functions.values():
        if (other.name == name and place == 0) or (other.section == name and other.start == place):
            return other.name
    if name in OUTSIDE and place == 0:
        return name
    raise Unknown("%s: a jump to %s" % (function.name, relocation))


def target_of(functions, function, instruction):
    """Where a call or jump goes: a name, or an address of the same function."""
    if not instruction.operands or instruction.last().startswith("*"):
        raise Unknown("%s: an indirect %s" % (function.name, instruction.name))
    if instruction.relocation:
        return relocated(functions, function, instruction.relocation)
    address, name = re.match(r"^([0-9a-f]+) <(.+)>$", instruction.last()).groups()
    if name.split("+0x")[0] == function.name:
        return int(address, 16)
    if "+0x" in name:
        raise Unknown("%s: a jump into %s" % (function.name, name))
    return name


def constant(function, instruction):
    text = instruction.operands[0].strip()
    if not re.match(r"^\$-?0x[0-9a-f]+$", text):
        raise Unknown("%s: the stack pointer is moved by %s" % (function.name, text))
    value = int(text[1:], 16)
    return value - (1 << 64) if value >= 1 << 63 else value


def moved(function, instruction, depth, frame):
    """The depth and the frame pointer's depth (None where it is no frame pointer) after an instruction that is no call, jump or return."""
    name, last = instruction.name.rstrip("q"), instruction.last()
    if name == "push":
        return depth + 8, frame
    if name == "pop":
        if last in STACK_POINTER:
            raise Unknown("%s: pop to the stack pointer" % function.name)
        return depth - 8, None if last == "%rbp" else frame
    if name.startswith(("push", "pop")) and not name.startswith("popcnt"):
        raise Unknown("%s: a %s" % (function.name, instruction.name))
    if name == "leave":
        if frame is None:
            raise Unknown("%s: leave without a frame" % function.name)
        return frame - 8, None
    if name.startswith("xchg") and any(o.strip() in STACK_POINTER for o in instruction.operands):
        raise Unknown("%s: the stack pointer is exchanged" % function.name)
    if last in STACK_POINTER and name not in ("cmp", "test"):
        return stack_moved(function, instruction, name, depth, frame), frame
    if last in ("%rbp", "%ebp", "%bp", "%bpl") and name not in ("cmp", "test"):
        return depth, depth if name == "mov" and instruction.operands[0].strip() == "%rsp" else None
    return depth, frame


def stack_moved(function, instruction, name, depth, frame):
    first = instruction.operands[0].strip()
    if name == "sub":
        return depth + constant(function, instruction)
    if name == "add":
        return depth - constant(function, instruction)
    if name == "and":
        return depth + -constant(function, instruction) - 8  # at worst: the stack pointer is a multiple of 8
    place = re.match(r"^(-?0x[0-9a-f]+)\(%(rsp|rbp)\)$", first)
    if name == "lea" and place and (place.group(2) == "rsp" or frame is not None):
        return (depth if place.group(2) == "rsp" else frame) - int(place.group(1), 16)
    if name == "mov" and first == "%rbp" and frame is not None:
        return frame
    raise Unknown("%s: the stack pointer is set by %s %s" % (function.name, instruction.name, ",".join(instruction.operands)))


def touched(instruction, depth, frame):
    """The deepest byte that an instruction names. Where an index is added to the offset, nothing deeper than the red zone is counted: no
    code may use what is below it."""
    deepest = 0
    for offset, base, end in MEMORY.findall(",".join(instruction.operands)):
        at = depth if base == "rsp" else frame
        if at is not None:
            place = at - int(offset or "0", 16)
            deepest = max(deepest, min(place, depth + RED_ZONE) if end == "," else place)
    return deepest


class Need:
    """Bytes below the return address: the deepest of all, the deepest at which an outside function is entered, and the red zone's share."""

    def __init__(self):
        self.bytes = 0
        self.outside = 0
        self.red = 0
        self.names = set()

    def call(self, depth, callee):
        self.bytes = max(self.bytes, depth + callee.bytes)
        if callee.names:
            self.outside = max(self.outside, depth + callee.outside)
        self.red = max(self.red, callee.red)
        self.names |= callee.names


def outside_need(name):
    need = Need()
    need.names = {name}
    return need


def need_of(functions, name, path, known):
    """The need of a function by name; `path` is the calls above it."""
    if name in OUTSIDE and name not in functions:
        return outside_need(name)
    if name not in functions:
        raise Unknown("%s is called and is not in the archive" % name)
    if name in path:
        raise Unknown("recursion: " + " -> ".join(path + [name]))
    if name not in known:
        known[name] = follow(functions, functions[name], path + [name], known)
    return known[name]


def follow(functions, function, path, known):
    need, seen, todo = Need(), {}, [(function.start, 0, None)]
    while todo:
        address, depth, frame = todo.pop()
        if address not in function.instructions:
            raise Unknown("%s: code runs past its end" % function.name)
        if address in seen:
            if seen[address][0] != depth:
                raise Unknown("%s: depths %d and %d at %x" % (function.name, seen[address][0], depth, address))
            if seen[address][1] == frame or seen[address][1] is None:
                continue
            frame = None
        seen[address] = (depth, frame)
        instruction = function.instructions[address]
        need.bytes = max(need.bytes, depth, touched(instruction, depth, frame))
        need.red = max(need.red, touched(instruction, depth, frame) - depth)
        todo += step(functions, function, instruction, depth, frame, need, path, known)
    return need


def step(functions, function, instruction, depth, frame, need, path, known):
    """The places after an instruction; calls and jumps to other functions are added to the need."""
    after = function.next.get(instruction.address)
    if instruction.name.startswith("ret"):
        if depth != 0 or instruction.operands:
            raise Unknown("%s: returns at depth %d" % (function.name, depth))
        return []
    if instruction.name in ("ud2", "hlt"):
        return []
    if instruction.name.startswith("call"):
        target = target_of(functions, function, instruction)
        if isinstance(target, int):
            raise Unknown("%s: calls itself" % function.name)
        need.call(depth + RETURN_ADDRESS, need_of(functions, target, path, known))
        return [(after, depth, frame)]
    if instruction.jumps():
        target = target_of(functions, function, instruction)
        places = [] if instruction.name.startswith("jmp") else [(after, depth, frame)]
        if isinstance(target, int):
            return places + [(target, depth, frame)]
        if depth != 0:
            raise Unknown("%s: jumps to %s at depth %d" % (function.name, target, depth))
        need.call(depth, need_of(functions, target, path, known))
        return places
    depth, frame = moved(function, instruction, depth, frame)
    need.bytes = max(need.bytes, depth)
    return [(after, depth, frame)]


def declared(header):
    """The header's calls in its order, with the bytes of arguments that a caller puts on the stack: what is left after six registers for
    numbers and pointers and eight for floats, in whole 16 bytes."""
    text = re.sub(r"/\*.*?\*/", "", header, flags=re.S)
    calls = []
    for name, arguments in re.findall(r"\b(kelontsira_\w+)\(([^)]*)\)\s*;", text):
        kinds = [a.strip() for a in arguments.split(",")]
        floats = sum(1 for a in kinds if re.match(r"^float \w+$", a))
        left = max(0, len(kinds) - floats - 6) + max(0, floats - 8)
        calls.append((name, (left * 8 + 15) // 16 * 16))
    return calls


def check_indirect(functions):
    for function in functions.values():
        for instruction in function.instructions.values():
            if (instruction.name.startswith("call") or instruction.jumps()) and instruction.last().startswith("*"):
                raise Unknown("%s: an indirect %s" % (function.name, instruction.name))


def main():
    header = open(sys.argv[1], encoding="utf-8").read()
    functions = read_functions(open(sys.argv[2], encoding="utf-8").read().splitlines())
    check_indirect(functions)
    known, red = {}, 0
    print("| call | stack | arguments | down to mem* |")
    print("|---|---|---|---|")
    for name, arguments in declared(header):
        need = need_of(functions, name, [], known)
        red = max(red, need.red)
        outside = "%d (%s)" % (need.outside + RETURN_ADDRESS, ", ".join(sorted(need.names))) if need.names else "-"
        print("| %s | %d | %d | %s |" % (name, need.bytes + RETURN_ADDRESS, arguments, outside))
    if red > RED_ZONE:
        raise Unknown("%d bytes below the stack pointer are used" % red)
    print("most bytes used below the stack pointer (the red zone): %d" % red)


try:
    main()
except Unknown as unknown:
    print("stack.py: " + str(unknown))
    sys.exit(1)
