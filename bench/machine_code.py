"""Usage: bench/machine_code.py PROGRAM..
Lists what the machine code of AES and GHASH jumps and loads by, in programs that are built over ssh_aes.

A function is followed instruction by instruction, along every jump. Loaded is what was read from memory, moved out of a
vector, or passed as a polynomial, and all that is computed of it. Pointers and lengths that a caller passed aren't, nor
is what the stack keeps of these. Listed are the conditional jumps, the loads and stores at an index, and those of both
that depend on something loaded. These are allowed by `REASONS` alone. This reads what the compiler made, and proves
nothing: what a function became that was inlined into another crate's isn't looked at, and an instruction may take more
or less time by what it works on."""

import re
import subprocess
import sys

# How many jumps and indexes of a function may depend on something loaded, and what that is. Each has to be found.
REASONS = {
    "ssh_aes::blocks::is_same": (0, "all bytes of a tag are compared"),
    "ssh_aes::cbc::unchain": (4, "the number of rounds, which the key's length gives"),
    "ssh_aes::encryption::encrypt": (0, "the number of rounds is passed in a register"),
    "ssh_aes::hash::hash_after": (1, "whether the key was prepared for long texts"),
    "ssh_aes::stream::mask_from": (3, "the number of rounds, which the key's length gives"),
}

# The registers in which a function is passed a polynomial.
PASSED = {
    "ssh_aes::factors::Factor::new": ["rsi", "rdx"],
    "ssh_aes::factors::Factor::product": ["rsi", "rdx"],
    "ssh_aes::hash::hash_after": ["rsi", "rdx"],
    "ssh_aes::hash::ones_after": ["rsi", "rdx"],
}

NAMES = {}
for names in (
    ["rax eax ax al ah", "rbx ebx bx bl bh", "rcx ecx cx cl ch", "rdx edx dx dl dh", "rsi esi si sil", "rdi edi di dil",
     "rbp ebp bp bpl", "rsp esp sp spl"] + [f"r{i} r{i}d r{i}w r{i}b" for i in range(8, 16)]):
    for name in names.split():
        NAMES[name] = names.split()[0]

PLAIN = {"mov", "movabs", "movzx", "movsx", "movsxd", "lea", "bswap"}
SUMS = {"add", "sub", "and", "or", "xor", "adc", "sbb", "imul", "shl", "shr", "sar", "sal", "rol", "ror", "shld", "shrd",
        "inc", "dec", "neg", "not"}
STACK = re.compile(r"\[rsp([+-]0x[0-9a-f]+)?\]")


def functions_of(program):
    """The functions of ssh_aes in a program, each as its instructions: place, name and operands."""
    written = subprocess.run(["objdump", "-d", "--no-show-raw-insn", "-M", "intel", program],
                             capture_output=True, text=True, check=True).stdout
    found, name = {}, None
    for line in written.splitlines():
        head = re.match(r"[0-9a-f]+ <(.*)>:$", line)
        if head:
            name = head.group(1)
            continue
        one = re.match(r"\s+([0-9a-f]+):\s+(\S+)\s*(.*?)\s*(?:#.*)?$", line)
        if one and name and name.startswith("ssh_aes::"):
            place, word, rest = one.groups()
            if "nop" in word or "nop" in rest.split() or (word, rest) == ("xchg", "ax,ax"):
                word, rest = "nop", ""
            found.setdefault(name, []).append((int(place, 16), word, re.split(r",(?![^\[]*\])", rest) if rest else []))
    return found


def registers(text):
    return [NAMES[word] for word in re.findall(r"[a-z0-9]+", text.split("<")[0]) if word in NAMES]


class State:
    """Which registers and flags depend on something loaded, and which places of the stack keep what doesn't."""

    def __init__(self, loaded=(), kept=()):
        self.loaded, self.kept = set(loaded), set(kept)

    def joined(self, other):
        return State(self.loaded | other.loaded, self.kept & other.kept)

    def same(self, other):
        return self.loaded == other.loaded and self.kept == other.kept

    def reads(self, operand):
        """Whether an operand that is read depends on something loaded."""
        if "[" in operand:
            place = STACK.search(operand)
            return not (place and (place.group(1) or "+0x0") in self.kept) and "rip" not in operand
        if operand.startswith(("xmm", "ymm")):
            return True
        return any(name in self.loaded for name in registers(operand))

    def address(self, operand):
        """Whether the address of an operand depends on something loaded."""
        return "[" in operand and any(name in self.loaded for name in registers(operand[operand.index("["):]))

    def put(self, operand, depends):
        if "[" in operand:
            place = STACK.search(operand)
            if place and "QWORD" in operand and not depends:
                self.kept.add(place.group(1) or "+0x0")
            elif place:
                self.kept.discard(place.group(1) or "+0x0")
            return
        for name in registers(operand):
            (self.loaded.add if depends else self.loaded.discard)(name)

    def after(self, word, operands):
        """The state after an instruction."""
        now = State(self.loaded, self.kept)
        first, rest = (operands or [""])[0], (operands or [""])[1:]
        if word == "nop":
            return now
        if word in ("cmp", "test", "bt", "ptest", "comisd", "ucomisd"):
            now.put_flags(any(map(self.reads, operands)))
        elif word == "xor" and rest == [first]:
            now.put(first, False)
            now.put_flags(False)
        elif word == "lea":
            now.put(first, any(name in self.loaded for name in registers(rest[0])))
        elif word in PLAIN:
            written = word == "mov" and "[" in first and not registers(rest[0])
            now.put(first, written or any(map(self.reads, rest or [first])))
        elif word in SUMS:
            depends = any(map(self.reads, operands))
            now.put(first, depends)
            now.put_flags(depends)
        elif word in ("mul", "div"):
            depends = self.reads(first) or "rax" in self.loaded
            for name in ("rax", "rdx"):
                now.put(name, depends)
            now.put_flags(depends)
        elif word.startswith("cmov"):
            now.put(first, "flags" in self.loaded or any(map(self.reads, operands)))
        elif word.startswith("set"):
            now.put(first, "flags" in self.loaded)
        elif word == "call":
            depends = not re.search(r"<mem(cpy|move|set)@plt>", first)
            for name in ("rax", "rdx"):
                now.put(name, depends)
        elif word == "pop":
            now.put(first, False)
        elif word not in ("push", "ret", "jmp", "leave") and not word.startswith("j"):
            now.put(first, True)
        return now

    def put_flags(self, depends):
        (self.loaded.add if depends else self.loaded.discard)("flags")


def listed(name, code):
    """How many conditional jumps and indexes a function has, and which of them depend on something loaded."""
    at = {place: index for index, (place, _, _) in enumerate(code)}
    states, waiting = {0: State(PASSED.get(name, ()))}, [0]
    while waiting:
        index = waiting.pop()
        _, word, operands = code[index]
        after = states[index].after(word, operands)
        following = [] if word in ("ret", "jmp", "ud2") else [index + 1]
        if word.startswith("j"):
            target = re.match(r"[0-9a-f]+", operands[0])
            following += [at[int(target.group(), 16)]] if target and int(target.group(), 16) in at else []
        for other in following:
            if other >= len(code):
                continue
            joined = states[other].joined(after) if other in states else after
            if other not in states or not joined.same(states[other]):
                states[other] = joined
                waiting.append(other)
    jumps = indexes = 0
    depends = []
    for index, state in sorted(states.items()):
        place, word, operands = code[index]
        if word.startswith("j") and word != "jmp":
            jumps += 1
            if "flags" in state.loaded:
                depends.append((place, word, operands))
        elif word != "lea":
            indexes += any(re.search(r"\[\w+\+r\w+\*", operand) for operand in operands)
            anywhere = word in ("jmp", "call") and "<" not in operands[0] and state.reads(operands[0])
            if anywhere or any(map(state.address, operands)):
                depends.append((place, word, operands))
    return jumps, indexes, depends


def main(programs):
    if programs in ([], ["--help"]):
        print(__doc__)
        return 0 if programs else 2
    status = 0
    print(f"{'function':56}{'jumps':>6}{'indexes':>8}{'loaded':>8}")
    seen = {}
    for program in programs:
        for name, code in functions_of(program).items():
            seen.setdefault(name, listed(name, code))
    for name in (REASONS.keys() | PASSED.keys()) - seen.keys():
        status = 1
        print(f"{name}: not in the programs, so this looked at too little")
    for name, (jumps, indexes, depends) in sorted(seen.items()):
        allowed, reason = REASONS.get(name, (0, ""))
        print(f"{name:56}{jumps:6}{indexes:8}{len(depends):8}  {reason}")
        if len(depends) > allowed:
            status = 1
            for place, word, operands in depends:
                print(f"    depends on something loaded: {place:x} {word} {','.join(operands)}")
    return status


if __name__ == "__main__":
    sys.exit(main(sys.argv[1:]))
