#!/usr/bin/env python3
"""Usage: cases/model.py [--write] [FOLDER..]

A plain model of the program, written from docs/SCRIPTS.md and RFC 4253 alone, by which the values of the cases are
made, those of the commands `run` and `attack` aside. It computes stdout and status of each other case below the folders
(of all cases if none is given), prints each that differs from what stands there, and ends with status 1 then. With
--write it writes them instead.
"""
import pathlib
import sys

from gen_model import summary

HERE = pathlib.Path(__file__).resolve().parent
IDS = {"client": b"SSH-2.0-sshlink_client\r\n", "server": b"SSH-2.0-sshlink_server\r\n"}
OTHER = {"client": "server", "server": "client"}
HEX = set(b"0123456789abcdefABCDEF")


class Fault(Exception):
    pass


def side(word):
    if word.decode("latin-1") not in IDS:
        raise Fault("Malformed")
    return word.decode()


def payload(word):
    if word == b"-":
        return b""
    if len(word) % 2 or not set(word) <= HEX:
        raise Fault("Malformed")
    return bytes.fromhex(word.decode())


def number(word):
    if not word.isdigit() or (len(word) > 1 and word[:1] == b"0") or int(word) >= 2**64:
        raise Fault("Malformed")
    return int(word)


def step(words):
    """What a line asks for, by its words."""
    field = {b"submit": payload, b"deliver": number}.get(words[0])
    if field is None:
        raise Fault("NotBuilt")
    if len(words) != 3:
        raise Fault("Malformed")
    return words[0].decode(), side(words[1]), field(words[2])


def steps(text):
    if len(text) > 67108864:
        raise Fault("script 0 TooLong")
    found = []
    for place, line in enumerate(text.split(b"\n"), 1):
        words = [word for word in line.removesuffix(b"\r").split(b" ") if word]
        if words and not words[0].startswith(b"#"):
            try:
                found.append(step(words))
            except Fault as fault:
                raise Fault(f"script {place} {fault}") from None
    return found


def packet(content):
    """A packet in clear (RFC 4253 section 6): a multiple of 8 bytes, its padding zeros, at least four."""
    padding = 8 - (5 + len(content)) % 8
    padding += 8 if padding < 4 else 0
    return (1 + len(content) + padding).to_bytes(4, "big") + bytes([padding]) + content + bytes(padding)


def run(text):
    """Status, and what is written."""
    try:
        todo = steps(text)
    except Fault as fault:
        return 3, f"{fault}\n"
    wire = {end: bytearray(line) for end, line in IDS.items()}
    sent = {end: [] for end in IDS}
    taken = {end: 0 for end in IDS}
    for what, end, value in todo:
        if what == "deliver":
            taken[end] += min(value, len(wire[OTHER[end]]) - taken[end])
        elif 1 <= len(value) <= 262157:
            wire[end] += packet(value)
            sent[end].append(value)
        else:
            return 1, f"refused PacketSize {len(value)}\n"
    report = ""
    for end in IDS:
        report += f"{end} wire {wire[end].hex()}\n{end} taken {taken[end]}\n"
        place = len(IDS[OTHER[end]])
        for value in sent[OTHER[end]]:
            place += len(packet(value))
            if place <= taken[end]:
                report += f"{end} delivered {value.hex()}\n"
    return 0, report


def decimal(word):
    """N, below 2^64 and without a leading zero, or nothing."""
    try:
        return number(word)
    except Fault:
        return None


def answer(case):
    """Status and text of a case: but for `run` and `attack`, only the word `clear` and `gen SEED COUNT` are commands."""
    words = (case / "args").read_bytes().removesuffix(b"\n").split(b"\n")
    if len(words) == 3 and words[0] == b"gen":
        seed, count = decimal(words[1]), decimal(words[2])
        if seed is not None and count is not None and count <= 100000:
            return 0, summary(seed, count)
    if words != [b"clear"]:
        return 2, "usage\n"
    if (case / "repeat").exists():
        count, _, text = (case / "repeat").read_text().strip().partition(" ")
        return run((text + "\n").encode() * int(count))
    return run((case / "stdin").read_bytes())


def main():
    if "--help" in sys.argv:
        print(__doc__)
        return
    folders = [pathlib.Path(word) for word in sys.argv[1:] if word != "--write"] or [HERE]
    for folder in folders:
        if not folder.is_dir():
            print("there is no folder", folder, file=sys.stderr)
            sys.exit(2)
    differ = 0
    for args in sorted(args for folder in folders for args in folder.rglob("args")):
        case = args.parent
        if args.read_bytes() in (b"run\n", b"attack\n"):
            continue
        status, text = answer(case)
        if "--write" in sys.argv:
            (case / "status").write_text(f"{status}\n")
            (case / "stdout").write_text(text)
        elif (int((case / "status").read_text()), (case / "stdout").read_text()) != (status, text):
            differ += 1
            print(f"{case} differs")
    print(f"model: {differ} differ")
    sys.exit(1 if differ else 0)


main()
