#!/usr/bin/env bash
# Usage: bench/clear.sh
# Makes scripts of 1, 4, 16 and 64 MB (the last just under the limit of 67108864 bytes), runs `sshlink clear`
# on each, and prints bytes, seconds of processor time, peak memory and what each is for a byte of script. Needs python3.
set -eu
# shellcheck source=bench/begin.sh
. "$(dirname "$0")/begin.sh"
[ -x crates/sshlink/out/sshlink ] || ./sshlink --prove
python3 - crates/sshlink/out/sshlink <<'PYTHON'
import random, sys, tempfile

from measuring import least

MEGABYTE = 1 << 20


def lines(size):
    """Payloads of several lengths, each side taking what waits in pieces."""
    draw = random.Random(1)
    left = size
    while True:
        payload = draw.randbytes(draw.choice([1, 3, 20, 200, 2000])).hex()
        sides = [draw.choice(["client", "server"]) for _ in range(2)]
        line = f"submit {sides[0]} {payload}\ndeliver {sides[1]} {draw.randrange(2 * len(payload) + 40)}\n"
        if len(line) > left:
            break
        left -= len(line)
        yield line
    yield "#" * (left - 1) + "\n" if left else ""


print(f"{'bytes':>10} {'seconds':>8} {'ns a byte':>10} {'peak bytes':>11} {'peak a byte':>12}")
for size in [MEGABYTE, 4 * MEGABYTE, 16 * MEGABYTE, 64 * MEGABYTE - 1]:
    with tempfile.NamedTemporaryFile("w") as script:
        script.writelines(lines(size))
        script.flush()
        _, seconds, peak = least([sys.argv[1], "clear"], script.name)
    print(f"{size:>10} {seconds:>8.3f} {seconds / size * 1e9:>10.1f} {peak:>11} {peak / size:>12.2f}")
PYTHON
