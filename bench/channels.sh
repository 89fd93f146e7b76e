#!/usr/bin/env bash
# Usage: bench/channels.sh
# Writes 1, 4 and 16 megabytes to channels of a client, and lets the server read them: over one channel and over 1,000,
# under windows of 1 MiB and of 32 KiB. A script has room for no more than 32. It prints the bytes, seconds of processor
# time, nanoseconds a byte, how the time grows by four times the load, and the peak of memory a byte. Where valgrind is
# installed, it prints the instructions a byte too, what a link takes for payloads of as many bytes, and what is left.
# Scripts and reports are hexadecimal digits, and reading and writing these is in the numbers. Needs rt (once, to build
# crates/sshlink and crates/sshmux) and python3.
set -eu
# shellcheck source=bench/begin.sh
. "$(dirname "$0")/begin.sh"
build sshlink sshmux
python3 - crates/sshlink/out/sshlink crates/sshmux/out/sshmux <<'PYTHON'
import pathlib, sys, tempfile

from measuring import instructions, least, shown

sshlink, sshmux = sys.argv[1:]
LARGEST = 32768
MEGABYTE = 1 << 20


def channels_script(file, total, channels, window):
    """Each channel is opened. Then, until all is written, as much is written to each as its window takes, and is read."""
    each = total // channels
    with file.open("w") as script:
        print(f"window server {window} {LARGEST}", *["open client"] * channels, "settle", sep="\n", file=script)
        gone = 0
        while gone < each:
            count = min(window, each - gone)
            written = "61" * count
            for channel in range(channels):
                print(f"write client {channel} {written}", file=script)
            print("settle", file=script)
            for channel in range(channels):
                print(f"read server {channel} {count}", file=script)
            gone += count
        print("settle", file=script)
    return each * channels


def link_script(file, total):
    """The same number of bytes as payloads of a link."""
    payload = "5e" + "61" * (LARGEST - 1)
    file.write_text("\n".join([*[f"submit client {payload}"] * (total // LARGEST), "settle", ""]))


print(f"{'channels':>8}{'window':>9}{'bytes':>10}{'seconds':>9}{'ns a byte':>10}{'growth':>8}{'peak a byte':>12}{'instructions':>13}{'link':>7}{'rest':>7}")
with tempfile.TemporaryDirectory() as room:
    script = pathlib.Path(room) / "script"
    link_script(script, MEGABYTE)
    link = instructions([sshlink, "run"], script)
    link = None if link is None else link / MEGABYTE
    for channels in (1, 1000):
        for window in (MEGABYTE, LARGEST):
            before = None
            for total in (MEGABYTE, 4 * MEGABYTE, 16 * MEGABYTE):
                written = channels_script(script, total, channels, window)
                _, seconds, peak = least([sshmux, "channels"], script)
                counted = instructions([sshmux, "channels"], script) if total == MEGABYTE else None
                each = None if counted is None else counted / written
                rest = None if each is None or link is None else each - link
                growth = None if before is None else seconds / before
                print(
                    f"{channels:8}{window:9}{written:10}{seconds:9.3f}{seconds / written * 1e9:10.1f}{shown(growth, '.2f'):>8}"
                    f"{peak / written:12.2f}{shown(each):>13}{shown(link if each else None):>7}{shown(rest):>7}"
                )
                before = seconds
PYTHON
