#!/usr/bin/env bash
# Usage: bench/power.sh
# Raises numbers to powers modulo 2^n - 1 by exponents of n bits, all set, for some lengths n: by ssh_power, by OpenSSL's
# BN_mod_exp, and by Python's pow. Prints the milliseconds of processor time that one power takes, making the modulus
# included. Needs rt (once, to build crates/speed_power), OpenSSL's library and python3.
set -eu
# shellcheck source=bench/begin.sh
. "$(dirname "$0")/begin.sh"
build speed_power
python3 - crates/speed_power/out/speed_power <<'PYTHON'
import ctypes, ctypes.util, resource, subprocess, sys, time

program = sys.argv[1]
crypto = ctypes.CDLL(ctypes.util.find_library("crypto"))
for name in ("BN_new", "BN_CTX_new", "BN_bin2bn"):
    getattr(crypto, name).restype = ctypes.c_void_p
crypto.BN_bin2bn.argtypes = [ctypes.c_char_p, ctypes.c_int, ctypes.c_void_p]
crypto.BN_mod_exp.argtypes = [ctypes.c_void_p] * 5
crypto.BN_bn2bin.argtypes = [ctypes.c_void_p, ctypes.c_char_p]


def children():
    return resource.getrusage(resource.RUSAGE_CHILDREN).ru_utime


def ssh_power(length, count):
    """The last byte of the last of so many powers, and the milliseconds of one."""
    start = children()
    written = subprocess.run([program, str(length), str(count)], check=True, capture_output=True).stdout
    return int(written), 1000 * (children() - start) / count


def openssl(length, count):
    modulus = crypto.BN_bin2bn(b"\xff" * length, length, None)
    power = crypto.BN_bin2bn(b"\7", 1, None)
    context = crypto.BN_CTX_new()
    start = time.process_time()
    for _ in range(count):
        if crypto.BN_mod_exp(power, power, modulus, modulus, context) != 1:
            sys.exit("BN_mod_exp failed")
    taken = 1000 * (time.process_time() - start) / count
    written = ctypes.create_string_buffer(length)
    size = crypto.BN_bn2bin(power, written)
    return written.raw[size - 1], taken


def python(length, count):
    modulus = 256**length - 1
    power = 7
    start = time.process_time()
    for _ in range(count):
        power = pow(power, modulus, modulus)
    return power % 256, 1000 * (time.process_time() - start) / count


print(f"{'bits':>5}{'ssh_power':>12}{'openssl':>12}{'python':>12}   milliseconds a power")
for length, count in ((128, 40), (256, 20), (512, 4), (1024, 2)):
    found = [way(length, count) for way in (ssh_power, openssl, python)]
    if len({last for last, _ in found}) != 1:
        sys.exit(f"{8 * length} bits: the powers differ: {found}")
    print(f"{8 * length:5}" + "".join(f"{taken:12.2f}" for _, taken in found))
PYTHON
