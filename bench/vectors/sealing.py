"""DES by OpenSSL (legacy provider), and over it the expansion of keys and the sealing of encrypt(2).

Written from the manual's words; it shares nothing with the proved code.
"""
import subprocess


def des(key: bytes, block: bytes) -> bytes:
    done = subprocess.run(
        ["openssl", "enc", "-des-ecb", "-nopad", "-K", key.hex(), "-provider", "legacy", "-provider", "default"],
        input=block, capture_output=True, check=True)
    return done.stdout


def expand(key: bytes) -> bytes:
    bits = "".join(f"{byte:08b}" for byte in key)
    groups = [bits[at:at + 7] for at in range(0, 56, 7)]
    return bytes(int(group + "10"[group.count("1") % 2], 2) for group in groups)


def seal(key: bytes, text: bytes) -> bytes:
    sealed = bytearray(text)
    last = len(text) - 1
    starts = [7 * i for i in range(last // 7)]
    if last % 7 != 0:
        starts.append(len(text) - 8)
    for at in starts:
        sealed[at:at + 8] = des(expand(key), bytes(sealed[at:at + 8]))
    return bytes(sealed)
