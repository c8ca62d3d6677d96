"""The script of `replay` and the lines that other implementations give for it, for the tools that take calls from there."""
import struct
from pathlib import Path

ROOT = Path(__file__).resolve().parent.parent

# Document 01's cord table, which calls are lent at first and after a reset (Z): within a family of four kinds the limit of the
# smaller grade, else 0; two bytes each.
LIMITS = [[35, 55, 90, 100], [80, 150, 300, 550], [500, 1000, 2000, 10000], [3, 5, 7, 10]]
ENTRIES = [LIMITS[a // 4][min(a, b) % 4] if a // 4 == b // 4 else 0 for a in range(16) for b in range(16)]
DOCUMENT_TABLE = struct.pack(">256H", *ENTRIES)


def records():
    """Letter, payload and line of each record."""
    script = (ROOT / "crates/replay/stdin").read_bytes()
    lines = iter((ROOT / "crates/replay/stdout").read_text(encoding="ascii").splitlines())
    at = 0
    while at < len(script):
        n = struct.unpack(">I", script[at + 1 : at + 5])[0]
        yield chr(script[at]), script[at + 5 : at + 5 + n], next(lines)
        at += 5 + n
