#!/usr/bin/env python3
"""The frame program beside the Rust, on frame files of 100,000 lines.

    bench/frames/run.py [RUNS]

Each file is one of the oracle's benchmark circuits, and then its building frames
again and again: sharing finds a node for every line. Both programs answer the
same file from a file to a file, taking turns; the answers have to be equal byte
for byte. Times are the least of RUNS (5) runs, in wall-clock and in the
process's own processor time; memory is the most that it had resident.
It needs the built oracle (oracle/run --build) and the built program
(`rt run </dev/null` in crates/frames).
"""
import os
import subprocess
import sys
import tempfile
import time
from pathlib import Path

ROOT = Path(__file__).resolve().parents[2]
ORACLE = ROOT / "oracle/target/release/circuit-oracle"
FRAMES = ROOT / "crates/frames/out/frames"
LINES = 100_000
CIRCUITS = [
    ("products", 25, 4),
    ("products", 50, 4),
    ("products", 100, 4),
    ("products", 200, 4),
    ("products", 400, 4),
    ("selectors", 100, 20),
    ("selectors", 400, 20),
]


def circuit(kind, nodes, parameter):
    command = [ORACLE, "--bench-frames", kind, str(nodes), str(parameter)]
    return subprocess.run(command, check=True, capture_output=True, text=True).stdout.split()


def file_of(frames, lines):
    again = [frame for frame in frames if frame[:2] not in ("00", "09", "0a")]
    text = list(frames)
    while len(text) < lines:
        text += again
    return "".join(line + "\n" for line in text[:lines]).encode()


def run(program, given, answers):
    """Seconds on the clock, and seconds of the processor."""
    with open(given, "rb") as read, open(answers, "wb") as write:
        began = time.perf_counter()
        child = subprocess.Popen([program], stdin=read, stdout=write)
        _, status, used = os.wait4(child.pid, 0)
        took = time.perf_counter() - began
    if status:
        sys.exit(f"{program} ended with status {status}")
    return took, used.ru_utime + used.ru_stime


def resident(program, given, answers):
    """Kilobytes: looked up again and again until the program ends."""
    most = 0
    with open(given, "rb") as read, open(answers, "wb") as write:
        child = subprocess.Popen([program], stdin=read, stdout=write)
        while child.poll() is None:
            with open(f"/proc/{child.pid}/status") as status:
                words = status.read().split()
            if "VmHWM:" in words and "frames" in words[1]:
                most = max(most, int(words[words.index("VmHWM:") + 1]))
    return most


def main():
    runs = int(sys.argv[1]) if len(sys.argv) > 1 else 5
    print("circuit          nodes   Rust us/line   frames us/line   Rust/frames   (processor)")
    with tempfile.TemporaryDirectory() as work:
        given, ours, theirs = (os.path.join(work, name) for name in ("given", "ours", "theirs"))
        for kind, nodes, parameter in CIRCUITS:
            frames = circuit(kind, nodes, parameter)
            Path(given).write_bytes(file_of(frames, LINES))
            first, second = [], []
            for _ in range(runs):
                first.append(run(ORACLE, given, theirs))
                second.append(run(FRAMES, given, ours))
            if Path(ours).read_bytes() != Path(theirs).read_bytes():
                sys.exit(f"{kind} {nodes}: the answers differ")
            used = 1 + max(int(a[2:6], 16) for a in Path(ours).read_text().split() if len(a) == 6)
            rust, own = (min(t[0] for t in side) for side in (first, second))
            rust_cpu, own_cpu = (min(t[1] for t in side) for side in (first, second))
            scale = 1e6 / LINES
            print(
                f"{kind:12} {used:9} {rust * scale:14.2f} {own * scale:16.3f}"
                f" {rust / own:13.1f} {rust_cpu / own_cpu:13.1f}"
            )
        for lines in (100_000, 1_000_000, 4_000_000):
            Path(given).write_bytes(file_of(frames, lines))
            print(f"{lines} lines: {resident(FRAMES, given, ours)} KB resident")


if __name__ == "__main__":
    main()
