#!/usr/bin/env python3
"""Fresh random circuits through the project's `frames` and through the Rust.

    oracle/differential.py FIRST COUNT [--themes T,T..] [--frames PROGRAM]
                           [--replay PROGRAM | --no-dumps]

COUNT circuits of each theme, numbered from FIRST; a number is a seed. The
oracle grows each circuit inside document 01's domain (docs/REQUESTS.md: counts
over the columns of both rows), so every frame of it is accepted, and `frames`
must answer each byte for byte alike. The same circuits with their sums, and
with every reading of every node, go through `replay` (but for towers, some of
whose walks are longer than the list that it lends).

The first disagreement is shrunk, as far as document 01 (check.py) goes on
accepting every frame, and printed; the exit status is then 1.

It needs the built oracle (`oracle/run --build`) and the built programs
(`rt run </dev/null` in crates/frames, `rt run -- data/examples.txt` in
crates/replay).
"""
import argparse
import concurrent.futures
import pathlib
import subprocess
import sys
import tempfile

HERE = pathlib.Path(__file__).resolve().parent
ORACLE = HERE / "target/release/circuit-oracle"
CRATES = HERE.parent / "crates"
THEMES = ["building", "single", "dual", "again", "large", "towers"]
CHUNK = 250


def main():
    options = arguments()
    cases = frames = 0
    with concurrent.futures.ThreadPoolExecutor(2) as pool:
        for theme in options.themes.split(","):
            in_theme = 0
            for first in range(options.first, options.first + options.count, CHUNK):
                count = min(CHUNK, options.first + options.count - first)
                circuits = generated(theme, first, count)
                wrong = pool.map(lambda c: disagreement(options.frames, c), circuits)
                for circuit, at in zip(circuits, wrong):
                    if at is not None:
                        report(options.frames, theme, circuit)
                in_theme += len(circuits)
                frames += sum(len(calls) for _, calls in circuits)
                if options.replay and theme != "towers":
                    replayed(options.replay, theme, first, count)
            cases += in_theme
            print(f"{theme}: {in_theme} circuits, no disagreement", flush=True)
    dumps = " and in every reading of their dumps" if options.replay else ""
    print(f"all: {cases} circuits, {frames} frames, equal byte for byte{dumps}")


def arguments():
    parser = argparse.ArgumentParser()
    parser.add_argument("first", type=int)
    parser.add_argument("count", type=int)
    parser.add_argument("--themes", default=",".join(THEMES))
    parser.add_argument("--frames", default=str(CRATES / "frames/out/frames"))
    parser.add_argument("--replay", default=str(CRATES / "replay/out/replay"))
    parser.add_argument("--no-dumps", dest="replay", action="store_const", const="")
    return parser.parse_args()


def generated(theme, first, count):
    """The circuits of one chunk: (number, [(frame, the Rust's answer)])."""
    command = [ORACLE, "--generate", theme, str(first), str(count), "frames"]
    text = subprocess.run(command, capture_output=True, check=True, text=True).stdout
    circuits = []
    for line in text.splitlines():
        if line[0] == "c":
            circuits.append((int(line[1:], 16), []))
        elif line[0] == ">":
            circuits[-1][1].append((line[1:], None))
        elif line[0] == "<":
            calls = circuits[-1][1]
            calls[-1] = (calls[-1][0], line[1:])
    return circuits


def answers(program, frames):
    given = "".join(frame + "\n" for frame in frames).encode()
    return subprocess.run(program, input=given, capture_output=True).stdout.decode().split("\n")


def disagreement(program, circuit):
    """Where the program's answers leave the Rust's, if they do."""
    calls = circuit[1]
    ours = answers([program], [frame for frame, _ in calls])
    for at, (_, theirs) in enumerate(calls):
        if at >= len(ours) or ours[at] != theirs:
            return at
    return None if ours[len(calls):] == [""] else len(calls)


def differ(program, frames):
    """Do the answers differ, though document 01 accepts every frame?"""
    second = answers([sys.executable, HERE / "check.py", "--frames"], frames)
    if not all(answer.startswith("00") for answer in second[:-1]):
        return False
    return answers([program], frames) != answers([ORACLE], frames)


def shrunk(program, frames):
    """As few frames as leaving out some can give."""
    size = len(frames) // 2
    while size:
        at = 0
        while at < len(frames):
            fewer = frames[:at] + frames[at + size:]
            if differ(program, fewer):
                frames = fewer
            else:
                at += size
        size //= 2
    return frames


def report(program, theme, circuit):
    number, calls = circuit
    frames = shrunk(program, [frame for frame, _ in calls])
    print(f"{theme} {number}: {len(calls)} frames disagree, shrunk to {len(frames)}:")
    print(f"{'frame':52}{'frames':24}the Rust")
    for frame, ours, theirs in zip(frames, answers([program], frames), answers([ORACLE], frames)):
        print(f"{frame:52}{ours:24}{theirs}{'' if ours == theirs else '   <-'}")
    sys.exit(1)


def replayed(program, theme, first, count):
    """The dumps of the chunk, read anew by the project's own calls."""
    with tempfile.TemporaryDirectory() as folder:
        command = [ORACLE, "--generate", theme, str(first), str(count)]
        with open(f"{folder}/{theme}.txt", "w") as file:
            subprocess.run(command, check=True, stdout=file)
        done = subprocess.run([program, f"{theme}.txt"], cwd=folder, capture_output=True, text=True)
        if done.returncode or ", 0 differ" not in done.stdout:
            print(done.stdout + done.stderr)
            print(f"{theme} {first}..{first + count - 1}: replay disagrees")
            sys.exit(1)


if __name__ == "__main__":
    main()
