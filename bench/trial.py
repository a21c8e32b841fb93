#!/usr/bin/env python3
"""Times the proved gstrial on captures and schedules that deliver every frame.

Run it at the top of the repository after `rt ci` or, in crates/gstrial, `rt run`. For each size it
makes a capture file and a schedule of about that many bytes in a temporary folder, runs the program
several times, and prints the least wall time, and that less the time of a run with nothing to do, so
that starting the process isn't counted.
"""
import pathlib
import subprocess
import sys
import tempfile
import time

PROGRAM = pathlib.Path(__file__).resolve().parent.parent / "crates/gstrial/out/gstrial"
SIZES = [7_500, 15_000, 30_000, 60_000]
RUNS = 201
UNIT = 14  # bytes of an IDR unit; a tick is 11 bytes more


def capture(ticks):
    out = bytearray(b"GSTAPE01" + (0).to_bytes(2, "little") + bytes([5, 0]))
    for tick in range(ticks):
        out += b"T" + (tick * 16).to_bytes(4, "little") + bytes([0, 0])
        out += UNIT.to_bytes(4, "little") + bytes((tick + i) % 251 for i in range(UNIT))
    return bytes(out + b"E")


def schedule(ticks, size):
    lines = ["session 1024 0 0"]
    lines += [line for t in range(1, ticks + 1) for line in ("cap", "send 1", f"video 1 {t}")]
    text = "\n".join(lines) + "\n"
    number = 0
    while len(text) < size - 16:  # the rest are repeats, which change nothing
        text += f"video 1 {number % ticks + 1}\n"
        number += 1
    return text.encode()


def least_ms(folder, tape, steps):
    tape_file, steps_file = folder / "tape", folder / "schedule"
    tape_file.write_bytes(tape)
    steps_file.write_bytes(steps)
    words = [PROGRAM, "script", "bytes", tape_file, steps_file]
    text_file = folder / "text"
    times = []
    for _ in range(RUNS):
        with text_file.open("wb") as text:
            begin = time.perf_counter()
            subprocess.run(words, stdout=text, check=True)
            times.append((time.perf_counter() - begin) * 1000)
    return min(times), text_file.read_bytes()


def main():
    if not PROGRAM.exists():
        sys.exit(f"{PROGRAM} is missing: run `rt run` in crates/gstrial first")
    with tempfile.TemporaryDirectory() as name:
        folder = pathlib.Path(name)
        start, _ = least_ms(folder, capture(0), b"")
        print(f"start of the process: {start:.2f} ms")
        for size in SIZES:
            ticks = size // (UNIT + 11)
            tape, steps = capture(ticks), schedule(ticks, size)
            whole, text = least_ms(folder, tape, steps)
            handed = sum(line.startswith(b"hand ") for line in text.split(b"\n"))
            print(
                f"{len(tape)} bytes of capture, {len(steps)} of schedule, {handed} frames handed: "
                f"{whole:.2f} ms, {whole - start:.2f} ms without the start"
            )


if __name__ == "__main__":
    main()
