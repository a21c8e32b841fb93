#!/usr/bin/env python3
"""Times the proved gsbench side by side with ISA-L and libenet, and the proved gstrial, where these are there.

Run it at the top of the repository after `rt ci` or, in crates/gsbench and crates/gstrial, `rt run`. A round
runs each workload of gsbench once and the peers once, one after another; of all rounds the best figure counts.
A workload is run with two counts, and the difference is taken, so that starting the process and making
its bytes aren't counted. A second table has whole runs of gstrial: the least seconds of all rounds, and the most
memory that a run held. Nothing is written but in temporary folders.

The peers are two small programs, isal_bench and enet_bench, that print lines such as
`isal_encode_73_15: 2767.433 MB/s`. `--peers FOLDER`, or SPEED_PEERS in the environment, names the
folder in which they stand, or one with their sources isal_bench.c and enet_bench.c: then they are
built in a temporary folder over libisal-dev and libenet-dev. What is missing is said, and left out.

On a machine that does other work too, `--processor` counts the processor's seconds in place of the
clock's: those of gsbench and gstrial, and of isal_bench if the folder has its source, which is then built with the
process's own clock.
"""
import argparse
import os
import pathlib
import platform
import re
import resource
import shutil
import subprocess
import sys
import tempfile
import time

CRATES = pathlib.Path(__file__).resolve().parent.parent / "crates"
PROGRAM = CRATES / "gsbench/out/gsbench"
TRIAL = CRATES / "gstrial/out/gstrial"
LEN = 1376  # bytes of a shard
MOST = (1 << 20) - 1  # turns: in some workloads a turn is a frame, and one turn more is made than these
LIBRARIES = {"isal_bench": ["-lisal"], "enet_bench": ["-lenet", "-lpthread"]}
UNITS = {"GB/s": 1e9, "MB/s": 1e6, "messages/s": 1.0}

# name of the row, words before the count, bytes of data each time or None where the program says it, and the peer's
# line or None
CODES = [(73, 15), (212, 43), (8, 2)]
WORKLOADS = [("mul_add", ["mul_add", LEN], LEN, "isal_mul_add")]
for d, p in CODES:
    WORKLOADS.append((f"encode {d} + {p}", ["encode", d, p, LEN], d * LEN, f"isal_encode_{d}_{p}"))
    WORKLOADS.append((f"restore {p} of {d}", ["restore", d, p, LEN, p], d * LEN, f"isal_restore_rows_known_{d}_{p}"))
# rows of messages and not of bytes: two peers joined in memory, beside two over loopback, which pay for sockets too
BATCHES = [1, 64]
COUNTED = {f"messages by {b}" for b in BATCHES}
for b in BATCHES:
    WORKLOADS.append((f"messages by {b}", ["messages", b], 1, f"enet_loopback_batches_of_{b}"))
# a frame split, and received with nothing lost and with one datagram of twenty lost
FRAME = [1392, 20, 41_000]
WORKLOADS.append(("split", ["split", *FRAME], FRAME[2], None))
WORKLOADS.append(("receive", ["receive", *FRAME, 0], FRAME[2], None))
WORKLOADS.append(("receive, 1 of 20 lost", ["receive", *FRAME, 20], FRAME[2], None))
WORKLOADS.append(("take", ["take", *FRAME, 0], FRAME[2], None))
WORKLOADS.append(("take, 1 of 20 lost", ["take", *FRAME, 20], FRAME[2], None))
# a capture file of generated ticks, read from memory, where its ticks are dropped, and where eight hold each
TICKS = 60
WORKLOADS.append((f"read {TICKS} ticks", ["tape", 7, TICKS], None, None))
WORKLOADS.append(("the same, eight hold", ["tape_held", 7, TICKS], None, None))
# rows of calls: choices of a session that loses frames; calls of one cell and reads of one capture, by threads together
WORKLOADS.append(("choose", ["choose"], 1, None))
for n in [1, 4]:
    WORKLOADS.append((f"turns of {n}", ["turns", n], n, None))
for n in [1, 4]:
    WORKLOADS.append((f"views of {n}", ["views", n], n, None))
# cores of clients that are made, each of which takes a datagram: what a session costs its client to open
WINDOWS = [1, 4]
MADE = {f"new, window {n}" for n in WINDOWS}
for n in WINDOWS:
    WORKLOADS.append((f"new, window {n}", ["new", *FRAME[:2], n], 1, None))
COUNTED |= {"choose", "turns of 1", "turns of 4", "views of 1", "views of 4"}
# datagrams that a schedule of gstrial delivers line by line, of so many a frame
SINGLES = 60_000
TOGETHER = [100, 1]
# sessions that a run only opens: what one costs is the difference between two such runs
OPENED = [1, 8]
SHORT_RUNS = 50  # of each in a round, since they take a millisecond or two


def clock():
    return time.perf_counter()


def processor():
    used = resource.getrusage(resource.RUSAGE_CHILDREN)
    return used.ru_utime + used.ru_stime


def size_of(words):
    """The bytes of data each time, as the program says."""
    text = subprocess.run([PROGRAM, *map(str, words), "1"], capture_output=True, text=True, check=True).stdout
    return int(text.split()[-1])


def seconds(words, now):
    begin = now()
    subprocess.run([PROGRAM, *map(str, words)], stdout=subprocess.DEVNULL, check=True)
    return now() - begin


def count_for(words, least, now):
    """A count that takes about as many seconds, where that is no more than MOST."""
    count = 1
    while (took := seconds([*words, count], now)) < least / 4 and count < MOST:
        count = min(4 * count, MOST)
    return min(MOST, max(1, int(count * least / took)))


def peers_in(folder, built, own_clock):
    """The programs of a folder, built first where only their sources are there, or with the process's own clock."""
    found = []
    for name, libraries in LIBRARIES.items():
        program, source = folder / name, folder / f"{name}.c"
        if own_clock and name == "isal_bench" and source.is_file():
            text = source.read_text().replace("CLOCK_MONOTONIC", "CLOCK_PROCESS_CPUTIME_ID")
            program, source = built / "none", built / f"{name}.c"
            source.write_text(text)
        if program.is_file():
            found.append(program)
        elif source.is_file():
            words = ["cc", "-O2", "-o", built / name, source, *libraries]
            if shutil.which("cc") and subprocess.run(words, stderr=subprocess.DEVNULL).returncode == 0:
                found.append(built / name)
            else:
                print(f"{name}: not built (cc, {' '.join(libraries)}), so left out")
        else:
            print(f"{name}: not in {folder}, so left out")
    return found


def peer_figures(program):
    text = subprocess.run([program], capture_output=True, text=True, check=True).stdout
    return {name: float(n) * UNITS[unit] for name, n, unit in re.findall(r"(\w+): ([\d.]+) (\S+)", text)}


def time_workloads(args):
    now = processor if args.processor else clock
    if not PROGRAM.exists():
        print(f"{PROGRAM} is missing, so left out: run `rt run` in crates/gsbench")
        return
    best, peers = {}, {}
    with tempfile.TemporaryDirectory() as built:
        programs = peers_in(pathlib.Path(args.peers), pathlib.Path(built), args.processor) if args.peers else []
        if not args.peers:
            print("no peers: name their folder by --peers or SPEED_PEERS")
        workloads = [(name, given, size or size_of(given), line) for name, given, size, line in WORKLOADS]
        counts = {name: count_for(given, args.seconds, now) for name, given, _, _ in workloads}
        for _ in range(args.rounds):
            for name, given, size, _ in workloads:
                more = seconds([*given, counts[name] + 1], now) - seconds([*given, 1], now)
                best[name] = max(best.get(name, 0), counts[name] * size / more)
            for program in programs:
                for line, figure in peer_figures(program).items():
                    peers[line] = max(peers.get(line, 0), figure)
    unit = "processor second" if args.processor else "second"
    print(f"{platform.machine()}, shards of {LEN} bytes, best of {args.rounds} rounds, MB of data a {unit}")
    print(f"{'workload':<24}{'gsbench':>10}{'peer':>10}{'ratio':>8}")
    for name, _, _, line in WORKLOADS:
        if name in MADE:
            continue
        peer = peers.pop(line, None)
        digits = 2 if name in COUNTED else 0
        rest = f"{peer / 1e6:>10.{digits}f}{best[name] / peer:>8.2f}" if peer else f"{'-':>10}{'-':>8}"
        print(f"{name:<24}{best[name] / 1e6:>10.{digits}f}{rest}")
    for name in sorted(MADE):
        print(f"{name:<24}{1e6 / best[name]:>10.2f} microseconds a call")
    print("messages, choices, turns and views: millions a second, of all threads together")
    print("the peer's messages go through the system's sockets, those of gsbench stay in memory")


def generated_schedule(ticks):
    """The lines that stand for what `make` does over its generated ticks."""
    lines = ["session 1392 20 2"] * 2
    for tick in range(1, ticks + 1):
        key = "keydown" if tick % 2 else "keyup"
        lines += ["cap", "send 1", "send 2", f"{key} 1 65 0", "pump 1 50", "pump 2 50"]
    return lines + ["close 1", "pump 1 0", "close 2", "pump 2 0"]


def handed_bytes(words):
    """The bytes of each unit that a run hands in its first session."""
    text = subprocess.run([TRIAL, *map(str, words)], capture_output=True, text=True, check=True).stdout
    return [int(line.split()[4]) for line in text.splitlines() if line.startswith("hand 1 ")]


def videos_schedule(units):
    """The lines that deliver all video of each frame by one line, and by `pump` what the sides write alone."""
    lines, first = ["session 1392 20 2"] * 2, 1
    for number, unit in enumerate(units, 1):
        data = -(-(8 + unit) // LEN)
        last = first + data + max(2, -(-data * 20 // 100)) - 1
        key = "keydown" if number % 2 else "keyup"
        lines += ["cap", "send 1", "send 2", f"{key} 1 65 0"]
        lines += [f"videos 1 {first} {last}", "pump 1 1", f"videos 2 {first} {last}", "pump 2 1"]
        first = last + 1
    return lines + ["close 1", "pump 1 1", "close 2", "pump 2 1"]


def write_singles(path, ticks, together):
    """Writes a capture file of ticks with one IDR unit each, which goes out as so many datagrams.

    It is written tick by tick: a run's most memory counts what this program holds when it begins the run.
    """
    unit = bytes(1_008 * together - 8)
    tick = b"T" + bytes(6) + len(unit).to_bytes(4, "little") + unit
    with path.open("wb") as tape:
        tape.write(b"GSTAPE01" + bytes([0, 0, 5, 0]))
        for _ in range(ticks):
            tape.write(tick)
        tape.write(b"E")


def single_schedule(ticks, together):
    """Each of those ticks is sent, and each datagram of it delivered by a line."""
    lines = ["session 1024 0 0"]
    for tick in range(ticks):
        lines += ["cap", "send 1", *(f"video 1 {together * tick + k}" for k in range(1, together + 1))]
    return lines


def scripted(folder, name, lines):
    """The words that run these lines over the capture file of that name."""
    schedule = folder / f"{name} schedule"
    schedule.write_text("".join(line + "\n" for line in lines))
    return ["script", "brief", folder / name, schedule]


def trial_runs(folder):
    """The rows of gstrial and their words, with the files that they want in a folder."""
    yield "make 7 600", ["make", 7, 600]
    yield "make 7 2000", ["make", 7, 2_000]
    for ticks in [600, 2_000]:
        with (folder / f"{ticks}").open("wb") as tape:
            subprocess.run([TRIAL, "tape", "7", f"{ticks}"], stdout=tape, check=True)
        yield f"script, {ticks} generated ticks", scripted(folder, f"{ticks}", generated_schedule(ticks))
        whole = ["pump 1 0" if line == "pump 1 50" else line for line in generated_schedule(ticks)]
        (folder / f"{ticks} videos").symlink_to(folder / f"{ticks}")
        units = handed_bytes(scripted(folder, f"{ticks} videos", whole))
        yield f"the same by `videos` lines, {ticks}", scripted(folder, f"{ticks} videos", videos_schedule(units))
    for together in TOGETHER:
        name = f"singles {together}"
        write_singles(folder / name, SINGLES // together, together)
        lines = single_schedule(SINGLES // together, together)
        row = f"{SINGLES} lines video 1 K, {together} a frame" if together > 1 else f"{SINGLES} ticks of three lines"
        yield row, scripted(folder, name, lines)
    write_singles(folder / "none", 0, 1)
    for sessions in OPENED:
        yield f"{sessions} opened", scripted(folder, "none", ["session 1024 0 0"] * sessions)


def whole_run(words, by_processor):
    """The seconds that a run of gstrial takes, and the most memory that it holds, in MB."""
    begin = clock()
    process = subprocess.Popen([TRIAL, *map(str, words)], stdout=subprocess.DEVNULL)
    _, status, used = os.wait4(process.pid, 0)
    took = clock() - begin
    process.returncode = os.waitstatus_to_exitcode(status)
    if process.returncode != 0:
        sys.exit(f"gstrial {' '.join(map(str, words))}: status {process.returncode}")
    return used.ru_utime + used.ru_stime if by_processor else took, used.ru_maxrss * 1024 / 1e6


def time_trial(args):
    if not TRIAL.exists():
        print(f"{TRIAL} is missing, so left out: run `rt run` in crates/gstrial")
        return
    best = {}
    with tempfile.TemporaryDirectory() as name:
        runs = list(trial_runs(pathlib.Path(name)))
        for _ in range(args.rounds):
            for row, words in runs:
                for _ in range(SHORT_RUNS if row.endswith(" opened") else 1):
                    took, held = whole_run(words, args.processor)
                    least, most = best.get(row, (took, held))
                    best[row] = min(least, took), max(most, held)
    unit = "processor seconds" if args.processor else "seconds"
    print(f"gstrial, a whole run: the least {unit} of {args.rounds} rounds, and the most memory in MB")
    for row, (took, held) in best.items():
        print(f"{row:<36}{took:>10.3f}{held:>10.1f}")
    few, many = (best[f"{sessions} opened"][0] for sessions in OPENED)
    print(f"a session that is opened: {(many - few) / (OPENED[1] - OPENED[0]) * 1e6:.0f} microseconds")


def main():
    words = argparse.ArgumentParser(description=__doc__.splitlines()[0])
    words.add_argument("--peers", default=os.environ.get("SPEED_PEERS"), help="folder of the peers or their sources")
    words.add_argument("--rounds", type=int, default=10)
    words.add_argument("--seconds", type=float, default=0.1, help="of each run of a workload")
    words.add_argument("--processor", action="store_true", help="count the processor's seconds, not the clock's")
    args = words.parse_args()
    time_workloads(args)
    time_trial(args)


if __name__ == "__main__":
    main()
