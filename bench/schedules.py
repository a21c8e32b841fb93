#!/usr/bin/env python3
"""Runs the proved gstrial over a table of schedules and compares text, status and the line on standard error.

    bench/schedules.py [--program PROGRAM]

PROGRAM is crates/gstrial/out/gstrial where it is left out (made by `rt run` or `rt ci`). Nothing is written but in a
folder of its own that is removed. The status is 1 where a schedule differs.
"""

import argparse
import pathlib
import struct
import subprocess
import sys
import tempfile

ROOT = pathlib.Path(__file__).resolve().parent.parent
PROGRAM = ROOT / "crates/gstrial/out/gstrial"
OPEN = "session 1024 0 0"


def capture(ticks, audio=0):
    """A capture file: (IDR unit, units against earlier ticks by their numbers, audio units) for each tick."""
    out = b"GSTAPE01" + struct.pack("<HBB", audio, 5, 0)
    for idr, deltas, sounds in ticks:
        out += b"T" + struct.pack("<IBBI", 0, len(sounds), len(deltas), len(idr)) + idr
        for named, unit in deltas:
            out += struct.pack("<II", named, len(unit)) + unit
        out += b"".join(sounds)
    return out + b"E"


def chained(count):
    """Ticks with units of 4 bytes against each of the eight before."""
    return [(b"idr--", [(n, b"unit") for n in range(max(1, t - 8), t)], []) for t in range(1, count + 1)]


TAPES = {
    "one": capture([(b"ABC", [], [])]),
    "large": capture([(bytes(10_000), [], [])]),
    "pairs": capture([(bytes(1_500), [], [])] * 2),
    "chain": capture(chained(8)),
    "sound": capture([(b"", [], [b"\1", b"\0", b"\0", b"\0"])], audio=1),
    "sounds": capture([(b"", [], [bytes([unit]) for unit in b"abcdefghijkl"])], audio=1),
    "choir": capture([(b"", [], [bytes([unit]) for unit in b"abcdefghijkl"])] * 3_642, audio=1),
    "long": capture([(b"idr", [], [])] * 300),
    "fives": capture([(bytes(1_500), [], [])] * 5),
    "many": capture([(b"ABC", [], [])] * 65_537),
    "cut": capture([(b"ABC", [], [])])[:-1] + b"T" + bytes(6) + b"\5\0\0\0DEF",
    "behind": capture([(b"ABC", [], [])]) + b"E",
}

# what a schedule over a capture file writes, and how it ends
RUNS = [
    ("the smallest", "bytes", "one", [OPEN, "cap", "send 1", "video 1 1"],
     ["sent 1 1 2 1 0", "hand 1 1 2 3", "ABC", "total 1 1 1 0 0 0", "ok"], 0, ""),
    ("nothing", "bytes", "one", [], ["ok"], 0, ""),
    ("comments and empty lines", "brief", "one", ["# a comment", "", OPEN], ["total 1 0 0 0 0 0", "ok"], 0, ""),
    ("a repeated shard counts once", "brief", "large", ["session 1024 20 0", "cap", "send 1", "videos 1 1 9", "video 1 9"],
     ["sent 1 1 2 1 0", "total 1 1 0 0 0 0", "ok"], 0, ""),
    ("parity stands for a lost shard", "brief", "large",
     ["session 1024 20 0", "cap", "send 1", "videos 1 1 9", "video 1 11"],
     ["sent 1 1 2 1 0", "hand 1 1 2 10000", "total 1 1 1 0 0 0", "ok"], 0, ""),
    ("a frame is left", "brief", "pairs",
     [OPEN, "cap", "send 1", "cap", "send 1", "video 1 1", "video 1 3", "video 1 2", "video 1 4"],
     ["sent 1 1 2 1 0", "sent 1 2 2 2 0", "ask 1 1 1", "hand 1 2 2 1500", "total 1 2 1 1 0 0", "ok"], 0, ""),
    ("a frame comes late in a window of two", "brief", "pairs",
     [OPEN + " 2", "cap", "send 1", "cap", "send 1", "video 1 1", "video 1 3", "video 1 2", "video 1 4"],
     ["sent 1 1 2 1 0", "sent 1 2 2 2 0", "hand 1 1 2 1500", "hand 1 2 2 1500", "total 1 2 2 0 0 0", "ok"], 0, ""),
    ("a re-entry", "brief", "chain",
     [OPEN, "cap", "send 1", "video 1 1", "cap", "send 1", "cap", "send 1", "video 1 3", "cap", "send 1", "video 1 4",
      "up 1 3", "cap", "send 1", "video 1 5"],
     ["sent 1 1 2 1 0", "hand 1 1 2 5", "sent 1 2 1 2 1", "sent 1 3 1 3 2", "ask 1 2 2", "sent 1 4 1 4 3",
      "invalid 1 2 2", "sent 1 5 5 5 1", "hand 1 5 5 4", "total 1 5 2 1 0 0", "ok"], 0, ""),
    ("a reset", "brief", "chain",
     [OPEN, "cap", "send 1", "video 1 1", "reset 1", "cap", "send 1", "video 1 2", "up 1 3", "cap", "send 1", "video 1 3"],
     ["sent 1 1 2 1 0", "hand 1 1 2 5", "reset 1", "sent 1 2 1 2 1", "idr 1", "sent 1 3 2 3 0", "hand 1 3 2 5",
      "total 1 3 2 0 0 0", "ok"], 0, ""),
    ("an orderly close", "brief", "one", [OPEN, "keydown 1 65 0", "close 1", "pump 1 0"],
     ["input 1 2 keydown 65 0", "closed 1", "total 1 0 0 0 1 0", "ok"], 0, ""),
    ("messages out of order", "brief", "one",
     [OPEN, "keydown 1 65 0", "keyup 1 65 0", "up 1 4", "up 1 3", "up 1 3", "up 1 4"],
     ["input 1 2 keydown 65 0", "input 1 2 keyup 65 0", "total 1 0 0 0 2 0", "ok"], 0, ""),
    ("a full window", "brief", "one", [OPEN] + ["keydown 1 65 0"] * 257, ["full 1 2", "total 1 0 0 0 0 0", "ok"], 0, ""),
    ("audio by its parity", "brief", "sound", [OPEN, "cap", "send 1", "audio 1 5", "audio 1 6", "audio 1 2", "audio 1 3"],
     ["sent 1 1 2 1 0", "play 1 0 1", "play 1 1 1", "play 1 2 1", "play 1 3 1", "total 1 1 0 0 0 4", "ok"], 0, ""),
    ("every event", "brief", "one",
     [OPEN, "keydown 1 -1 255", "keyup 1 32767 0", "move 1 -32768 5", "at 1 1 2 3 4", "press 1 1", "release 1 5",
      "scroll 1 -120", "idr 1", "pump 1 0"],
     ["input 1 2 keydown -1 255", "input 1 2 keyup 32767 0", "input 1 3 move -32768 5", "input 1 3 at 1 2 3 4",
      "input 1 3 press 1", "input 1 3 release 5", "input 1 3 scroll -120", "idr 1", "total 1 0 0 0 7 0", "ok"], 0, ""),
    ("eight sessions", "brief", "one", [OPEN] * 8 + ["cap"] + [f"send {s}" for s in range(1, 9)] + ["pump 8 0"],
     [f"sent {s} 1 2 1 0" for s in range(1, 9)] + ["hand 8 1 2 3"]
     + [f"total {s} 1 {int(s == 8)} 0 0 0" for s in range(1, 9)] + ["ok"], 0, ""),
    ("a peer is lost", "brief", "one", [OPEN, "keydown 1 65 0"] + ["time 60000"] * 14,
     ["lost 1", "total 1 0 0 0 0 0", "ok"], 0, ""),
    ("what a line did before its fault stands", "bytes", "one", [OPEN, "cap", "send 1", "video 1 1", "video 1 2"],
     ["sent 1 1 2 1 0", "hand 1 1 2 3", "ABC"], 9, "schedule: line 5"),
    ("a capture file that is cut, read by a line", "bytes", "cut", [OPEN, "cap", "send 1", "video 1 1", "cap"],
     ["sent 1 1 2 1 0", "hand 1 1 2 3", "ABC"], 4, "tape: kind 6 at 40"),
    ("the same, read behind the lines", "bytes", "cut", [OPEN, "cap", "send 1", "video 1 1"],
     ["sent 1 1 2 1 0", "hand 1 1 2 3", "ABC"], 4, "tape: kind 6 at 40"),
    ("a byte behind the end", "brief", "behind", [OPEN, "cap", "cap"], [], 4, "tape: kind 7 at 27"),
]

# a session of frames of two datagrams each, of which so many are sent
def halves(window, count):
    return [f"{OPEN} {window}"] + ["cap", "send 1"] * count


def halves_sent(count):
    return [f"sent 1 {frame} 2 {frame} 0" for frame in range(1, count + 1)]


def given(line, count):
    """So many lines, each told before a channel's window of 256 is full."""
    lines = []
    for first in range(0, count, 250):
        lines += [line] * min(250, count - first) + ["pump 1 0"]
    return lines


IDRS = given("idr 1", 29_999)
ALL_SENT = [f"sent 1 {frame} 2 {frame} 0" for frame in range(1, 65_538)]
LOST = [OPEN, "keydown 1 65 0"] + ["time 60000"] * 14
SENT_MANY = [OPEN, "cap", "send 1", "video 1 1"] + ["cap", "send 1"] * 65_536
MANY_TEXT = [ALL_SENT[0], "hand 1 1 2 3", *ALL_SENT[1:]]

RUNS += [
    ("a window of one leaves a frame at the next", "brief", "fives",
     halves(1, 2) + ["video 1 1", "video 1 3"] + ["video 1 2", "video 1 4"],
     halves_sent(2) + ["ask 1 1 1", "hand 1 2 2 1500", "total 1 2 1 1 0 0", "ok"], 0, ""),
]
for w in [2, 3, 4]:
    RUNS += [
        (f"a window of {w} waits for the oldest frame", "brief", "fives",
         halves(w, w) + [f"video 1 {2 * f - 1}" for f in range(1, w + 1)] + ["video 1 4", "video 1 2"],
         halves_sent(w) + ["hand 1 1 2 1500", "hand 1 2 2 1500", f"total 1 {w} 2 0 0 0", "ok"], 0, ""),
        (f"a window of {w} leaves a frame when it is full", "brief", "fives",
         halves(w, w + 1) + ["video 1 1", "video 1 3", "video 1 4"]
         + [f"video 1 {2 * f - 1}" for f in range(3, w + 2)] + ["video 1 2"],
         halves_sent(w + 1) + ["ask 1 1 1", "hand 1 2 2 1500", f"total 1 {w + 1} 1 1 0 0", "ok"], 0, ""),
    ]

EVENTS = ["keydown {} -32768 255", "keyup {} 65 0", "move {} 1 -2", "at {} 1 2 3 4", "press {} 5", "release {} 1",
          "scroll {} 32767"]
for event in EVENTS:
    line, word = event.format(1), event.split()[0]
    channel = 2 if word.startswith("key") else 3
    RUNS.append((f"the event {word} alone", "brief", "one", [OPEN, line, "up 1 3"],
                 [f"input 1 {channel} {event.replace('{} ', '')}", "total 1 0 0 0 1 0", "ok"], 0, ""))

RUNS += [
    ("a session alone", "brief", "one", [OPEN], ["total 1 0 0 0 0 0", "ok"], 0, ""),
    ("a tick alone", "brief", "one", ["cap"], ["ok"], 0, ""),
    ("time alone", "brief", "one", ["time 0"], ["ok"], 0, ""),
    ("a turn with no tick", "brief", "one", [OPEN, "send 1"], ["total 1 0 0 0 0 0", "ok"], 0, ""),
    ("a turn with no newer tick", "brief", "one", [OPEN, "cap", "send 1", "send 1"],
     ["sent 1 1 2 1 0", "total 1 1 0 0 0 0", "ok"], 0, ""),
    ("a pump with nothing", "brief", "one", [OPEN, "pump 1 0"], ["total 1 0 0 0 0 0", "ok"], 0, ""),
    ("a request for an IDR frame alone", "brief", "one", [OPEN, "idr 1", "up 1 3"],
     ["idr 1", "total 1 0 0 0 0 0", "ok"], 0, ""),
    ("a close alone", "brief", "one", [OPEN, "close 1"], ["total 1 0 0 0 0 0", "ok"], 0, ""),
    ("a close that is told", "brief", "one", [OPEN, "close 1", "up 1 3"], ["closed 1", "total 1 0 0 0 0 0", "ok"], 0, ""),
    ("a reset alone", "brief", "one", [OPEN, "reset 1"], ["reset 1", "total 1 0 0 0 0 0", "ok"], 0, ""),
    ("videos of one", "brief", "one", [OPEN, "cap", "send 1", "videos 1 1 1"],
     ["sent 1 1 2 1 0", "hand 1 1 2 3", "total 1 1 1 0 0 0", "ok"], 0, ""),
    ("a message acknowledged makes room", "brief", "one",
     [OPEN] + ["keydown 1 65 0"] * 256 + ["up 1 3", "down 1 2", "keydown 1 65 0"],
     ["input 1 2 keydown 65 0", "total 1 0 0 0 1 0", "ok"], 0, ""),
    ("a message past a gap isn't acknowledged", "brief", "one", [OPEN] + ["keydown 1 65 0"] * 256 + ["up 1 4", "down 1 2"],
     [], 9, "schedule: line 259"),
    ("and makes no room", "brief", "one", [OPEN] + ["keydown 1 65 0"] * 256 + ["up 1 4", "keydown 1 65 0"],
     ["full 1 2", "total 1 0 0 0 0 0", "ok"], 0, ""),
    ("a full window for requests", "brief", "one", [OPEN] + ["idr 1"] * 257, ["full 1 1", "total 1 0 0 0 0 0", "ok"], 0, ""),
    ("audio of three blocks with losses", "bytes", "sounds",
     [OPEN, "cap", "send 1", *(f"audio 1 {k}" for k in [1, 2, 6, 7, 5, 8, 8, 11, 12, 9, 16, 17, 18, 14])],
     ["sent 1 1 2 1 0", *(f"play 1 {u} 1\n{'abcdefghijkl'[u]}" for u in [0, 1, 4, 5, 6, 7, 8, 9, 10, 11]),
      "total 1 1 0 0 0 10", "ok"], 0, ""),
    ("two sessions, one of which loses", "brief", "pairs",
     [OPEN] * 2 + ["cap", "send 1", "send 2"] * 2 + ["video 1 1", "video 2 1", "video 2 2", "video 1 3", "video 2 3",
      "video 1 4", "video 2 4"],
     ["sent 1 1 2 1 0", "sent 2 1 2 1 0", "sent 1 2 2 2 0", "sent 2 2 2 2 0", "hand 2 1 2 1500", "ask 1 1 1",
      "hand 1 2 2 1500", "hand 2 2 2 1500", "total 1 2 1 1 0 0", "total 2 2 2 0 0 0", "ok"], 0, ""),
    ("two sessions, one of which is lost", "brief", "one",
     [OPEN] * 2 + ["keydown 1 65 0"] + ["time 60000"] * 14 + ["cap", "send 2", "video 2 1", "keydown 2 65 0", "up 2 3"],
     ["lost 1", "sent 2 1 2 1 0", "hand 2 1 2 3", "input 2 2 keydown 65 0", "total 1 0 0 0 0 0", "total 2 1 1 0 1 0", "ok"],
     0, ""),
    ("a lost client is handed frames", "brief", "one", LOST + ["cap", "send 1", "video 1 1"],
     ["lost 1", "sent 1 1 2 1 0", "hand 1 1 2 3", "total 1 1 1 0 0 0", "ok"], 0, ""),
    ("the last moment", "brief", "one", ["time 60000"] * 66_666 + ["time 40000"], ["ok"], 0, ""),
    ("a moment above the last", "brief", "one", ["time 60000"] * 66_666 + ["time 40000", "time 1"], [], 9,
     "schedule: line 66668"),
    ("the oldest datagram that may be named", "brief", "many", SENT_MANY + ["video 1 2"],
     MANY_TEXT + ["hand 1 2 2 3", "total 1 65537 2 0 0 0", "ok"], 0, ""),
    ("a datagram that is too old", "brief", "many", SENT_MANY + ["video 1 1"], MANY_TEXT, 9,
     f"schedule: line {len(SENT_MANY) + 1}"),
    ("the oldest up that may be named", "brief", "one", [OPEN] + ["down 1 1"] * 65_536 + ["up 1 3"],
     ["total 1 0 0 0 0 0", "ok"], 0, ""),
    ("an up that is too old", "brief", "one", [OPEN] + ["down 1 1"] * 65_536 + ["up 1 2"], [], 9, "schedule: line 65538"),
    ("the 30,000th message", "brief", "one", [OPEN] + given("keydown 1 65 0", 30_000),
     ["input 1 2 keydown 65 0"] * 30_000 + ["total 1 0 0 0 30000 0", "ok"], 0, ""),
    ("the 30,001st message", "brief", "one", [OPEN] + given("keydown 1 65 0", 30_000) + ["keydown 1 65 0"],
     ["input 1 2 keydown 65 0"] * 30_000, 9, f"schedule: line {len(given('', 30_000)) + 2}"),
    ("the 30,001st ask", "brief", "many",
     [OPEN] + IDRS + ["cap", "send 1"] * 5 + ["video 1 1", "video 1 3", "video 1 5"],
     ["idr 1"] * 29_999 + ALL_SENT[:5] + ["hand 1 1 2 3", "ask 1 2 2", "hand 1 3 2 3"], 9,
     f"schedule: line {len(IDRS) + 14}"),
]

# 30,000 messages on a channel, of which the last 256 fill its window
FULL_KEYS = [OPEN] + given("keydown 1 65 0", 29_744) + ["keydown 1 65 0"] * 256
FULL_IDRS = [OPEN] + given("idr 1", 29_744) + ["idr 1"] * 256
KEYS_TOLD = ["input 1 2 keydown 65 0"] * 29_744
FIVE_SENT = [OPEN] + IDRS + ["cap", "send 1"] * 5
FIVE_TOLD = ["idr 1"] * 29_999 + ALL_SENT[:5]
# 3,642 ticks with 18 audio datagrams each
SOUNDS_SENT = [OPEN] + ["cap", "send 1"] * 3_642

RUNS += [
    ("a datagram that is too old, of several", "brief", "many", SENT_MANY + ["videos 1 1 1"], MANY_TEXT, 9,
     f"schedule: line {len(SENT_MANY) + 1}"),
    ("a pump meets a datagram that is too old", "brief", "many", [OPEN] + ["cap", "send 1"] * 65_537 + ["pump 1 0"],
     ALL_SENT, 9, f"schedule: line {2 * 65_537 + 2}"),
    ("a pump leaves out all that is too old", "brief", "many", [OPEN] + ["cap", "send 1"] * 65_537 + ["pump 1 1"],
     ALL_SENT + ["total 1 65537 0 0 0 0", "ok"], 0, ""),
    ("an audio datagram that is too old", "brief", "choir", SOUNDS_SENT + ["audio 1 20"],
     [f"sent 1 {frame} 2 {frame} 0" for frame in range(1, 3_643)], 9, f"schedule: line {len(SOUNDS_SENT) + 1}"),
    ("the oldest down that may be named", "brief", "one", [OPEN, "keydown 1 65 0"] + ["up 1 3"] * 65_536 + ["down 1 2"],
     ["input 1 2 keydown 65 0", "total 1 0 0 0 1 0", "ok"], 0, ""),
    ("a down that is too old", "brief", "one", [OPEN, "keydown 1 65 0"] + ["up 1 3"] * 65_536 + ["down 1 1"],
     ["input 1 2 keydown 65 0"], 9, "schedule: line 65539"),
    ("several datagrams, of which the last wasn't sent", "brief", "one", [OPEN, "cap", "send 1", "videos 1 1 2"],
     ["sent 1 1 2 1 0", "hand 1 1 2 3"], 9, "schedule: line 4"),
    ("a reset of a lost client", "brief", "one", LOST + ["reset 1"], ["lost 1"], 9, f"schedule: line {len(LOST) + 1}"),
    ("a full window where 30,000 were given", "brief", "one", FULL_KEYS + ["keydown 1 65 0"],
     KEYS_TOLD + ["full 1 2", "total 1 0 0 0 29744 0", "ok"], 0, ""),
    ("the same for requests", "brief", "one", FULL_IDRS + ["idr 1"],
     ["idr 1"] * 29_744 + ["full 1 1", "total 1 0 0 0 0 0", "ok"], 0, ""),
    ("the 30,001st request by a reset, while the window is full", "brief", "one", FULL_IDRS + ["reset 1"],
     ["idr 1"] * 29_744, 9, f"schedule: line {len(FULL_IDRS) + 1}"),
    ("the 30,001st request", "brief", "one", [OPEN] + given("idr 1", 30_000) + ["idr 1"], ["idr 1"] * 30_000, 9,
     f"schedule: line {len(given('', 30_000)) + 2}"),
    ("the 30,001st request by a reset", "brief", "one", [OPEN] + given("idr 1", 30_000) + ["reset 1"], ["idr 1"] * 30_000,
     9, f"schedule: line {len(given('', 30_000)) + 2}"),
    ("the 30,001st message of the last channel", "brief", "one", [OPEN] + given("press 1 1", 30_000) + ["press 1 1"],
     ["input 1 3 press 1"] * 30_000, 9, f"schedule: line {len(given('', 30_000)) + 2}"),
    ("the 30,001st ask, by several datagrams", "brief", "many", FIVE_SENT + ["videos 1 1 1", "videos 1 3 3", "videos 1 5 5"],
     FIVE_TOLD + ["hand 1 1 2 3", "ask 1 2 2", "hand 1 3 2 3"], 9, f"schedule: line {len(FIVE_SENT) + 3}"),
    ("the 30,001st ask, by a pump", "brief", "many", FIVE_SENT + ["pump 1 2"],
     FIVE_TOLD + ["hand 1 1 2 3", "ask 1 2 2", "hand 1 3 2 3"], 9, f"schedule: line {len(FIVE_SENT) + 1}"),
]

# lines that can't be run behind a session, a tick, and a frame that was sent
REFUSED = [
    "session 1023 0 0", "session 1441 0 0", "session 1024 101 0", "session 1024 0 256", "session 1024 0 0 0",
    "session 1024 0 0 5", "session 1024 0", "session 1024 0 0 1 1", "cap", "cap 1", "send 0", "send 2", "send", "video 1 0",
    "video 1 2", "video 2 1", "audio 1 1", "videos 1 2 3", "videos 1 2 1", "up 1 0", "up 1 3", "down 1 2", "down 2 1",
    "keydown 1 65", "keydown 1 32768 0", "keydown 1 -0 0", "keydown 1 65 256", "keydown 2 65 0", "press 1 0", "press 1 6",
    "idr 2", "time 60001", "time", "pump 2 0", "pump 1", "close 2", "close 1 1", "reset 2", "video 1 01", "video 1  1",
    " video 1 1", "video 1 1 ", "VIDEO 1 1", "frames", "#" + 64 * "x", "video 1 4294967296",
]
REFUSED += [
    "session 1024 0 3", "idr", "idr 1 1", "reset", "reset 1 1", "up 1", "up 1 1 1", "down 1", "down 1 0", "audio 1",
    "audio 1 0", "audio 1 1 1", "videos 1 1", "videos 1 0 1", "move 1 1", "move 1 32768 0", "at 1 1 2 3", "at 1 1 2 3 -32769",
    "press 1", "release 1 0", "release 1 6", "scroll 1", "scroll 1 32768", "keyup 1 65", "keyup 1 65 256", "pump", "close",
    "time 1 1",
]
REFUSED += ["audio 2 1", "videos 2 1 1", "up 2 1", "send 9", "keyup 0 65 0", *(event.format(2) for event in EVENTS)]
REFUSED_ALONE = ["send 1", "video 1 1", "videos 1 1 1", "audio 1 1", "up 1 1", "down 1 1", "idr 1", "pump 1 0", "close 1",
                 "reset 1", *(event.format(1) for event in EVENTS)]
REFUSED_AFTER_CLOSE = ["idr 1", "close 1", "reset 1", *(event.format(1) for event in EVENTS)]


def cases():
    for name, detail, tape, lines, text, status, error in RUNS:
        yield name, detail, tape, lines, text, status, error
    before = [OPEN, "cap", "send 1"]
    for line in REFUSED:
        yield f"refused: {line!r}", "brief", "one", before + [line], ["sent 1 1 2 1 0"], 9, "schedule: line 4"
    for line in REFUSED_AFTER_CLOSE:
        yield f"closed: {line!r}", "brief", "one", [OPEN, "close 1", line], [], 9, "schedule: line 3"
    for line in ["idr 1", "close 1", *(event.format(1) for event in EVENTS)]:
        yield f"lost: {line!r}", "brief", "one", LOST + [line], ["lost 1"], 9, f"schedule: line {len(LOST) + 1}"
    for line in REFUSED_ALONE:
        yield f"alone: {line!r}", "brief", "one", [line], [], 9, "schedule: line 1"
    yield "a ninth session", "brief", "one", [OPEN] * 9, [], 9, "schedule: line 9"


def shown(ends):
    """The text, status and error of a run, of a long text its end alone."""
    text, status, error = ends
    return text if len(text) < 2_000 else "... " + text[-300:], status, error


def main():
    words = argparse.ArgumentParser(description=__doc__.splitlines()[0])
    words.add_argument("--program", type=pathlib.Path, default=PROGRAM)
    program = words.parse_args().program
    if not program.exists():
        print(f"skipped: there is no {program}")
        return 0
    wrong = count = 0
    with tempfile.TemporaryDirectory() as folder:
        folder = pathlib.Path(folder)
        for name, data in TAPES.items():
            (folder / name).write_bytes(data)
        for name, detail, tape, lines, text, status, error in cases():
            (folder / "schedule").write_text("".join(line + "\n" for line in lines))
            ran = subprocess.run([program, "script", detail, folder / tape, folder / "schedule"], capture_output=True)
            told = ran.stdout.decode("latin1"), ran.returncode, ran.stderr.decode().strip()
            meant = "".join(line + "\n" for line in text), status, error
            count += 1
            if told != meant:
                wrong += 1
                print(f"{name}: {shown(told)}, and not {shown(meant)}")
    print(f"{count} schedules, {wrong} differ")
    return int(wrong > 0)


if __name__ == "__main__":
    sys.exit(main())
