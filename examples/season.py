#!/usr/bin/env python3
"""season.py FILE [GAME SLOT]...: opens a season with its sheet, sets games, and prints the figures after each call.

It calls the shared library that `make` builds; SEASON_CHECKER names another one.
"""
import ctypes
import os
import sys
from ctypes import POINTER, byref, c_bool, c_int64, c_size_t, c_uint8, c_uint32, c_uint64


class Reply(ctypes.Structure):
    _fields_ = [("declined", c_bool), ("number", c_uint8), ("infeasibility", c_int64), ("objective", c_int64)]


class Buffers(ctypes.Structure):  # season_buffers of the header: each pointer is followed by its length in items
    _fields_ = [field for name, item in [("season", c_uint8), ("sheet", c_uint8), ("ledger", c_uint32), ("tally", c_uint64)]
                for field in [(name, POINTER(item)), (name + "_len", c_size_t)]]


built = os.path.join(os.path.dirname(os.path.abspath(__file__)), "..", "target", "libseason_checker.so")
library = ctypes.CDLL(os.environ.get("SEASON_CHECKER", built))
library.season_buffers_open.restype = library.season_buffers_set.restype = Reply
library.season_refusal_text.restype = ctypes.c_char_p
for helper in "end", "ledger_items", "tally_items", "ledger_first", "deviations":
    getattr(library, "season_" + helper).restype = c_size_t

with open(sys.argv[1], "rb") as file:
    data = file.read()
season = data[:library.season_end(data, c_size_t(len(data)))]
ask = season, c_size_t(len(season))
sheet = (c_uint8 * (len(data) - len(season)))(*data[len(season):])
ledger = (c_uint32 * library.season_ledger_items(*ask))()
tally = (c_uint64 * library.season_tally_items(*ask))()
lent = Buffers((c_uint8 * len(season))(*season), len(season), sheet, len(sheet), ledger, len(ledger), tally, len(tally))
numbers = [c_uint64(int(word)) for word in sys.argv[2:]]
for game, slot in [(None, None), *zip(numbers[::2], numbers[1::2])]:
    reply = library.season_buffers_open(byref(lent)) if game is None else library.season_buffers_set(byref(lent), game, slot)
    if reply.declined:
        print("refused", reply.number, library.season_refusal_text(reply.number).decode())
        continue
    print(f"verdict {reply.number}, infeasibility {tally[-2]} ({reply.infeasibility:+}), objective {tally[-1]} ({reply.objective:+})")
    for c, penalty in enumerate(tally[:-2]):
        first = library.season_ledger_first(*ask, c_size_t(c))
        print(f"  constraint {c}: deviations", *ledger[first:first + library.season_deviations(*ask, c_size_t(c))], "penalty", penalty)
