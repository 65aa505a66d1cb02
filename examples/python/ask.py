#!/usr/bin/env python3
"""Asks the question of a file, in Python over the shared library: ask.py LIBRARY FILE, the library being the folder target/library/x86-64."""
import struct
import sys
from ctypes import byref, c_int32, c_uint8, c_uint16, c_uint64

sys.dont_write_bytecode = True
sys.path.insert(0, sys.argv[1])
from analyser import MAX_CHANNELS, REFUSALS, SET_WORDS, library

with open(sys.argv[2], "rb") as file:
    data = file.read()
kind, headgate, outfall, delivery = struct.unpack_from("<BHHi", data)
sheet = (c_uint8 * (len(data) - 8))(*data[9:])  # one element more than is lent: an empty slice is no null pointer
settings, words = (c_int32 * MAX_CHANNELS)(*[2**31 - 1] * MAX_CHANNELS), (c_uint64 * SET_WORDS)()
can, size, place = c_uint8(), c_uint16(), c_uint16()
result = library.analyser_solve(sheet, len(data) - 9, headgate, outfall, delivery, settings, MAX_CHANNELS, words, SET_WORDS,
                                byref(can), byref(size), byref(place))
if result:
    print(f"refused {result}")
    sys.exit(REFUSALS[result])
if can.value:
    print(f"can {delivery}")
    for channel, setting in enumerate(settings):
        if setting < 2**31 - 1:  # behind the last channel nothing is written
            print(channel, setting)
else:
    print(f"cannot {delivery} {size.value}")
    print(*(node for node in range(64 * SET_WORDS) if words[node // 64] >> node % 64 & 1), sep="\n")
