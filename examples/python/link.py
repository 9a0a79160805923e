# A first program in Python, by ctypes over a shared object of the archive: opens a link, acts on a run of records, tells the voids kept.
# cc -shared -o target/libcurlywether.so -Wl,--whole-archive target/staticlib/libdoor.a -Wl,--no-whole-archive; python3 examples/python/link.py
import os
import sys
from ctypes import CDLL, POINTER, Structure, c_char_p, c_size_t, c_uint8, c_uint64

ROOM = 256
NEED = 64 * ROOM + 256
OPENING = bytes.fromhex("4F4C 02 01 000003E8 000000000000 00000005")  # OL 2 channels, leap 1000, floor 0, delay 5
ORDERS = bytes.fromhex(
    "4F42 00000000000A 00000005 0000"  # OB 10, 5, 0
    "4F42 00000000000C 00000002 0000"  # OB 12, 2, 0
    "4F43 00000000000E 0003"  # OC 14, 3
    "4F53 00000000000B"  # OS 11
    "4F42 000000000009 00000001 0000"  # OB 9, 1, 0: before the floor
)


class Opened(Structure):
    _fields_ = [("code", c_uint64), ("used", c_size_t)]


class Ran(Structure):
    _fields_ = [("code", c_uint64), ("place", c_size_t), ("answered", c_size_t)]


class Told(Structure):
    _fields_ = [("code", c_uint64), ("voids", c_uint64)]


def declare(call, result, *arguments):
    call.restype, call.argtypes = result, arguments
    return call


Bytes, Words = POINTER(c_uint8), POINTER(c_uint64)
library = CDLL(os.path.abspath(sys.argv[1] if len(sys.argv) > 1 else "target/libcurlywether.so"))
open_link = declare(library.curlywether_open, Opened, Bytes, c_size_t, c_uint64, c_char_p, c_size_t)
run = declare(library.curlywether_run, Ran, Bytes, c_size_t, Words, c_char_p, c_size_t, Words, c_size_t)
tell = declare(library.curlywether_tell, Told, Bytes, c_size_t)

memory, tally, answers = (c_uint8 * NEED)(), (c_uint64 * 10)(), (c_uint64 * 56)()  # tally: bookings, sweeps, codes 3 to 10
opened = open_link(memory, NEED, ROOM, OPENING, len(OPENING))
print("opened: code %d, %d bytes used" % (opened.code, opened.used))
ran = run(memory, NEED, tally, ORDERS, len(ORDERS), answers, len(answers))
print("ran: code %d, place %d, %d answered" % (ran.code, ran.place, ran.answered))
for i in range(ran.answered):
    print("code %d channel %d line %d start %d finish %d count %d dropped %d" % tuple(answers[7 * i : 7 * i + 7]))
told = tell(memory, NEED)
print("kept: code %d, %d voids; bookings %d, sweeps %d, code 4 %d" % (told.code, told.voids, tally[0], tally[1], tally[3]))
memory[100] ^= 1
print("spoiled: code %d" % tell(memory, NEED).code)
