#!/usr/bin/env python3
"""Writes a chime as a WAV file to standard output: 16 bits, stereo, 8,000 Hz, one second.

Two bells, the second lower, that die away within 0.4 seconds; the rest is silence, in which a reverb
can be heard. `python3 examples/chime.py > examples/chime.wav` makes the file beside this one.
"""
import math
import struct
import sys

RATE = 8000
FRAMES = RATE


def bell(t, pitch):
    """A bell struck at t = 0: a tone and a weaker one above it, dying away; silent from 0.25 s on."""
    if t < 0 or t >= 0.25:
        return 0.0
    fade = math.exp(-12 * t) * (1 - t / 0.25)
    return fade * (math.sin(2 * math.pi * pitch * t) + 0.4 * math.sin(2 * math.pi * 2.76 * pitch * t))


def sample(x):
    return max(-32768, min(32767, round(16384 * x)))


out = sys.stdout.buffer
size = 4 * FRAMES
out.write(b"RIFF" + struct.pack("<I", size + 36) + b"WAVE")
out.write(b"fmt " + struct.pack("<IHHIIHH", 16, 1, 2, RATE, 4 * RATE, 4, 16))
out.write(b"data" + struct.pack("<I", size))
for i in range(FRAMES):
    t = i / RATE
    high, low = bell(t, 880), bell(t - 0.15, 659.25)
    out.write(struct.pack("<hh", sample(0.7 * high + 0.3 * low), sample(0.3 * high + 0.7 * low)))
