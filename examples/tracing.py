"""The lines of a trace as a driver writes them, and what each range of them does.

A line is `r|w TARGET OFFSET ENABLES [WORD]`, and for explain `l TARGET OFFSET
ENABLES`, a look. The sections named here and in the
scripts that use this are those of the Permedia 2 Hardware Reference Manual,
issue 7.
"""

import sys

# Targets of an access.
REGION_ZERO, APERTURE_ONE, APERTURE_TWO, CONFIGURATION = 0, 1, 2, 3

# Direct RAMDAC registers (3.6.1 to 3.6.7). Each uses lane 0 alone.
PALETTE_WRITE_ADDRESS, PALETTE_DATA = 0x4000, 0x4008
PIXEL_MASK, PALETTE_READ_ADDRESS, INDEXED_DATA = 0x4010, 0x4018, 0x4050

lines = []  # the trace
steps = []  # [first line, what it does]


def step(text):
    """Begins a step; the lines that follow belong to it."""
    steps.append([len(lines) + 1, text])


def read(target, offset, enables=15):
    lines.append(f"r {target} {offset:x} {enables:x}")


def look(target, offset, enables=15):
    lines.append(f"l {target} {offset:x} {enables:x}")


def write(target, offset, word, enables=15):
    lines.append(f"w {target} {offset:x} {enables:x} {word:08x}")


def dac(offset, byte):
    lines.append(f"w {REGION_ZERO} {offset:x} 1 {byte:02x}")


def dac_read(offset):
    read(REGION_ZERO, offset, 1)


def indexed(index, byte):
    """An indirect register: its index, then its byte (5.4)."""
    dac(PALETTE_WRITE_ADDRESS, index)
    dac(INDEXED_DATA, byte)


def finish():
    """Prints the trace or, where --steps is asked for, what its lines do."""
    if "--steps" in sys.argv:
        for (first, what), (after, _) in zip(steps, steps[1:] + [[len(lines) + 1, ""]]):
            print(f"{first}-{after - 1}: {what}")
    else:
        print("\n".join(lines))
