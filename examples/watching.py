#!/usr/bin/env python3
"""Writes the two watching traces: a watch window on palette data, open while a
program loads a palette, on a panel of 32 by 8 with 256 bytes of memory.

    watching.py read > watching-by-read.trace     the window reads
    watching.py look > watching-by-look.trace     the window looks (02, C-12)
    watching.py look --steps                      what each range of lines does

The window shows what palette data holds, anew after each access that the program
makes to the palette while it is open. The two traces differ in that alone: the letter at the
beginning of the window's lines. A read steps to the next component and drops
what is staged, so that no entry is ever stored; a look does neither. `explain`
takes looks, the trace program does not.

The sections named in comments are those of the Permedia 2 Hardware Reference
Manual, issue 7.
"""

from tracing import *

WIDTH = 32  # dots, and bytes from row to row
BACK, GREEN, YELLOW, RED, BAR = range(5)
COLOURS = [(16, 20, 36), (16, 84, 44), (176, 136, 16), (168, 24, 28), (236, 240, 244)]

refresh = look if sys.argv[1:2] == ["look"] else read


def watched(offset, byte):
    """An access of the program's, and the window afterwards."""
    dac(offset, byte)
    refresh(REGION_ZERO, PALETTE_DATA, 1)


step("palette width 8 bits (3.6.17); colour mode CI8 with GUI (3.6.14)")
indexed(0x1E, 0x02)
indexed(0x18, 0x10)
step("screen: stride of 32 bytes, 4 units of eight, and base 0 (3.4.2, 3.4.1)")
write(REGION_ZERO, 0x3008, WIDTH // 8)
write(REGION_ZERO, 0x3000, 0)

for entry, colour in enumerate(COLOURS):
    step(f"entry {entry} is loaded, with the window open (5.5)")
    watched(PALETTE_WRITE_ADDRESS, entry)
    for component in colour:
        watched(PALETTE_DATA, component)

step("the window is closed; three zones, and the contact bars in entry 4 (3.2.11)")
for y in range(1, 7):
    row = [GREEN] * 12 + [YELLOW] * 10 + [RED] * 10
    if 2 <= y <= 5:
        for x in (3, 7, 14, 18, 24, 28):
            row[x : x + 2] = [BAR, BAR]
    for x in range(0, WIDTH, 4):
        write(APERTURE_ONE, WIDTH * y + x, int.from_bytes(bytes(row[x : x + 4]), "little"))

step("the program reads entry 4 back, the window open again (5.5)")
watched(PALETTE_READ_ADDRESS, BAR)
for _ in range(3):
    dac_read(PALETTE_DATA)
    refresh(REGION_ZERO, PALETTE_DATA, 1)

finish()
