#!/usr/bin/env python3
"""Writes accident.trace: how a palette entry that was never stored is taken for
black, on a panel of 32 by 8 with 256 bytes of memory.

    accident.py > accident.trace     the trace
    accident.py --steps              what each range of lines does

A set-up routine reads each palette entry before it stores it, and leaves out
those that are right already. Entry 4, the contact bars' black, was never stored.
The routine looks at the word it reads alone, finds zeros, takes them for the
black it wants, and leaves the entry out. On the chip such an entry holds
anything; here the read answers that no bit is known, and the dots drawn with it
are 04000000h and not black.

The sections named in comments are those of the Permedia 2 Hardware Reference
Manual, issue 7.
"""

from tracing import *

WIDTH = 32  # dots, and bytes from row to row
BACK, GREEN, YELLOW, RED, BAR = range(5)
WANTED = [(16, 20, 36), (16, 84, 44), (176, 136, 16), (168, 24, 28), (0, 0, 0)]

step("the chip is there: vendor and device (2.14.1, 2.14.2)")
read(CONFIGURATION, 0x00)
step("palette width 8 bits (3.6.17)")
indexed(0x1E, 0x02)
step("pixel mask, all planes (3.6.3)")
dac(PIXEL_MASK, 0xFF)
step("colour mode CI8 with GUI: all 256 dots become 05000000h (3.6.14)")
indexed(0x18, 0x10)

for entry, wanted in enumerate(WANTED):
    step(f"entry {entry} is read: word 0, known mask 0, for it was never stored (5.5)")
    dac(PALETTE_READ_ADDRESS, entry)
    for _ in wanted:
        dac_read(PALETTE_DATA)
    # The mistake: a word of zero is taken for a component of zero.
    word_read = (0, 0, 0)
    if word_read != wanted:
        step(f"it is not {wanted}, so it is stored (5.5)")
        dac(PALETTE_WRITE_ADDRESS, entry)
        for component in wanted:
            dac(PALETTE_DATA, component)
    else:
        steps[-1][1] += "; taken for the black that is wanted, and left out: the accident"

step("screen: stride of 32 bytes, 4 units of eight, and base 0; the dots become the background (3.4.2, 3.4.1)")
write(REGION_ZERO, 0x3008, WIDTH // 8)
write(REGION_ZERO, 0x3000, 0)
step("video on, syncs active high (3.4.12)")
write(REGION_ZERO, 0x3058, 0x29)

step("rows 1 to 6 through aperture one: zones of green, yellow and red, and in rows 2 to 5 the contact bars in entry 4, which show 04000000h (3.2.11)")
for y in range(1, 7):
    row = [GREEN] * 12 + [YELLOW] * 10 + [RED] * 10
    if 2 <= y <= 5:
        for x in (3, 7, 14, 18, 24, 28):
            row[x : x + 2] = [BAR, BAR]
    for x in range(0, WIDTH, 4):
        write(APERTURE_ONE, WIDTH * y + x, int.from_bytes(bytes(row[x : x + 4]), "little"))

step("entry 4 is read once more: still word 0, known mask 0 (5.5)")
dac(PALETTE_READ_ADDRESS, BAR)
for _ in range(3):
    dac_read(PALETTE_DATA)

finish()
