#!/usr/bin/env python3
"""Writes bring-up.trace: a display driver brings the chip up in an 8-bit mode
on a panel of 320 by 200 with 65,536 bytes of memory, and draws a parking
assistant's contact bars.

    bring-up.py > bring-up.trace     the trace
    bring-up.py --steps              what each range of lines does
    bring-up.py --meant FILE         the picture as the driver means it, as a
                                     binary PPM, worked out without any chip

The sections named in comments are those of the Permedia 2 Hardware Reference
Manual, issue 7.
"""

import sys

from tracing import *

WIDTH, HEIGHT, MEMORY = 320, 200, 65536

# -------------------------------------------------------------- the colours

BACK, FRAME, TEXT, BLACK = 0, 1, 2, 3
GREEN, YELLOW, RED = 4, 7, 10  # lit, followed by highlight and shade
OFF = 13  # a bar that is not lit, followed by its highlight and shade
COLOURS = [
    (12, 16, 30),  # 0 background
    (92, 108, 132),  # 1 frame
    (232, 236, 240),  # 2 text
    (0, 0, 0),  # 3 black: stored, and so not the same as never stored
    (24, 168, 72),  # 4 green
    (120, 232, 150),
    (8, 96, 40),
    (232, 190, 20),  # 7 yellow
    (255, 238, 140),
    (150, 112, 0),
    (214, 32, 36),  # 10 red
    (255, 140, 130),
    (120, 8, 16),
    (46, 48, 66),  # 13 not lit
    (80, 84, 108),
    (26, 30, 46),
]
RAMP, RAMP_LENGTH = 16, 64  # entries 16 to 79: greys
NEVER = 0xC8  # one of the entries that nobody stores

palette = dict(enumerate(COLOURS))
for i in range(RAMP_LENGTH):
    level = (255 * i + (RAMP_LENGTH - 1) // 2) // (RAMP_LENGTH - 1)
    palette[RAMP + i] = (level, level, level)

# -------------------------------------------------------------- the picture
#
# Drawn into `meant` first: what each byte of memory shall be. Memory is zero
# at the opening, so what stays background needs no write.

meant = bytearray(MEMORY)
STRIDE = WIDTH  # bytes from row to row


def dot(x, y, entry):
    meant[STRIDE * y + x] = entry


def box(x, y, width, height, entry):
    for row in range(y, y + height):
        for column in range(x, x + width):
            dot(column, row, entry)


def outline(x, y, width, height, entry):
    box(x, y, width, 1, entry)
    box(x, y + height - 1, width, 1, entry)
    box(x, y, 1, height, entry)
    box(x + width - 1, y, 1, height, entry)


# Five by seven dots, a row as five bits, the highest leftmost.
FONT = {
    "A": (14, 17, 17, 31, 17, 17, 17),
    "B": (30, 17, 17, 30, 17, 17, 30),
    "C": (14, 17, 16, 16, 16, 17, 14),
    "D": (30, 17, 17, 17, 17, 17, 30),
    "E": (31, 16, 16, 30, 16, 16, 31),
    "F": (31, 16, 16, 30, 16, 16, 16),
    "G": (14, 17, 16, 23, 17, 17, 14),
    "H": (17, 17, 17, 31, 17, 17, 17),
    "I": (14, 4, 4, 4, 4, 4, 14),
    "K": (17, 18, 20, 24, 20, 18, 17),
    "L": (16, 16, 16, 16, 16, 16, 31),
    "M": (17, 27, 21, 21, 17, 17, 17),
    "N": (17, 25, 21, 19, 17, 17, 17),
    "O": (14, 17, 17, 17, 17, 17, 14),
    "P": (30, 17, 17, 30, 16, 16, 16),
    "R": (30, 17, 17, 30, 20, 18, 17),
    "S": (15, 16, 16, 14, 1, 1, 30),
    "T": (31, 4, 4, 4, 4, 4, 4),
    "U": (17, 17, 17, 17, 17, 17, 14),
    "V": (17, 17, 17, 17, 17, 10, 4),
    "W": (17, 17, 17, 21, 21, 27, 17),
    "Y": (17, 17, 10, 4, 4, 4, 4),
    "0": (14, 17, 19, 21, 25, 17, 14),
    "1": (4, 12, 4, 4, 4, 4, 14),
    "2": (14, 17, 1, 6, 8, 16, 31),
    "3": (30, 1, 1, 14, 1, 1, 30),
    "4": (2, 6, 10, 18, 31, 2, 2),
    "5": (31, 16, 30, 1, 1, 17, 14),
    "8": (14, 17, 17, 14, 17, 17, 14),
    ".": (0, 0, 0, 0, 0, 12, 12),
    " ": (0, 0, 0, 0, 0, 0, 0),
}


def text(x, y, string, entry):
    for letter in string:
        for row, bits in enumerate(FONT[letter]):
            for column in range(5):
                if bits >> (4 - column) & 1:
                    dot(x + column, y + row, entry)
        x += 6


# The frame, a title and the distance.
TITLE_END = 22
box(0, 0, WIDTH, 2, FRAME)
box(0, HEIGHT - 2, WIDTH, 2, FRAME)
box(0, 0, 2, HEIGHT, FRAME)
box(WIDTH - 2, 0, 2, HEIGHT, FRAME)
box(0, 20, WIDTH, 1, FRAME)
text(10, 8, "PARKING ASSIST", TEXT)
text(WIDTH - 10 - 6 * 10 + 1, 8, "REAR 0.3 M", RED + 1)

# Twelve contact bars, taller as the obstacle comes nearer: five green, four
# yellow, one red, two that are not lit, each on a dark track through all rows.
# The distance from bar to bar and their edges are no multiples of four, so that
# the dots within a word differ and a wrong swap would tear the edges.
BARS_TOP, BLOCK, BARS_BOTTOM = 28, 37, 139
BAR, PITCH, FIRST_BAR = 18, 21, 49
for number in range(12):
    kind = GREEN if number < 5 else YELLOW if number < 9 else RED if number < 10 else OFF
    left = FIRST_BAR + PITCH * number
    box(left, BARS_TOP, BAR, BARS_BOTTOM - BARS_TOP, OFF + 2)
    top = BARS_BOTTOM - 22 - 8 * number
    height = BARS_BOTTOM - top
    box(left, top, BAR, height, kind)
    box(left, top, 3, height, kind + 1)
    box(left + BAR - 3, top, 3, height, kind + 2)
    box(left, top, BAR, 2, kind + 1)

# The three blocks of rows in which the bars are written, each in another mode
# of aperture one (3.2.11, bits 0 and 1).
STANDARD, BYTE_SWAPPED, HALF_WORD_SWAPPED = 0, 1, 2
BLOCKS = [
    (STANDARD, BARS_TOP, "STAND"),
    (BYTE_SWAPPED, BARS_TOP + BLOCK, "BYTE"),
    (HALF_WORD_SWAPPED, BARS_TOP + 2 * BLOCK, "HALF"),
]
for mode, top, name in BLOCKS:
    box(41, top + 2, 1, BLOCK - 4, FRAME)
    box(38, top + 2, 3, 1, FRAME)
    box(38, top + BLOCK - 3, 3, 1, FRAME)
    text(6, top + BLOCK // 2 - 3, name, FRAME)

# Where the bumper is: one dot wide, dashed, written dot by dot.
LIMIT = FIRST_BAR + PITCH * 12 + 5
limit_rows = [y for y in range(BARS_TOP, BARS_TOP + 3 * BLOCK) if y % 4 < 3]
for y in limit_rows:
    dot(LIMIT, y, TEXT)

# The grey ramp: four dots, one word, for each of its entries.
RAMP_TOP, RAMP_ROWS, RAMP_LEFT = 147, 14, 32
for i in range(RAMP_LENGTH):
    box(RAMP_LEFT + 4 * i, RAMP_TOP, 4, RAMP_ROWS, RAMP + i)
outline(RAMP_LEFT - 1, RAMP_TOP - 1, 4 * RAMP_LENGTH + 2, RAMP_ROWS + 2, FRAME)

# The sixteen colours; black; an entry that was never stored.
FOOT = 170
for i in range(16):
    box(10 + 9 * i, FOOT, 8, 20, i)
    outline(10 + 9 * i, FOOT, 8, 20, FRAME)
text(166, FOOT, "BLACK", TEXT)
text(166, FOOT + 12, "STORED", TEXT)
box(206, FOOT, 24, 20, BLACK)
outline(205, FOOT - 1, 26, 22, FRAME)
text(240, FOOT, "NEVER", TEXT)
text(240, FOOT + 12, "STORED", TEXT)
box(281, FOOT, 24, 20, NEVER)
outline(280, FOOT - 1, 26, 22, FRAME)

if "--meant" in sys.argv:
    with open(sys.argv[sys.argv.index("--meant") + 1], "wb") as file:
        file.write(b"P6\n%d %d\n255\n" % (WIDTH, HEIGHT))
        for byte in meant[: WIDTH * HEIGHT]:
            file.write(bytes(palette.get(byte, (0x80, 0xFF, 0x00))))
    sys.exit()

# -------------------------------------------------- writing through apertures


def lane_of(place, mode):
    """The lane that a byte of memory is exchanged with (01, Apertures)."""
    i = place % 4
    return {STANDARD: i, BYTE_SWAPPED: 3 - i, HALF_WORD_SWAPPED: (i + 2) % 4}[mode]


def word_of(four, mode):
    """The word that puts four bytes into memory in their order."""
    return sum(byte << 8 * lane_of(i, mode) for i, byte in enumerate(four))


def rows(target, mode, top, bottom, but=()):
    """Whole words of some rows, where they are not background; the dots `but`
    are left out, to be written by themselves."""
    for place in range(STRIDE * top, STRIDE * bottom, 4):
        four = bytes(0 if p in but else meant[p] for p in range(place, place + 4))
        if any(four):
            write(target, place, word_of(four, mode))


# ================================================================ the driver

step("configuration: vendor and device, revision and class (2.14.1 to 2.14.4)")
read(CONFIGURATION, 0x00)
read(CONFIGURATION, 0x08)

step("configuration: how large are the regions? all ones into each base, read back (2.14.26 to 2.14.28)")
for base in (0x10, 0x14, 0x18):
    write(CONFIGURATION, base, 0xFFFFFFFF)
    read(CONFIGURATION, base)

step("configuration: the bases, then memory space on, status left alone (2.14.6, 2.14.26 to 2.14.28)")
write(CONFIGURATION, 0x10, 0xE0000000)
write(CONFIGURATION, 0x14, 0xE0800000)
write(CONFIGURATION, 0x18, 0xE1000000)
write(CONFIGURATION, 0x04, 0x0002, enables=3)
read(CONFIGURATION, 0x04)

# Table 4.1, 50 MHz with SGRAM (-12), which is the clock at power-on (5.9.2);
# NumberBanks 0 is the least that can be said. Reserved bits 11 and 12 are
# written as they read. The boot address comes before MemConfig (3.3.4).
step("memory set-up: SGRAM, boot address, configuration and their reading back (3.3.2 to 3.3.4, table 4.1)")
read(REGION_ZERO, 0x10C0)
write(REGION_ZERO, 0x1040, 0)
write(REGION_ZERO, 0x1080, 0x010)
time_rp, time_rc, time_rcd, reserved, ras_min, refresh, banks, burst_one = 1, 4, 0, 3, 1, 48, 0, 1
write(
    REGION_ZERO,
    0x10C0,
    time_rp
    | time_rc << 3
    | time_rcd << 7
    | reserved << 11
    | ras_min << 13
    | refresh << 22
    | banks << 29
    | burst_one << 31,
)
for offset in (0x1040, 0x1080, 0x10C0):
    read(REGION_ZERO, offset)

step("memory set-up: the bypass may write every bit (3.3.5)")
write(REGION_ZERO, 0x1100, 0xFFFFFFFF)

# The one access that is not served: ResetStatus belongs to the graphics core,
# which is not modelled. A driver asks for it all the same; it takes the
# refusal as "no graphics core to wait for" and goes on.
step("reset status: is a software reset going on? refused as 5, no register here (3.2.1)")
read(REGION_ZERO, 0x0000)

step("RAMDAC: palette width 8 bits, power on, read back (3.6.17)")
indexed(0x1E, 0x02)
dac_read(INDEXED_DATA)

step("RAMDAC: pixel mask, all planes (3.6.3)")
dac(PIXEL_MASK, 0xFF)
dac_read(PIXEL_MASK)

step("RAMDAC: colour mode CI8 with GUI, read back; the dots become 05000000h, base and stride are not known yet (3.6.14)")
indexed(0x18, 0x10)
dac_read(INDEXED_DATA)

step("RAMDAC: no double buffer, palette page 0, no colour key, no cursor (3.6.15, 3.6.16, 3.6.32, 3.6.13)")
indexed(0x19, 0x00)
indexed(0x1C, 0x00)
indexed(0x40, 0x00)
indexed(0x06, 0x00)

step("palette: entries 0 to 15, the colours; the address goes up by itself (5.5)")
dac(PALETTE_WRITE_ADDRESS, 0)
for entry in range(16):
    for component in palette[entry]:
        dac(PALETTE_DATA, component)
step("palette: the address has come to 16 (5.5)")
dac_read(PALETTE_WRITE_ADDRESS)
step("palette: entries 16 to 79, the grey ramp, straight on; 80 to 255 are never stored (5.5)")
for entry in range(RAMP, RAMP + RAMP_LENGTH):
    for component in palette[entry]:
        dac(PALETTE_DATA, component)
step("palette: green, the brightest grey and the first entry after it are read back; the last is not known (5.5)")
dac(PALETTE_READ_ADDRESS, GREEN)
for _ in range(3):
    dac_read(PALETTE_DATA)
dac(PALETTE_READ_ADDRESS, RAMP + RAMP_LENGTH - 1)
for _ in range(6):
    dac_read(PALETTE_DATA)

# In units of 32 bits, four dots each: 80 are shown and 20 blanked. As in the
# examples of 5.2, HbEnd and HgEnd hold the blank period itself. 262 lines, of
# which 62 are blanked. HgEnd is loaded before ScreenBase (3.4.1).
step("timing: HTotal, HsStart, HsEnd, HbEnd, HgEnd (3.4.3 to 3.4.7, 5.2)")
shown, blank, porch, sync = WIDTH // 4, 20, 4, 8
write(REGION_ZERO, 0x3010, shown + blank - 1)
write(REGION_ZERO, 0x3028, porch)
write(REGION_ZERO, 0x3030, porch + sync)
write(REGION_ZERO, 0x3020, blank)
write(REGION_ZERO, 0x3018, blank)
step("timing: VTotal, VsStart, VsEnd, VbEnd (3.4.8 to 3.4.11, 5.2)")
blank, porch, sync = 62, 12, 3
write(REGION_ZERO, 0x3038, HEIGHT + blank - 1)
write(REGION_ZERO, 0x3048, porch - 1)
write(REGION_ZERO, 0x3050, porch + sync - 1)
write(REGION_ZERO, 0x3040, blank)
step("timing: all nine read back")
for offset in range(0x3010, 0x3058, 8):
    read(REGION_ZERO, offset)

step("screen: stride of 320 bytes, 40 units of eight; the base is still not known (3.4.2)")
write(REGION_ZERO, 0x3008, STRIDE // 8)
step("screen: base 0; from here on every dot is drawn, 64,000 change to the background (3.4.1)")
write(REGION_ZERO, 0x3000, 0)

# 14.31818 MHz times 28 / 8 / 2^3 is 6.26 MHz: 400 dots by 262 lines, 59.8
# pictures a second. Set A, which VClkCtl selects from reset on; the memory
# clock stays at its power-on value, 28 / 2 / 2^2: 50.1 MHz.
step("clocks: pixel clock A off, M, N, P, on again (3.6.18 to 3.6.20, 5.9.1)")
indexed(0x22, 0x03)
indexed(0x20, 28)
indexed(0x21, 8)
indexed(0x22, 0x0B)
step("clocks: has it locked? a live condition, not known (3.6.27)")
dac(PALETTE_WRITE_ADDRESS, 0x29)
dac_read(INDEXED_DATA)
step("clocks: memory clock M, N, P as at power-on, and its lock (3.6.28 to 3.6.31, 5.9.2)")
indexed(0x30, 28)
indexed(0x31, 2)
indexed(0x32, 2)
dac(PALETTE_WRITE_ADDRESS, 0x33)
dac_read(INDEXED_DATA)

step("video control: on, syncs active high, as in 5.2; read back with its live bits not known (3.4.12)")
write(REGION_ZERO, 0x3058, 0x29)
read(REGION_ZERO, 0x3058)

step("drawing: aperture one in the standard mode (3.2.11)")
write(REGION_ZERO, 0x50, STANDARD)
read(REGION_ZERO, 0x50)
step(f"drawing: frame, title and distance, rows 0 to {BARS_TOP - 1}, through aperture one")
rows(APERTURE_ONE, STANDARD, 0, BARS_TOP)

marks = {STRIDE * y + LIMIT for y in limit_rows}
NAMES = {STANDARD: "standard", BYTE_SWAPPED: "byte swapped", HALF_WORD_SWAPPED: "half-word swapped"}
for mode, top, _ in BLOCKS:
    where = f"rows {top} to {top + BLOCK - 1}"
    if mode != STANDARD:
        step(f"drawing: aperture one {NAMES[mode]} (3.2.11)")
        write(REGION_ZERO, 0x50, mode)
        read(REGION_ZERO, 0x50)
    step(f"drawing: contact bars, {where}, {NAMES[mode]}")
    rows(APERTURE_ONE, mode, top, top + BLOCK, marks)
    step(f"drawing: the dashed line, {where}, {NAMES[mode]}, one lane at a time")
    for y in limit_rows:
        if top <= y < top + BLOCK:
            place = STRIDE * y + LIMIT
            lane = lane_of(place, mode)
            write(APERTURE_ONE, place & ~3, meant[place] << 8 * lane, 1 << lane)

step("drawing: aperture two in the standard mode (3.2.12)")
write(REGION_ZERO, 0x58, STANDARD)
read(REGION_ZERO, 0x58)
step(f"drawing: grey ramp and the frame beside it, rows {BARS_TOP + 3 * BLOCK} to {FOOT - 2}, through aperture two")
rows(APERTURE_TWO, STANDARD, BARS_TOP + 3 * BLOCK, FOOT - 1)
step(f"drawing: sixteen colours, black, an entry never stored, and the lower frame, rows {FOOT - 1} to {HEIGHT - 1}, through aperture two")
rows(APERTURE_TWO, STANDARD, FOOT - 1, HEIGHT)

# A word at an edge of the red bar and the word of the dashed line, in the last
# row of each block whose number is a multiple of four: however they were
# written, the three blocks hold the same.
step("reading back: an edge of the red bar in each block, then the dashed line in each, through aperture two; each three are equal")
for column in (FIRST_BAR + PITCH * 9 & ~3, LIMIT & ~3):
    for _, top, _ in BLOCKS:
        read(APERTURE_TWO, STRIDE * (top + BLOCK - 1 & ~3) + column)

finish()
