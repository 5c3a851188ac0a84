#!/usr/bin/env python3
"""Draws demo/card.pgm: a bank card on a wooden table, under uneven light and with a little noise. Run as: demo/make_card.py > demo/card.pgm
It needs nothing but Python's standard library, and draws the same picture every time. The number on the card is made up."""
import math
import random
import sys

WIDTH, HEIGHT = 320, 240
CARD = (206.0, 130.0)  # its sides, in pixels
TURN = math.radians(-7)
DIGITS = "4029 7183 5560 0142"
FONT = {  # 3 by 5 dots a digit, a row an octal number
    "0": 0o75557, "1": 0o26227, "2": 0o71747, "3": 0o71717, "4": 0o55711,
    "5": 0o74717, "6": 0o74757, "7": 0o71122, "8": 0o75757, "9": 0o75717,
}


def in_box(u, v, left, top, right, bottom, corner=0.0):
    """Whether (u, v) is in a box with rounded corners."""
    du = max(left + corner - u, u - (right - corner), 0.0)
    dv = max(top + corner - v, v - (bottom - corner), 0.0)
    return du * du + dv * dv <= corner * corner


def in_digits(u, v):
    """Whether (u, v) is on a digit; each has a cell of 8.5 by 15 and dots of 2.4 by 3."""
    place, du = divmod(u - 18.0, 8.5)
    column, row = int(du // 2.4), int((v - 76.0) // 3.0)
    if not (0 <= place < len(DIGITS) and 0 <= column < 3 and 0 <= row < 5):
        return False
    return FONT.get(DIGITS[int(place)], 0) >> (14 - 3 * row - column) & 1 == 1


def chip(u, v):
    """The chip's brightness, lines and all."""
    lines = abs(v - 46.0) < 0.8 or abs(v - 54.0) < 0.8 or (abs(u - 33.0) < 0.8 and not 46.0 < v < 54.0)
    return 110.0 if lines else 205.0


def card(u, v):
    """The card's brightness at (u, v) from its upper left corner."""
    if in_box(u, v, 18, 38, 48, 62, 4):
        return chip(u, v)
    if in_digits(u, v):
        return 232.0
    if 12.0 <= v <= 24.0:
        return 104.0  # the bank's stripe
    if math.hypot(u - 176.0, v - 110.0) < 12.0:
        return 205.0 if math.hypot(u - 176.0, v - 110.0) > 6.0 else 95.0  # the bank's ring
    if in_box(u, v, 18, 106, 92, 110):
        return 196.0  # the holder's name, worn off
    return 146.0


def table(x, y):
    """The table's brightness: boards with grain."""
    board, inside = divmod(y + 6.0, 58.0)
    grain = math.sin(0.9 * inside + 2.2 * math.sin(0.021 * x + 1.7 * board)) + 0.6 * math.sin(0.31 * inside + 0.013 * x + board)
    return 66.0 + 5.0 * grain + 6.0 * math.sin(2.4 * board) - (26.0 if inside < 1.2 else 0.0)


def scene(x, y):
    """The brightness at a point of the picture, without light and noise."""
    dx, dy = x - WIDTH / 2, y - HEIGHT / 2
    u = dx * math.cos(TURN) + dy * math.sin(TURN) + CARD[0] / 2
    v = dy * math.cos(TURN) - dx * math.sin(TURN) + CARD[1] / 2
    return card(u, v) if in_box(u, v, 0, 0, CARD[0], CARD[1], 9) else table(x, y)


def pixel(x, y, noise):
    """Nine points of the pixel, the light from the upper left, and the noise."""
    steps = (1 / 6, 3 / 6, 5 / 6)
    seen = sum(scene(x + a, y + b) for a in steps for b in steps) / 9
    light = 1.12 - 0.34 * (0.7 * x / WIDTH + 0.3 * y / HEIGHT)
    return max(0, min(255, round(seen * light + noise.gauss(0.0, 2.0))))


def main():
    noise = random.Random(1986)
    picture = bytes(pixel(x, y, noise) for y in range(HEIGHT) for x in range(WIDTH))
    sys.stdout.buffer.write(b"P5\n# A bank card on a table, drawn by demo/make_card.py\n%d %d\n255\n" % (WIDTH, HEIGHT) + picture)


main()
