"""Whether the colours of a picture are apart for every eye, and text on them is legible. Run by tools/test-picture.

Distances are those of CIEDE2000 (ISO/CIE 11664-6). Protanopia and deuteranopia are simulated by the matrices of Machado, Oliveira and
Fernandes (2009). Contrast is that of WCAG 2.
"""

import math
import re

APART, LEGIBLE = 10, 4.5
EYES = {
    "all cones": ((1, 0, 0), (0, 1, 0), (0, 0, 1)),
    "protanopia": ((0.152286, 1.052583, -0.204868), (0.114503, 0.786281, 0.099216), (-0.003882, -0.048116, 1.051998)),
    "deuteranopia": ((0.367322, 0.860646, -0.227968), (0.280085, 0.672501, 0.047413), (-0.011820, 0.042940, 0.968881)),
}


def linear(colour):
    """The light of a colour `#rrggbb`, each part from 0 to 1."""
    parts = (int(colour[at:at + 2], 16) / 255 for at in (1, 3, 5))
    return [part / 12.92 if part <= 0.04045 else ((part + 0.055) / 1.055) ** 2.4 for part in parts]


def seen(light, eye):
    return [min(1, max(0, sum(a * b for a, b in zip(row, light)))) for row in EYES[eye]]


def lab(light):
    """CIELAB under D65."""
    rows = ((0.4124564, 0.3575761, 0.1804375, 0.95047), (0.2126729, 0.7151522, 0.0721750, 1), (0.0193339, 0.1191920, 0.9503041, 1.08883))
    x, y, z = (sum(a * b for a, b in zip(row, light)) / row[3] for row in rows)
    x, y, z = (t ** (1 / 3) if t > 216 / 24389 else (24389 / 27 * t + 16) / 116 for t in (x, y, z))
    return 116 * y - 16, 500 * (x - y), 200 * (y - z)


def distance(one, other):
    """CIEDE2000 of two colours in CIELAB."""
    (l1, a1, b1), (l2, a2, b2) = one, other
    mean = (math.hypot(a1, b1) + math.hypot(a2, b2)) / 2
    more = 1 + 0.5 * (1 - math.sqrt(mean ** 7 / (mean ** 7 + 25 ** 7)))
    c1, c2 = math.hypot(more * a1, b1), math.hypot(more * a2, b2)
    h1, h2 = (math.degrees(math.atan2(b, more * a)) % 360 for a, b in ((a1, b1), (a2, b2)))
    turn = 0 if c1 * c2 == 0 else (h2 - h1 + 180) % 360 - 180
    hue = h1 + h2 if c1 * c2 == 0 else (h1 + turn / 2) % 360
    light, chroma, across = (l1 + l2) / 2, (c1 + c2) / 2, 2 * math.sqrt(c1 * c2) * math.sin(math.radians(turn / 2))
    t = sum(f * math.cos(math.radians(k * hue + p)) for f, k, p in ((-0.17, 1, -30), (0.24, 2, 0), (0.32, 3, 6), (-0.2, 4, -63))) + 1
    by_light = (l2 - l1) / (1 + 0.015 * (light - 50) ** 2 / math.sqrt(20 + (light - 50) ** 2))
    by_chroma, by_hue = (c2 - c1) / (1 + 0.045 * chroma), across / (1 + 0.015 * chroma * t)
    angle = 60 * math.exp(-((hue - 275) / 25) ** 2)
    both = -math.sin(math.radians(angle)) * 2 * math.sqrt(chroma ** 7 / (chroma ** 7 + 25 ** 7))
    return math.sqrt(by_light ** 2 + by_chroma ** 2 + by_hue ** 2 + both * by_chroma * by_hue)


def contrast(one, other):
    low, high = sorted(0.2126 * r + 0.7152 * g + 0.0722 * b for r, g, b in (linear(one), linear(other)))
    return (high + 0.05) / (low + 0.05)


def wrong_colours(page):
    """What is wrong with the colours of a page, a line each."""
    light, dark = page.split("@media (prefers-color-scheme:dark)", 1)
    for scheme, part, text in (("light", light, "#000000"), ("dark", dark, "#ffffff")):
        colours = re.findall(r"\.e\d\{--c:(#[0-9a-f]{6})\}", part)
        if len(colours) != 9:
            yield f"{scheme}: {len(colours)} colours"
        for place, colour in enumerate(colours):
            if contrast(colour, text) < LEGIBLE:
                yield f"{scheme}: text on {colour} has the contrast {contrast(colour, text):.1f}"
            for other in colours[:place]:
                for eye in EYES:
                    apart = distance(*(lab(seen(linear(it), eye)) for it in (colour, other)))
                    if apart < APART:
                        yield f"{scheme}, {eye}: {colour} and {other} are {apart:.1f} apart"
