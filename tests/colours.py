"""Colours of a style sheet: their contrast, and how far apart they look, for `tests/test_page.py`.

Contrast: WCAG 2.1, relative luminance and contrast ratio. Colour blindness: Machado, Oliveira and Fernandes 2009,
severity 1. Distance: CIEDE2000 (Sharma, Wu and Dalal 2005).
"""
import math
import re

SEEN_BY = {
    "most": ((1, 0, 0), (0, 1, 0), (0, 0, 1)),
    "protanopes": ((0.152286, 1.052583, -0.204868), (0.114503, 0.786281, 0.099216), (-0.003882, -0.048116, 1.051998)),
    "deuteranopes": ((0.367322, 0.860646, -0.227968), (0.280085, 0.672501, 0.047413), (-0.011820, 0.042940, 0.968881)),
}


def themes(css):
    """The custom properties that are colours, of the light and of the dark theme."""
    blocks = re.findall(r"^:root(?:\[data-theme=\"dark\"\])? \{(.*?)^\}", css, re.S | re.M)[:2]
    light, dark = (dict(re.findall(r"--([a-z0-9-]+): (#[0-9a-f]{6});", block)) for block in blocks)
    return {"light": light, "dark": {**light, **dark}}


def linear(colour):
    """A colour #rrggbb in linear light."""
    values = (int(colour[k : k + 2], 16) / 255 for k in (1, 3, 5))
    return [it / 12.92 if it <= 0.04045 else ((it + 0.055) / 1.055) ** 2.4 for it in values]


def contrast(one, other):
    light = [0.2126 * r + 0.7152 * g + 0.0722 * b for r, g, b in (linear(one), linear(other))]
    return (max(light) + 0.05) / (min(light) + 0.05)


def lab(colour, matrix):
    seen = [min(1, max(0, sum(m * it for m, it in zip(row, linear(colour))))) for row in matrix]
    white = ((0.4124, 0.3576, 0.1805, 0.95047), (0.2126, 0.7152, 0.0722, 1), (0.0193, 0.1192, 0.9505, 1.08883))
    x, y, z = ((r * seen[0] + g * seen[1] + b * seen[2]) / w for r, g, b, w in white)
    x, y, z = (it ** (1 / 3) if it > 216 / 24389 else (24389 / 27 * it + 16) / 116 for it in (x, y, z))
    return 116 * y - 16, 500 * (x - y), 200 * (y - z)


def distance(one, other):
    """CIEDE2000 of two colours in CIELAB."""
    (l1, a1, b1), (l2, a2, b2) = one, other
    mean = (math.hypot(a1, b1) + math.hypot(a2, b2)) / 2
    g = 1 + 0.5 * (1 - math.sqrt(mean**7 / (mean**7 + 25**7)))
    c1, c2 = math.hypot(a1 * g, b1), math.hypot(a2 * g, b2)
    h1, h2 = (math.degrees(math.atan2(b, a * g)) % 360 if a or b else 0 for a, b in ((a1, b1), (a2, b2)))
    turn = 0 if c1 * c2 == 0 else (h2 - h1 + 180) % 360 - 180
    hue, c, light = (h1 + turn / 2) % 360 if c1 * c2 else h1 + h2, (c1 + c2) / 2, (l1 + l2) / 2
    t = sum(
        k * math.cos(math.radians(n * hue + s))
        for k, n, s in ((1, 0, 0), (-0.17, 1, -30), (0.24, 2, 0), (0.32, 3, 6), (-0.2, 4, -63))
    )
    of_l = (l2 - l1) / (1 + 0.015 * (light - 50) ** 2 / math.sqrt(20 + (light - 50) ** 2))
    of_c = (c2 - c1) / (1 + 0.045 * c)
    of_h = 2 * math.sqrt(c1 * c2) * math.sin(math.radians(turn / 2)) / (1 + 0.015 * c * t)
    turned = (-math.sin(math.radians(60 * math.exp(-(((hue - 275) / 25) ** 2)))) * 2 * math.sqrt(c**7 / (c**7 + 25**7)))
    return math.sqrt(of_l**2 + of_c**2 + of_h**2 + turned * of_c * of_h)


def nearest(colours, eyes):
    """The least distance of two of the colours, and which two they are."""
    seen = {name: lab(colour, SEEN_BY[eyes]) for name, colour in colours.items()}
    return min((distance(seen[one], seen[other]), one, other) for one in seen for other in seen if one < other)
