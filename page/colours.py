"""What colours look like: contrast by WCAG, and distance in CIE Lab for four kinds of sight."""
from __future__ import annotations

import itertools

Triple = tuple[float, float, float]

# Machado, Oliveira and Fernandes, severity 1: usual, protan, deutan and tritan sight.
SIGHTS: dict[str, tuple[Triple, Triple, Triple]] = {
    "usual": ((1, 0, 0), (0, 1, 0), (0, 0, 1)),
    "protan": (
        (0.152286, 1.052583, -0.204868),
        (0.114503, 0.786281, 0.099216),
        (-0.003882, -0.048116, 1.051998),
    ),
    "deutan": (
        (0.367322, 0.860646, -0.227968),
        (0.280085, 0.672501, 0.047413),
        (-0.011820, 0.042940, 0.968881),
    ),
    "tritan": (
        (1.255528, -0.076749, -0.178779),
        (-0.078411, 0.930809, 0.147602),
        (0.004733, 0.691367, 0.303900),
    ),
}


def linear(colour: str) -> Triple:
    """A colour like #3936f5 as shares of linear light."""

    def share(text: str) -> float:
        value = int(text, 16) / 255
        return value / 12.92 if value <= 0.04045 else ((value + 0.055) / 1.055) ** 2.4

    return share(colour[1:3]), share(colour[3:5]), share(colour[5:7])


def luminance(light: Triple) -> float:
    return 0.2126 * light[0] + 0.7152 * light[1] + 0.0722 * light[2]


def contrast(one: str, other: str) -> float:
    low, high = sorted((luminance(linear(one)), luminance(linear(other))))
    return (high + 0.05) / (low + 0.05)


def lab(light: Triple) -> Triple:
    red, green, blue = light
    white = (0.9505, 1.0, 1.089)
    mixed = (
        0.4124 * red + 0.3576 * green + 0.1805 * blue,
        luminance(light),
        0.0193 * red + 0.1192 * green + 0.9505 * blue,
    )
    x, y, z = (
        (it ** (1 / 3) if it > 0.008856 else 7.787 * it + 16 / 116)
        for it in (max(0.0, m) / w for m, w in zip(mixed, white))
    )
    return 116 * y - 16, 500 * (x - y), 200 * (y - z)


def seen(colour: str, sight: str) -> Triple:
    light = linear(colour)
    red, green, blue = (min(1.0, max(0.0, sum(a * b for a, b in zip(row, light)))) for row in SIGHTS[sight])
    return lab((red, green, blue))


def least_distance(colours: list[str], sight: str) -> float:
    """The least distance in Lab between any two of these."""
    places = [seen(colour, sight) for colour in colours]
    return min(
        sum((a - b) ** 2 for a, b in zip(one, other)) ** 0.5
        for one, other in itertools.combinations(places, 2)
    )
