# The distance of two colours for an eye: CIEDE2000, for normal sight and for the three kinds of
# colour blindness.
import math
from collections.abc import Sequence

# By kind of eye, the matrix from linear red, green and blue to what an eye without the cone sees.
EYES = {
    "normal": ((1, 0, 0), (0, 1, 0), (0, 0, 1)),
    "without red cones": (
        (0.152286, 1.052583, -0.204868),
        (0.114503, 0.786281, 0.099216),
        (-0.003882, -0.048116, 1.051998),
    ),
    "without green cones": (
        (0.367322, 0.860646, -0.227968),
        (0.280085, 0.672501, 0.047413),
        (-0.011820, 0.042940, 0.968881),
    ),
    "without blue cones": (
        (1.255528, -0.076749, -0.178779),
        (-0.078411, 0.930809, 0.147602),
        (0.004733, 0.691367, 0.303900),
    ),
}
TO_XYZ = (
    (0.4124564, 0.3575761, 0.1804375),
    (0.2126729, 0.7151522, 0.0721750),
    (0.0193339, 0.1191920, 0.9503041),
)
WHITE = (0.95047, 1.0, 1.08883)


def times(matrix: Sequence[Sequence[float]], vector: Sequence[float]) -> list[float]:
    return [sum(factor * value for factor, value in zip(row, vector)) for row in matrix]


def linear(part: float) -> float:
    part /= 255
    return part / 12.92 if part <= 0.04045 else math.pow((part + 0.055) / 1.055, 2.4)


def lab(colour: tuple[int, ...], eye: str) -> tuple[float, float, float]:
    """Lightness and the two opponent axes of a colour, given as red, green and blue from 0 to 255,
    as an eye sees it."""
    seen = [min(1, max(0, value)) for value in times(EYES[eye], [linear(part) for part in colour])]
    x, y, z = (value / white for value, white in zip(times(TO_XYZ, seen), WHITE))
    x, y, z = (t ** (1 / 3) if t > 216 / 24389 else (24389 / 27 * t + 16) / 116 for t in (x, y, z))
    return 116 * y - 16, 500 * (x - y), 200 * (y - z)


def hue(a: float, b: float) -> float:
    return math.degrees(math.atan2(b, a)) % 360 if a or b else 0


def hue_step(first: float, second: float) -> tuple[float, float]:
    """The shorter way from one hue to another, in degrees, and the hue in the middle."""
    step = (second - first + 180) % 360 - 180
    return step, (first + step / 2) % 360


def distance(first: tuple[float, float, float], second: tuple[float, float, float]) -> float:
    """The CIEDE2000 difference of two colours in lab."""
    (light1, a1, b1), (light2, a2, b2) = first, second
    mean = ((math.hypot(a1, b1) + math.hypot(a2, b2)) / 2) ** 7
    stretch = 1.5 - 0.5 * math.sqrt(mean / (mean + 25**7))
    a1, a2 = a1 * stretch, a2 * stretch
    chroma1, chroma2 = math.hypot(a1, b1), math.hypot(a2, b2)
    step, middle = hue_step(hue(a1, b1), hue(a2, b2))
    light, chroma = (light1 + light2) / 2, (chroma1 + chroma2) / 2
    across = 2 * math.sqrt(chroma1 * chroma2) * math.sin(math.radians(step / 2))
    weight = (
        1
        - 0.17 * math.cos(math.radians(middle - 30))
        + 0.24 * math.cos(math.radians(2 * middle))
        + 0.32 * math.cos(math.radians(3 * middle + 6))
        - 0.20 * math.cos(math.radians(4 * middle - 63))
    )
    by_light = (light2 - light1) / (
        1 + 0.015 * (light - 50) ** 2 / math.sqrt(20 + (light - 50) ** 2)
    )
    by_chroma = (chroma2 - chroma1) / (1 + 0.045 * chroma)
    by_hue = across / (1 + 0.015 * chroma * weight)
    turn = (
        -math.sin(math.radians(60 * math.exp(-(((middle - 275) / 25) ** 2))))
        * 2
        * math.sqrt(chroma**7 / (chroma**7 + 25**7))
    )
    return math.sqrt(by_light**2 + by_chroma**2 + by_hue**2 + turn * by_chroma * by_hue)
