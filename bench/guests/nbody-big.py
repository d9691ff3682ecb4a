"""The computation of nbody-big.c."""
from math import sqrt

from bare import put_double

ROUNDS, STEP = 20_000, 0.001
BODIES = [
    [0.0, 0.0, 0.0, 0.0, 0.0, 0.0, 1.0],
    [1.0, 0.0, 0.02, 0.0, 1.0, 0.01, 0.001],
    [-1.6, 0.1, 0.0, -0.05, -0.78, 0.02, 0.0004],
    [0.2, 2.5, -0.1, -0.62, 0.03, 0.0, 0.002],
    [-0.3, -4.0, 0.3, 0.49, -0.04, 0.01, 0.0007],
]
PAIRS = [(a, b) for i, a in enumerate(BODIES) for b in BODIES[i + 1:]]


def energy():
    total = 0.0
    for i, a in enumerate(BODIES):
        total += 0.5 * a[6] * (a[3] * a[3] + a[4] * a[4] + a[5] * a[5])
        for b in BODIES[i + 1:]:
            x, y, z = a[0] - b[0], a[1] - b[1], a[2] - b[2]
            total -= a[6] * b[6] / sqrt(x * x + y * y + z * z)
    return total


def advance():
    for a, b in PAIRS:
        x, y, z = a[0] - b[0], a[1] - b[1], a[2] - b[2]
        square = x * x + y * y + z * z
        share = STEP / (square * sqrt(square))
        to_a, to_b = b[6] * share, a[6] * share
        a[3] -= x * to_a
        a[4] -= y * to_a
        a[5] -= z * to_a
        b[3] += x * to_b
        b[4] += y * to_b
        b[5] += z * to_b
    for a in BODIES:
        a[0] += STEP * a[3]
        a[1] += STEP * a[4]
        a[2] += STEP * a[5]


put_double(energy())
for _ in range(ROUNDS):
    advance()
put_double(energy())
