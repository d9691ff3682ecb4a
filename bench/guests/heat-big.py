"""The computation of heat-big.c."""
from bare import put_double

ROUNDS, CELLS = 3_400, 64


def step(heat, r):
    """A moment later."""
    diagonal = 1 + 2 * r
    share, right = [r / diagonal], [heat[0] / diagonal]
    for i in range(1, CELLS):
        pivot = diagonal - r * share[i - 1]
        share.append(r / pivot)
        right.append((heat[i] + r * right[i - 1]) / pivot)
    heat[CELLS - 1] = right[CELLS - 1]
    for i in range(CELLS - 2, -1, -1):
        heat[i] = right[i] + share[i] * heat[i + 1]


def main():
    heat = [100.0 if i < CELLS / 2 else 0.5 * i for i in range(CELLS)]
    for number in range(ROUNDS):
        step(heat, 0.25 / (1 + number % 16))
    total = 0.0
    for cell in heat:
        total += cell
    put_double(total)


main()
