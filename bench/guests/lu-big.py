"""The computation of lu-big.c."""
from bare import put_double

ROUNDS, SIZE = 60, 48


class Draws:
    """Numbers from -0.5 to below 0.5."""

    def __init__(self):
        self.drawn = 1

    def next(self):
        self.drawn = (self.drawn * 1664525 + 1013904223) % 2**32
        return (self.drawn - (self.drawn >> 31 << 32)) / 4294967296.0


def filled(draws):
    """Rows, and behind each its right side."""
    return [[draws.next() for _ in range(SIZE + 1)] for _ in range(SIZE)]


def eliminate(matrix, column):
    best = column
    for row in range(column + 1, SIZE):
        if abs(matrix[row][column]) > abs(matrix[best][column]):
            best = row
    matrix[column], matrix[best] = matrix[best], matrix[column]
    pivot = matrix[column]
    for row in matrix[column + 1:]:
        factor = row[column] / pivot[column]
        for k in range(column + 1, SIZE + 1):
            row[k] -= factor * pivot[k]


def solved(matrix):
    total = 0.0
    for number in range(SIZE - 1, -1, -1):
        row = matrix[number]
        for k in range(number + 1, SIZE):
            row[SIZE] -= row[k] * matrix[k][SIZE]
        row[SIZE] /= row[number]
        total += row[SIZE]
    return total


def main():
    draws, total = Draws(), 0.0
    for _ in range(ROUNDS):
        matrix = filled(draws)
        for column in range(SIZE):
            eliminate(matrix, column)
        total += solved(matrix)
    put_double(total)


main()
