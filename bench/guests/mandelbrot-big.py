"""The computation of mandelbrot-big.c."""
from bare import put_double

SIDE, MOST = 200, 50


def followed(real, imaginary):
    x = y = 0.0
    count = 0
    while count < MOST and x * x + y * y <= 4.0:
        x, y = x * x - y * y + real, 2.0 * x * y + imaginary
        count += 1
    return count, x - y


def main():
    rounds, places = 0, 0.0
    for row in range(SIDE):
        for column in range(SIDE):
            count, place = followed(-2.0 + column * (2.5 / SIDE), -1.25 + row * (2.5 / SIDE))
            rounds += count
            places += place
    print(rounds)
    put_double(places)


main()
