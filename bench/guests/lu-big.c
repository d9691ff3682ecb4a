/* Doubles: systems of 48 linear equations, whose matrix is factored with the greatest pivot of each column. */
#include "bare.h"

#ifndef ROUNDS
#define ROUNDS 60
#endif
#define SIZE 48

static double matrix[SIZE][SIZE], right[SIZE];
static uint32_t drawn = 1;

/* From -0.5 to below 0.5. */
static double draw(void)
{
    drawn = drawn * 1664525 + 1013904223;
    return (double)(int32_t)drawn / 4294967296.0;
}

static void fill(void)
{
    for (int row = 0; row < SIZE; row++) {
        for (int column = 0; column < SIZE; column++)
            matrix[row][column] = draw();
        right[row] = draw();
    }
}

static double size_of(double number)
{
    return number < 0 ? -number : number;
}

static void exchange(double *a, double *b)
{
    double kept = *a;
    *a = *b;
    *b = kept;
}

static void take_pivot(int column)
{
    int best = column;
    for (int row = column + 1; row < SIZE; row++)
        if (size_of(matrix[row][column]) > size_of(matrix[best][column]))
            best = row;
    for (int k = 0; k < SIZE; k++)
        exchange(&matrix[column][k], &matrix[best][k]);
    exchange(&right[column], &right[best]);
}

static void eliminate(int column)
{
    for (int row = column + 1; row < SIZE; row++) {
        double factor = matrix[row][column] / matrix[column][column];
        for (int k = column + 1; k < SIZE; k++)
            matrix[row][k] -= factor * matrix[column][k];
        right[row] -= factor * right[column];
    }
}

/* The sum of the solution, which takes the place of the right side. */
static double solved(void)
{
    double sum = 0;
    for (int row = SIZE - 1; row >= 0; row--) {
        for (int k = row + 1; k < SIZE; k++)
            right[row] -= matrix[row][k] * right[k];
        right[row] /= matrix[row][row];
        sum += right[row];
    }
    return sum;
}

int start(void)
{
    double sum = 0;
    for (int round = 0; round < ROUNDS; round++) {
        fill();
        for (int column = 0; column < SIZE; column++) {
            take_pivot(column);
            eliminate(column);
        }
        sum += solved();
    }
    put_double(sum);
    return 0;
}
