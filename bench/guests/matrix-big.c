/* Products of matrices of 32-bit words. */
#include "bare.h"

#define SIZE 48
#define ROUNDS 13

static uint32_t left[SIZE][SIZE], right[SIZE][SIZE], product[SIZE][SIZE];

static void multiply(void)
{
    for (int row = 0; row < SIZE; row++)
        for (int column = 0; column < SIZE; column++) {
            uint32_t sum = 0;
            for (int k = 0; k < SIZE; k++)
                sum += left[row][k] * right[k][column];
            product[row][column] = sum;
        }
}

int start(void)
{
    uint32_t draw = 2463534242u, seen = 0;
    for (int round = 0; round < ROUNDS; round++) {
        for (int row = 0; row < SIZE; row++)
            for (int column = 0; column < SIZE; column++) {
                draw ^= draw << 13;
                draw ^= draw >> 17;
                draw ^= draw << 5;
                left[row][column] = draw & 0xffff;
                right[row][column] = draw >> 8;
            }
        multiply();
        for (int row = 0; row < SIZE; row++)
            for (int column = 0; column < SIZE; column++)
                seen = (seen << 5) - seen + product[row][column];
    }
    put_number(seen);
    return 0;
}
