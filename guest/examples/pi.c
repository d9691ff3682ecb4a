/*
 * Digits of pi, in base 16, eight at a time: threads work them out side by side, and print them in order.
 *
 * By the formula of Bailey, Borwein and Plouffe pi is the sum of 16^-k (4/(8k+1) - 2/(8k+4) - 1/(8k+5) - 1/(8k+6)). So
 * the digits from place n on are the fraction of 16^n pi, and of each term only its remainder counts.
 */
#include <pthread.h>
#include <stdint.h>
#include <stdio.h>

enum { THREADS = 4, DIGITS = 8, PIECES = 16, PIECES_A_LINE = 4 };

static pthread_mutex_t mutex = PTHREAD_MUTEX_INITIALIZER;
static pthread_cond_t has_printed = PTHREAD_COND_INITIALIZER;
static int taken, printed;

/* 16^exponent modulo a number below 2^16. */
static uint32_t power(uint32_t exponent, uint32_t modulus) {
    uint32_t result = 1 % modulus, square = 16 % modulus;
    for (; exponent > 0; exponent >>= 1) {
        if (exponent & 1) result = result * square % modulus;
        square = square * square % modulus;
    }
    return result;
}

/* part / whole in units of 2^-64, where part is less than whole. */
static uint64_t fraction(uint32_t part, uint32_t whole) {
    uint64_t wide = (uint64_t)part << 32;
    return wide / whole << 32 | (wide % whole << 32) / whole;
}

/* The fraction of 16^place times the sum of 16^-k / (8k + offset), in units of 2^-64. */
static uint64_t series(uint32_t place, uint32_t offset) {
    uint64_t sum = 0;
    uint32_t divisor = offset;
    for (uint32_t k = 0; k <= place; k++, divisor += 8) sum += fraction(power(place - k, divisor), divisor);
    for (uint64_t unit = UINT64_C(1) << 60; unit > 0; unit >>= 4, divisor += 8) sum += unit / divisor;
    return sum;
}

static uint32_t digits_from(uint32_t place) {
    return (4 * series(place, 1) - 2 * series(place, 4) - series(place, 5) - series(place, 6)) >> 32;
}

static void *work(void *unused) {
    (void)unused;
    for (;;) {
        pthread_mutex_lock(&mutex);
        int piece = taken++;
        pthread_mutex_unlock(&mutex);
        if (piece >= PIECES) return NULL;

        uint32_t digits = digits_from((uint32_t)piece * DIGITS);

        pthread_mutex_lock(&mutex);
        while (printed < piece) pthread_cond_wait(&has_printed, &mutex);
        printf("%08lX%c", (unsigned long)digits, (piece + 1) % PIECES_A_LINE ? ' ' : '\n');
        printed++;
        pthread_cond_broadcast(&has_printed);
        pthread_mutex_unlock(&mutex);
    }
}

int main(void) {
    pthread_t threads[THREADS];
    printf("3.\n");
    for (int i = 0; i < THREADS; i++) pthread_create(&threads[i], NULL, work, NULL);
    for (int i = 0; i < THREADS; i++) pthread_join(threads[i], NULL);
    return 0;
}
