// A delta-sigma modulator of one bit:
//     modulate ORDER A1..An B1..Bn DITHER SEED BYTES [END | TIMES STEP | RATE HERTZ AMPLITUDE]
// The noise transfer is (1 + sum B z^-i) / (1 + sum A z^-i), the signal transfer is 1. The signal is a sine, or without
// one what standard input has: 64-bit floats as the machine has them, first the errors of the ORDER steps before, the
// newest first, then the same after the noise transfer, and then the signal, one for each bit. Writes BYTES bytes to
// standard output, the earliest bit as the most significant, and to standard error the largest magnitude before the
// quantizer. With END, which is any word, it writes after the bytes the errors as the signal has them before it, with
// which the next part of a signal goes on. With TIMES the same is done that many times, each time with a seed that is
// larger by STEP.
#include <limits.h>
#include <math.h>
#include <stdint.h>
#include <stdio.h>
#include <stdlib.h>

enum { MOST = 16 };

typedef struct {
    int order;
    double a[MOST], b[MOST];
    // Of the last steps, the newest first: the errors of the quantizer, and those after the noise transfer.
    double error[MOST], shaped[MOST];
    double dither, largest;
    uint64_t random;
} Modulator;

// Uniform in -1 to 1 (xorshift64*).
static double uniform(Modulator *m) {
    m->random ^= m->random >> 12;
    m->random ^= m->random << 25;
    m->random ^= m->random >> 27;
    return (double)((m->random * 2685821657736338717u) >> 11) / 4503599627370496.0 - 1.0;
}

// The next bit: the output is the signal plus the shaped error.
static int step(Modulator *m, double signal) {
    double rest = 0;
    for (int i = 0; i < m->order; i++) rest += m->b[i] * m->error[i] - m->a[i] * m->shaped[i];
    double before = signal + rest;
    int bit = before + m->dither * (uniform(m) + uniform(m)) / 2 >= 0;
    double error = (bit ? 1.0 : -1.0) - before;
    for (int i = m->order - 1; i > 0; i--) {
        m->error[i] = m->error[i - 1];
        m->shaped[i] = m->shaped[i - 1];
    }
    m->error[0] = error;
    m->shaped[0] = rest + error;
    if (fabs(before) > m->largest) m->largest = fabs(before);
    return bit;
}

// The next 8 bits.
static void put_byte(Modulator *m, const double *samples) {
    int byte = 0;
    for (int bit = 0; bit < 8; bit++) byte = byte << 1 | step(m, samples[bit]);
    putchar(byte);
}

// Whether there were the errors of the steps before.
static int read_past(Modulator *m) {
    size_t order = (size_t)m->order;
    return fread(m->error, sizeof(double), order, stdin) == order &&
           fread(m->shaped, sizeof(double), order, stdin) == order;
}

// Whether there were as many samples as bits.
static int modulate_input(Modulator *m, long long bytes) {
    double samples[8];
    if (!read_past(m)) return 0;
    for (long long i = 0; i < bytes; i++) {
        if (fread(samples, sizeof *samples, 8, stdin) != 8) return 0;
        put_byte(m, samples);
    }
    return 1;
}

// Writes the past with which the next bit goes on.
static void put_past(const Modulator *m) {
    size_t order = (size_t)m->order;
    fwrite(m->error, sizeof(double), order, stdout);
    fwrite(m->shaped, sizeof(double), order, stdout);
}

// The same several times, each time with a seed that is larger by a step; and whether there was memory for the samples.
static int modulate_again(Modulator *m, long long bytes, long long times, uint64_t step) {
    if (bytes < 1 || bytes > LLONG_MAX / 64 || !read_past(m)) return 0;
    size_t number = (size_t)bytes * 8;
    double *samples = malloc(number * sizeof *samples);
    int is_read = samples && fread(samples, sizeof *samples, number, stdin) == number;
    for (long long time = 0; is_read && time < times; time++) {
        Modulator one = *m;
        one.random += (uint64_t)time * step;
        for (long long i = 0; i < bytes; i++) put_byte(&one, samples + 8 * i);
        m->largest = fmax(m->largest, one.largest);
    }
    free(samples);
    return is_read;
}

static void modulate_sine(Modulator *m, long long bytes, double rate, double hertz, double amplitude) {
    long long place = 0;
    for (long long i = 0; i < bytes; i++) {
        int byte = 0;
        for (int bit = 0; bit < 8; bit++, place++) {
            // The turn of the sine is taken from whole numbers where rate and hertz are such.
            double turn = fmod((double)place * hertz, rate) / rate;
            byte = byte << 1 | step(m, amplitude * sin(2 * 3.14159265358979323846 * turn));
        }
        putchar(byte);
    }
}

int main(int count, char **arguments) {
    Modulator m = {0};
    m.order = count > 1 ? atoi(arguments[1]) : 0;
    int fixed = 2 * m.order + 5;
    if (m.order < 1 || m.order > MOST || count < fixed || count > fixed + 3) return 2;
    for (int i = 0; i < m.order; i++) {
        m.a[i] = atof(arguments[2 + i]);
        m.b[i] = atof(arguments[2 + m.order + i]);
    }
    char **rest = arguments + 2 + 2 * m.order;
    m.dither = atof(rest[0]);
    m.random = strtoull(rest[1], NULL, 10);
    long long bytes = atoll(rest[2]);
    if (m.random == 0) return 2;
    if (count <= fixed + 1 && !modulate_input(&m, bytes)) return 1;
    if (count == fixed + 1) put_past(&m);
    if (count == fixed + 2 && !modulate_again(&m, bytes, atoll(rest[3]), strtoull(rest[4], NULL, 10))) return 1;
    if (count == fixed + 3) modulate_sine(&m, bytes, atof(rest[3]), atof(rest[4]), atof(rest[5]));
    fprintf(stderr, "%.3f\n", m.largest);
    return fflush(stdout) == 0 ? 0 : 1;
}
