/* Times the reading of one sender's words: undamaged, with four words off, and doubtful, on three channels.
   A reading that would last long is not run: its polynomials are counted, and the time of one is measured on fewer words of the same message. */
#include <stdint.h>
#include <stdio.h>
#include <time.h>

uint64_t read_times(uint8_t q, uint8_t d, uint8_t k, uint8_t heard, uint8_t wrong, uint32_t times);

static double now(void) {
    struct timespec t;
    clock_gettime(CLOCK_PROCESS_CPUTIME_ID, &t);
    return t.tv_sec + t.tv_nsec * 1e-9;
}

/* Processor seconds of one reading: the best of three runs of so many readings, without what is made once. */
static double one(int q, int d, int k, int heard, int wrong, uint32_t times, uint64_t *sum) {
    double best = 1e9;
    for (int i = 0; i < 3; i++) {
        double a = now();
        read_times(q, d, k, heard, wrong, 0);
        double b = now();
        *sum = read_times(q, d, k, heard, wrong, times);
        double c = now();
        double t = ((c - b) - (b - a)) / times;
        if (t < best) best = t;
        if (c - b > 5) break;
    }
    return best;
}

static double choose(double n, int e) {
    double c = 1;
    for (int i = 0; i < e; i++) c = c * (n - i) / (i + 1);
    return c;
}

int main(void) {
    static const struct { int q, d, k; } channels[] = {{29, 3, 9}, {97, 2, 9}, {251, 2, 8}};
    for (int i = 0; i < 3; i++) {
        int q = channels[i].q, d = channels[i].d, k = channels[i].k;
        int s = q - k * (d - 1), w = q;
        int e = (w - s) / 2 < 4 ? (w - s) / 2 : 4, b = (w - s) / e, n = (w - 1) / b + 1;
        double sets = choose(n, e);
        uint64_t sum;
        printf("channel %d %d %d: s = %d, w = %d, e = %d, blocks %d of %d words, sets %.0f\n", q, d, k, s, w, e, n, b, sets);
        double whole = one(q, d, k, w, 0, s < 100 ? 2000 : 200, &sum);
        printf("  undamaged          %12.3f us   (off %llu)\n", whole * 1e6, (unsigned long long)sum);
        int few = s + 3, fb = 3, fn = (few - 1) / fb + 1;
        double part = one(q, d, k, few, 3, s < 100 ? 200 : 4, &sum);
        double each = part / (1 + fn);
        printf("  one polynomial     %12.3f us   (%d words, three off: 1 + %d polynomials)\n", each * 1e6, few, fn);
        if (sets * each < 60) {
            double off = one(q, d, k, w, 4, sets * each < 0.01 ? 200 : 1, &sum);
            printf("  four words off     %12.3f ms   (off %llu)\n", off * 1e3, (unsigned long long)sum);
            double doubt = one(q, d, k, w, 9, sets * each < 0.01 ? 200 : 1, &sum);
            printf("  doubtful           %12.3f ms   (off %llu)\n", doubt * 1e3, (unsigned long long)sum);
        } else {
            printf("  four words off     %12.0f s at most, by 1 + %.0f polynomials\n", (1 + sets) * each, sets);
            printf("  doubtful           %12.0f s, by 1 + %.0f polynomials\n", (1 + sets) * each, sets);
        }
    }
    return 0;
}
