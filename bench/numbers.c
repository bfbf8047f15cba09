/* A plain loop that parses the numbers of a file through one buffer, and does nothing with them but add them up. */
#include <stdint.h>
#include <stdio.h>

int main(int argc, char **argv) {
    static unsigned char buffer[65536];
    FILE *file = argc > 1 ? fopen(argv[1], "rb") : NULL;
    uint64_t count = 0, sum = 0, value = 0;
    int inside = 0;
    size_t n;
    if (!file) return 1;
    while ((n = fread(buffer, 1, sizeof buffer, file)) > 0) {
        for (size_t i = 0; i < n; i++) {
            unsigned digit = buffer[i] - '0';
            if (digit < 10) {
                value = value * 10 + digit;
                inside = 1;
            } else if (inside) {
                sum += value;
                count++;
                value = 0;
                inside = 0;
            }
        }
    }
    if (inside) { sum += value; count++; }
    printf("%llu numbers, sum %llu\n", (unsigned long long)count, (unsigned long long)sum);
    return 0;
}
