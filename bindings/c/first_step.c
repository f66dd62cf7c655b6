/* A session with random ids, one step of it, and what it answers. */
#include "daxurbi.h"

#include <stdio.h>
#include <sys/random.h>

int main(void) {
    uint8_t seed[32], report[4096];
    size_t len = 0;
    daxurbi_slot slot = {0};
    if (getrandom(seed, sizeof seed, 0) != sizeof seed) return 1;
    if (daxurbi_open(&slot, seed, sizeof seed) != DAXURBI_OK) return 1;
    const uint8_t line[] = "attach c 0";
    uint32_t answer = daxurbi_step(&slot, line, sizeof line - 1, DAXURBI_TAKE);
    if (answer == DAXURBI_OK) answer = daxurbi_report(&slot, report, sizeof report, &len);
    if (answer == DAXURBI_OK) fwrite(report, 1, len, stdout);
    daxurbi_close(&slot);
    return answer == DAXURBI_OK ? 0 : 1;
}
