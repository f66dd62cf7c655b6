/* One transaction that commits, one that is vetoed, and a session that stops. Each step is made as
 * a program does that has queues: it asks what a commit would hand, tells whether its queues take
 * it, and gives them what was handed. It prints each report. */
#include "daxurbi.h"

#include <stdio.h>
#include <stdlib.h>
#include <string.h>

/* What the program does where a call answers what it can't go on with. */
static void fail(const char *call, uint32_t answer) {
    fprintf(stderr, "%s answered %u\n", call, (unsigned)answer);
    exit(1);
}

/* A step, and its report on standard output. */
static void step(daxurbi_slot *slot, const char *line, uint32_t below) {
    printf("> %s\n", line);
    uint32_t answer = daxurbi_step(slot, (const uint8_t *)line, strlen(line), below);
    if (answer == DAXURBI_STOPPED_BEFORE) {
        puts("had stopped");
        return;
    }
    if (answer != DAXURBI_OK && answer != DAXURBI_STOPPED) {
        fail("daxurbi_step", answer);
    }
    size_t len = 0;
    answer = daxurbi_report(slot, NULL, 0, &len);
    if (answer != DAXURBI_SHORT_BUFFER) {
        fail("daxurbi_report", answer);
    }
    uint8_t *report = malloc(len);
    if (report == NULL) {
        fail("malloc", DAXURBI_NO_MEMORY);
    }
    answer = daxurbi_report(slot, report, len, &len);
    if (answer != DAXURBI_OK) {
        fail("daxurbi_report", answer);
    }
    fwrite(report, 1, len, stdout);
    free(report);
}

/* A message on control link 0; a declare has no id. */
static void control(daxurbi_slot *slot, uint32_t kind, const uint8_t *id, uint32_t below) {
    uint8_t payload[44];
    size_t len = 0;
    size_t id_len = id == NULL ? 0 : 16;
    uint32_t answer = daxurbi_payload(kind, id, id_len, payload, sizeof payload, &len);
    if (answer != DAXURBI_OK) {
        fail("daxurbi_payload", answer);
    }
    char line[sizeof "control 0 " + 2 * sizeof payload] = "control 0 ";
    char *end = line + strlen(line);
    for (size_t i = 0; i < len; i++) {
        end += sprintf(end, "%02x", (unsigned)payload[i]);
    }
    step(slot, line, below);
}

/* What a commit of this id would hand. */
static void pending(daxurbi_slot *slot, const uint8_t id[16]) {
    uint8_t frames[256];
    size_t len = 0;
    uint32_t answer = daxurbi_pending(slot, id, 16, frames, sizeof frames, &len);
    if (answer == DAXURBI_NOT_LIVE) {
        puts("not live");
        return;
    }
    if (answer != DAXURBI_OK) {
        fail("daxurbi_pending", answer);
    }
    printf("a commit would hand:\n%.*s", (int)len, (const char *)frames);
}

/* What C can do wrong is answered, and changes nothing. */
static void misuse(daxurbi_slot *slot) {
    size_t len = 0;
    uint8_t small[2] = "-";
    printf("a short buffer: %u", (unsigned)daxurbi_report(slot, small, sizeof small, &len));
    printf(", %zu are needed, and it has \"%s\"\n", len, (const char *)small);
    printf("opened twice: %u\n", (unsigned)daxurbi_open(slot, (const uint8_t *)"", 0));
    printf("no line: %u\n", (unsigned)daxurbi_step(slot, NULL, 0, DAXURBI_TAKE));
    printf("no answer: %u\n", (unsigned)daxurbi_step(slot, (const uint8_t *)"end", 3, 99));
    printf("an id of 33 octets: %u\n",
           (unsigned)daxurbi_pending(slot, (const uint8_t *)"012345678901234567890123456789012", 33,
                                     NULL, 0, &len));
    printf("no message: %u\n", (unsigned)daxurbi_payload(5, NULL, 0, NULL, 0, &len));
}

int main(void) {
    const uint8_t ids[32] = {[15] = 1, [31] = 2};
    const uint8_t *first = ids, *second = ids + 16;
    daxurbi_slot slot = {0};
    uint32_t answer = daxurbi_open_with_ids(&slot, ids, sizeof ids);
    if (answer != DAXURBI_OK) {
        fail("daxurbi_open_with_ids", answer);
    }

    step(&slot, "attach c 0", DAXURBI_TAKE);
    control(&slot, DAXURBI_DECLARE, NULL, DAXURBI_TAKE);
    step(&slot, "post 00000000000000000000000000000001 1 7 - - 6869", DAXURBI_TAKE);
    pending(&slot, first);
    control(&slot, DAXURBI_DISCHARGE_COMMIT, first, DAXURBI_TAKE);
    pending(&slot, first);

    control(&slot, DAXURBI_DECLARE, NULL, DAXURBI_TAKE);
    step(&slot, "post 00000000000000000000000000000002 1 8 true - 6869", DAXURBI_TAKE);
    misuse(&slot);
    control(&slot, DAXURBI_DISCHARGE_COMMIT, second, DAXURBI_VETO);

    step(&slot, "post 00000000000000000000000000000002 1 9 true - 6869", DAXURBI_TAKE);
    step(&slot, "end", DAXURBI_TAKE);

    printf("closed: %u\n", (unsigned)daxurbi_close(&slot));
    printf("closed twice: %u\n", (unsigned)daxurbi_close(&slot));
    printf("a step after that: %u\n",
           (unsigned)daxurbi_step(&slot, (const uint8_t *)"end", 3, DAXURBI_TAKE));
    return 0;
}
