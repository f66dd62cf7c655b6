/* Makes each allocation of the library fail once. Mostly the call answers DAXURBI_NO_MEMORY and has
 * changed nothing, so the same call made again goes on, and the reports are those of a run with
 * memory. Where the library lacks the memory to keep what a step hands, the step stops the session
 * with `below-no-memory`, and nothing was handed. Linked with --wrap=malloc --wrap=realloc. */
#include "daxurbi.h"

#include <stdio.h>
#include <stdlib.h>
#include <string.h>

void *__real_malloc(size_t size);
void *__real_realloc(void *block, size_t size);
void *__wrap_malloc(size_t size);
void *__wrap_realloc(void *block, size_t size);

/* How many allocations there were, the one that fails (none where it is 0), and whether it did. */
static size_t allocations, failing;

static bool fails(void) { return ++allocations == failing; }

void *__wrap_malloc(size_t size) { return fails() ? NULL : __real_malloc(size); }

void *__wrap_realloc(void *block, size_t size) {
    return fails() ? NULL : __real_realloc(block, size);
}

static const char *const lines[] = {
    "attach c 0",
    "control 0 00537700533145",
    "post 00000000000000000000000000000001 1 7 - - 6869",
    "retire 00000000000000000000000000000001 receiver 1 2 false accepted",
    "transfer 1 8 true 000102030405060708090a0b0c0d0e0f101112131415161718191a1b1c1d1e1f2021222324",
    "control 0 005377005332c01301a01000000000000000000000000000000001",
    "link-end 0",
    "post 00000000000000000000000000000001 1 9 - - 6869",
};

static const char stop[] = "stop below-no-memory\nhanded 0\n";

/* The reports of a run, how many calls ran out of memory, and whether that stopped the session. */
struct run {
    char reports[4096];
    size_t length, starved;
    bool is_stopped;
};

static void fail(const char *what) {
    fprintf(stderr, "%s, where allocation %zu fails\n", what, failing);
    exit(1);
}

static uint32_t opened(daxurbi_slot *slot, struct run *run) {
    const uint8_t ids[16] = {[15] = 1};
    uint32_t answer = daxurbi_open_with_ids(slot, ids, sizeof ids);
    if (answer == DAXURBI_NO_MEMORY) {
        run->starved++;
        answer = daxurbi_open_with_ids(slot, ids, sizeof ids);
    }
    return answer;
}

/* A step, made again after it ran out of memory. */
static uint32_t stepped(daxurbi_slot *slot, const char *line, struct run *run) {
    const uint8_t *octets = (const uint8_t *)line;
    uint32_t answer = daxurbi_step(slot, octets, strlen(line), DAXURBI_TAKE);
    if (answer == DAXURBI_NO_MEMORY) {
        run->starved++;
        answer = daxurbi_step(slot, octets, strlen(line), DAXURBI_TAKE);
    }
    return answer;
}

static void reported(daxurbi_slot *slot, struct run *run) {
    uint8_t *end = (uint8_t *)run->reports + run->length;
    size_t room = sizeof run->reports - run->length, len = 0;
    uint32_t answer = daxurbi_report(slot, end, room, &len);
    if (answer == DAXURBI_NO_MEMORY) {
        run->starved++;
        answer = daxurbi_report(slot, end, room, &len);
    }
    if (answer != DAXURBI_OK) {
        fail("no report");
    }
    run->length += len;
}

static void pending(daxurbi_slot *slot, struct run *run) {
    const uint8_t id[16] = {[15] = 1};
    uint8_t *end = (uint8_t *)run->reports + run->length;
    size_t room = sizeof run->reports - run->length, len = 0;
    uint32_t answer = daxurbi_pending(slot, id, sizeof id, end, room, &len);
    if (answer == DAXURBI_NO_MEMORY) {
        run->starved++;
        answer = daxurbi_pending(slot, id, sizeof id, end, room, &len);
    }
    if (answer != DAXURBI_OK && answer != DAXURBI_NOT_LIVE) {
        fail("no work");
    }
    run->length += len;
}

/* A run in which an allocation fails. */
static void make(struct run *run, size_t number) {
    daxurbi_slot slot = {0};
    allocations = 0;
    failing = number;
    run->length = run->starved = 0;
    run->is_stopped = false;
    if (opened(&slot, run) != DAXURBI_OK) {
        fail("not opened");
    }
    for (size_t i = 0; i < sizeof lines / sizeof *lines; i++) {
        uint32_t answer = stepped(&slot, lines[i], run);
        if (answer != DAXURBI_OK && answer != DAXURBI_STOPPED) {
            fail(lines[i]);
        }
        size_t before = run->length;
        reported(&slot, run);
        if (run->length - before == strlen(stop) &&
            memcmp(run->reports + before, stop, strlen(stop)) == 0) {
            run->length = before;
            run->is_stopped = true;
            break;
        }
        pending(&slot, run);
    }
    if (daxurbi_close(&slot) != DAXURBI_OK) {
        fail("not closed");
    }
}

int main(void) {
    static struct run whole, starved;
    size_t count, answered = 0, stopped = 0;
    make(&whole, 0);
    count = allocations;
    for (size_t number = 1; number <= count; number++) {
        make(&starved, number);
        answered += starved.starved;
        stopped += starved.is_stopped;
        if ((!starved.is_stopped && starved.length != whole.length) ||
            memcmp(starved.reports, whole.reports, starved.length) != 0) {
            fail("other reports");
        }
    }
    printf("%zu allocations failed in turn: %zu calls said so and went on when made again, "
           "%zu steps stopped the session and handed nothing, %zu calls did without\n",
           count, answered, stopped, count - answered - stopped);
    return answered > 0 ? 0 : 1;
}
