/* Refuses each request for memory of each call on records in turn. Then the call has the status
 * ARENA_MEMORY and writes nothing, and with memory it gives what it gave before.
 *
 * Linked with -Wl,--wrap=malloc,--wrap=realloc.
 */
#include "arena.h"

#include <stdio.h>
#include <stdlib.h>
#include <string.h>

void *__real_malloc(size_t bytes);
void *__real_realloc(void *at, size_t bytes);

static long left = -1; /* requests that are granted; all, if below 0 */
static long asked;

static int is_refused(void) {
    asked++;
    if (left < 0) return 0;
    return left-- == 0;
}

void *__wrap_malloc(size_t bytes) {
    return is_refused() ? NULL : __real_malloc(bytes);
}

void *__wrap_realloc(void *at, size_t bytes) {
    return is_refused() ? NULL : __real_realloc(at, bytes);
}

static void need(int holds, const char *what) {
    if (holds) return;
    fprintf(stderr, "refused: %s\n", what);
    exit(1);
}

/* What a call writes. */
typedef struct {
    uint8_t record[2000], over;
    size_t length;
    arena_small_game game;
} outcome;

static const arena_cell cells[4] = {{1, 1}, {9, 9}, {5, 5}, {3, 3}};
static uint8_t first[2000];
static size_t first_length;

static uint8_t start(outcome *to) {
    arena_seat_setup setup = {cells, 2, cells + 2, 1, cells + 3, 1, 0, 11, 11, 1, 15, 1, 14};
    return arena_start(&setup, to->record, sizeof to->record, &to->length);
}

static uint8_t turn(outcome *to) {
    static const uint8_t moves[2] = {0, 2};
    static const uint32_t words[3] = {1, 2, 3};
    arena_seat_orders orders = {moves, 2, words, 3, cells, 4, cells + 3, 1, 1, 1};
    return arena_turn(first, first_length, &orders, to->record, sizeof to->record, &to->length);
}

static uint8_t turns(outcome *to) {
    static const uint8_t moves[2] = {0, 2};
    static const uint32_t words[3] = {1, 2, 3};
    arena_many_orders orders = {moves, 2, 2, words, 3, 3, ARENA_NO_HAZARDS};
    uint8_t status;
    if (to->length == 0) {
        memcpy(to->record, first, first_length);
        to->length = first_length;
    }
    size_t played = arena_turns(to->record, sizeof to->record, &to->length, 1, &status, 1, &orders);
    need(played == (status == ARENA_OK), "the number of turns");
    return status;
}

static uint8_t over(outcome *to) {
    return arena_over(first, first_length, &to->over);
}

static uint8_t legal(outcome *to) {
    (void)to;
    return arena_legal(first, first_length);
}

static uint8_t load(outcome *to) {
    return arena_small_load(&to->game, first, first_length);
}

typedef uint8_t call(outcome *to);

static void refuse(const char *name, call *made, uint8_t usual) {
    static outcome wanted, before, now;
    memset(&wanted, 0, sizeof wanted);
    need(made(&wanted) == usual, name);
    long refusals = 0;
    for (;; refusals++) {
        memset(&now, 0, sizeof now);
        if (made == turns) {
            memcpy(now.record, first, first_length);
            now.length = first_length;
        }
        before = now;
        left = refusals;
        uint8_t status = made(&now);
        int came = left < 0;
        left = -1;
        if (!came) break;
        if (status != ARENA_MEMORY) now = before;
        need(status == ARENA_MEMORY || status == usual, name);
        need(!memcmp(&now, &before, sizeof now), name);
        need(made(&now) == usual && !memcmp(&now, &wanted, sizeof now), name);
    }
    need(refusals > 0, name);
    printf("%s %ld ", name, refusals);
}

int main(void) {
    outcome *begun = calloc(1, sizeof *begun);
    need(begun && start(begun) == ARENA_OK, "no start");
    memcpy(first, begun->record, begun->length);
    first_length = begun->length;
    refuse("start", start, ARENA_OK);
    refuse("turn", turn, ARENA_OK);
    refuse("turns", turns, ARENA_OK);
    refuse("over", over, ARENA_OK);
    refuse("legal", legal, ARENA_OK);
    refuse("load", load, ARENA_HAZARDS);
    printf("refused\n");
    free(begun);
    return 0;
}
