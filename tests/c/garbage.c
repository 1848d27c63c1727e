/* Calls on games whose memory holds drawn bytes, and on records of drawn bytes: nothing may end the
 * process. The first argument is the number of drawn contents.
 */
#include "arena.h"

#include <stdio.h>
#include <stdlib.h>
#include <string.h>

static uint64_t state = 88172645463325252u;

static uint32_t drawn(void) {
    state ^= state << 13;
    state ^= state >> 7;
    state ^= state << 17;
    return (uint32_t)(state >> 16);
}

static void fill(void *at, size_t bytes) {
    uint8_t *to = at;
    for (size_t i = 0; i < bytes; i++) to[i] = (uint8_t)drawn();
}

/* Three of four heads have settings of a board, so that the calls go on to the rest. */
static void mend(arena_head *head, int longest) {
    if (drawn() % 4 == 0) return;
    arena_settings settings = {drawn() % 4,
                               3 + drawn() % (longest - 2),
                               3 + drawn() % (longest - 2),
                               1 + drawn() % 8,
                               drawn() % 256,
                               drawn() % 101};
    head->settings = settings;
    head->over = drawn() % 8 == 0;
    head->turn = drawn() % 10001;
    for (int i = 0; i < 8; i++) {
        head->seats[i].cause = drawn() % 3 == 0 ? drawn() : 0;
        if (drawn() % 2) head->seats[i].parts = drawn() % 700;
    }
}

#define TRY(size, longest)                                                                         \
    static size_t try_##size(const arena_many_orders *orders, const arena_many_starts *starts) {   \
        arena_##size##_game games[4];                                                              \
        static uint8_t planes[4 * 5625], record[20000];                                            \
        arena_place places[629];                                                                   \
        fill(games, sizeof games);                                                                 \
        for (int i = 0; i < 4; i++) mend(&games[i].head, longest);                                 \
        size_t sum = 0;                                                                            \
        for (int turn = 0; turn < 3; turn++) arena_##size##_step(games, 4, orders);                \
        arena_##size##_planes(games, 4, planes, sizeof planes, drawn() % 7000);                    \
        sum += arena_##size##_food(games, places, drawn() % 630);                                  \
        sum += arena_##size##_body(games, drawn() % 10, places, drawn() % 630);                    \
        size_t length = arena_##size##_save(games, record, sizeof record);                         \
        sum += arena_##size##_load(games + 1, record, length < 20000 ? length : 20000);            \
        fill(record, 40);                                                                          \
        sum += arena_##size##_load(games + 2, record, drawn() % 2000);                             \
        sum += arena_##size##_start(games, 4, starts);                                             \
        sum += arena_##size##_advance(games, 4, orders, starts, planes, sizeof planes,             \
                                      drawn() % 7000);                                             \
        arena_##size##_step(games, 4, orders);                                                     \
        return sum;                                                                                \
    }

TRY(small, 11)
TRY(large, 25)

static size_t try_records(const arena_seat_orders *orders, const arena_seat_setup *setup) {
    static uint8_t record[400], into[ARENA_RECORD_BYTES];
    size_t length = 0;
    fill(record, sizeof record);
    record[0] = 1 + drawn() % 3;
    record[1] = drawn() % 4;
    size_t sum = arena_legal(record, drawn() % 400);
    sum += arena_turn(record, drawn() % 400, orders, into, sizeof into, &length);
    sum += arena_start(setup, into, drawn() % 400, &length);
    return sum;
}

int main(int count, char **words_) {
    long contents = count > 1 ? atol(words_[1]) : 10000;
    size_t sum = 0;
    for (long i = 0; i < contents; i++) {
        uint8_t moves[40];
        uint32_t words[160];
        arena_cell cells[64];
        fill(moves, sizeof moves);
        fill(words, sizeof words);
        fill(cells, sizeof cells);
        for (int k = 0; k < 64; k++)
            if (drawn() % 8) cells[k].x %= 25, cells[k].y %= 25;
        size_t each = drawn() % 4 ? drawn() % 9 : (size_t)drawn() << 34;
        uint8_t hazards[1400];
        fill(hazards, sizeof hazards);
        arena_many_orders orders = {moves,         drawn() % 41, each,        words,
                                    drawn() % 161, drawn() % 41, hazards,     drawn() % 1401,
                                    drawn() % 700, moves,        drawn() % 41};
        arena_many_starts starts = {cells, drawn() % 33, cells + 32, drawn() % 33,
                                    each,  moves,        4,          {0, 0, 0, 0, 0, 0}};
        fill(&starts.settings, sizeof starts.settings);
        if (drawn() % 4) {
            arena_settings settings = {
                drawn() % 4, 3 + drawn() % 9, 3 + drawn() % 9, 1 + drawn() % 8, 1, 15};
            starts.settings = settings;
        }
        arena_seat_orders one = {moves, 8, words, 40, cells, 16, cells + 16, 16, drawn(), drawn()};
        arena_seat_setup setup = {
            cells,       drawn() % 10,     cells + 10,       drawn() % 8, cells + 20, 8,
            drawn() % 5, 3 + drawn() % 24, 3 + drawn() % 24, 1,           15,         drawn() % 2,
            14};
        sum += try_small(&orders, &starts) + try_large(&orders, &starts);
        sum += try_records(&one, &setup);
    }
    printf("%ld contents, sum %zu\n", contents, sum);
    return 0;
}
