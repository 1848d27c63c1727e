/* Plays drawn games by `advance`, and the same games one by one by `step`, `start` and `planes`:
 * games, planes and the number of starts are the same after each step. The first argument is the
 * number of steps.
 */
#include "arena.h"

#include <stdio.h>
#include <stdlib.h>
#include <string.h>

enum { GAMES = 64, SEATS = 4, PLANES = 1 + SEATS };

static uint64_t state = 88172645463325252u;

static uint32_t drawn(void) {
    state ^= state << 13;
    state ^= state >> 7;
    state ^= state << 17;
    return (uint32_t)(state >> 16);
}

static arena_cell starts[GAMES * SEATS], food[GAMES];
static uint8_t which[GAMES], moves[GAMES * SEATS];
static uint32_t words[GAMES * 2];

/* Starts where the game has ended, seldom elsewhere; seldom nothing at all. One start in eight has
 * a cell twice, and does not begin. */
static void draw(int game, int is_over, int side) {
    for (int seat = 0; seat < SEATS; seat++) {
        int cell = (seat == 1 && drawn() % 8 == 0) ? 0 : seat;
        starts[game * SEATS + seat] = (arena_cell){1 + cell, drawn() % side};
        if (cell != seat) starts[game * SEATS + seat] = starts[game * SEATS];
        moves[game * SEATS + seat] = drawn() % 5;
    }
    food[game] = (arena_cell){drawn() % side, drawn() % side};
    words[2 * game] = drawn(), words[2 * game + 1] = drawn();
    which[game] = is_over || drawn() % 64 == 0 ? 1 : drawn() % 16 == 0 ? 2 + drawn() % 254 : 0;
}

#define TRY(size, side)                                                                            \
    static long try_##size(long steps) {                                                           \
        enum { each = PLANES * side * side };                                                      \
        static arena_##size##_game games[2][GAMES];                                                \
        static uint8_t planes[2][GAMES * each];                                                    \
        arena_settings settings = {0, side, side, SEATS, 1, 15};                                   \
        long played = 0;                                                                           \
        memset(games, 0, sizeof games);                                                            \
        for (long step = 0; step < steps; step++) {                                                \
            for (int i = 0; i < GAMES; i++) draw(i, !step || games[0][i].head.over, side);         \
            arena_many_orders orders = {moves, sizeof moves,    SEATS, words, GAMES * 2,           \
                                        2,     ARENA_NO_HAZARDS};                                  \
            arena_many_starts all = {                                                              \
                starts, GAMES * SEATS, food, GAMES, 1, which, GAMES, settings};                    \
            size_t began = arena_##size##_advance(games[0], GAMES, &orders, &all, planes[0],       \
                                                  sizeof planes[0], each);                         \
            for (int i = 0; i < GAMES; i++) {                                                      \
                arena_many_orders own = {moves + i * SEATS, SEATS, SEATS, words + 2 * i, 2, 2,     \
                                         ARENA_NO_HAZARDS};                                        \
                arena_many_starts one = {starts + i * SEATS, SEATS, food + i, 1, 1,                \
                                         which + i,          1,     settings};                     \
                if (which[i] == 0) arena_##size##_step(&games[1][i], 1, &own), played++;           \
                if (which[i] == 1) began -= arena_##size##_start(&games[1][i], 1, &one);           \
                if (which[i] <= 1)                                                                 \
                    arena_##size##_planes(&games[1][i], 1, planes[1] + i * each, each, each);      \
            }                                                                                      \
            if (began || memcmp(games[0], games[1], sizeof games[0]) ||                            \
                memcmp(planes[0], planes[1], sizeof planes[0])) {                                  \
                printf(#size " games differ in step %ld\n", step);                                 \
                exit(1);                                                                           \
            }                                                                                      \
        }                                                                                          \
        return played;                                                                             \
    }

TRY(small, 11)
TRY(large, 25)

int main(int count, char **words_) {
    long steps = count > 1 ? atol(words_[1]) : 400;
    long played = try_small(steps) + try_large(steps);
    printf("%ld steps, %ld turns agree\n", 2 * steps, played);
    return 0;
}
