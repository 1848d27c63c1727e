// Times the library, and a simulator by hand, on the games of a file that benches/library.py
// wrote.
//
//     bench FILE RUNS SECONDS
//
// Processor time of one thread, the least of RUNS; then wall time of 1, 2 and 4 threads.
#include "arena.h"
#include "by_hand.h"

#include <pthread.h>
#include <stdio.h>
#include <stdlib.h>
#include <time.h>

enum { MOST_GAMES = 1000, MOST_TURNS = 400, MOST_SEATS = 8 };

// A game of the file: two words a turn, 11 by 11 cells.
typedef struct {
    arena_cell starts[MOST_SEATS], food[16];
    uint8_t moves[MOST_TURNS][MOST_SEATS];
    uint32_t words[MOST_TURNS][2];
    uint32_t turns, foods;
    uint8_t last[4000];
    size_t length;
} played;

static played *games;
static uint32_t count;
static uint8_t seats; // of each game
static arena_settings settings = {0, 11, 11, 0, 1, 15};
static const arena_cell no_cells[1];

static double seconds(clockid_t clock) {
    struct timespec at;
    clock_gettime(clock, &at);
    return at.tv_sec + at.tv_nsec * 1e-9;
}

static void need(int holds, const char *what) {
    if (holds) return;
    fprintf(stderr, "bench: %s\n", what);
    exit(1);
}

static void get(FILE *file, void *to, size_t bytes) {
    need(fread(to, 1, bytes, file) == bytes, "the file is cut off");
}

static size_t get_record(FILE *file, uint8_t *to) {
    uint32_t bytes;
    get(file, &bytes, 4);
    need(bytes <= sizeof games->last, "a record is too long");
    get(file, to, bytes);
    return bytes;
}

static void read_game(FILE *file, played *game) {
    uint8_t head[8];
    get(file, head, 8);
    seats = settings.seats = seats ? seats : head[3];
    need(head[1] == 11 && head[2] == 11 && head[7] == 2, "other games");
    need(head[3] == seats && seats <= MOST_SEATS, "other seats");
    game->foods = head[6];
    get(file, game->starts, sizeof(arena_cell) * seats);
    get(file, game->food, 2 * game->foods);
    get(file, &game->turns, 4);
    need(game->turns <= MOST_TURNS, "a game is too long");
    game->length = get_record(file, game->last);
    for (uint32_t turn = 0; turn < game->turns; turn++) {
        get(file, game->moves[turn], seats);
        get(file, game->words[turn], 8);
        game->length = get_record(file, game->last);
    }
}

static uint32_t longest_first(void) {
    uint32_t turns = 0;
    for (uint32_t i = 0; i < count; i++)
        for (uint32_t k = i; k > 0 && games[k].turns > games[k - 1].turns; k--) {
            played other = games[k];
            games[k] = games[k - 1];
            games[k - 1] = other;
        }
    for (uint32_t i = 0; i < count; i++) turns += games[i].turns;
    return turns;
}

// The moves and words of each turn for all games, one after the other.
static uint8_t *all_moves;
static uint32_t *all_words;

static void spread(void) {
    all_moves = calloc(MOST_TURNS * count, seats);
    all_words = calloc(MOST_TURNS * count, 8);
    need(all_moves && all_words, "no memory");
    for (uint32_t turn = 0; turn < MOST_TURNS; turn++)
        for (uint32_t i = 0; i < count; i++) {
            memcpy(all_moves + seats * (turn * count + i), games[i].moves[turn], seats);
            memcpy(all_words + 2 * (turn * count + i), games[i].words[turn], 8);
        }
}

static void start_small(arena_small_game *small, uint32_t game) {
    static const uint8_t which[1] = {1};
    const played *from = &games[game];
    arena_many_starts first = {from->starts, seats, from->food, from->foods,
                               from->foods,  which, 1,          settings};
    need(arena_small_start(small, 1, &first) == 1, "a game does not start");
}

// All games side by side, a call for each turn.
static void step_all(arena_small_game *small) {
    uint32_t running = count;
    for (uint32_t turn = 0; turn < MOST_TURNS; turn++) {
        while (running && games[running - 1].turns <= turn) running--;
        arena_many_orders orders = arena_orders_of(running, all_moves + seats * turn * count, seats,
                                                   all_words + 2 * turn * count, 2);
        arena_small_step(small, running, &orders);
    }
}

static void check_small(const arena_small_game *small) {
    static uint8_t saved[4000];
    for (uint32_t i = 0; i < count; i++) {
        size_t length = arena_small_save(small + i, saved, sizeof saved);
        need(length == games[i].length && !memcmp(saved, games[i].last, length), "a game differs");
    }
}

static double time_small(int runs, uint32_t turns) {
    arena_small_game *small = calloc(count, sizeof *small);
    double least = 1e9;
    for (int run = 0; run < runs; run++) {
        for (uint32_t i = 0; i < count; i++) start_small(small + i, i);
        double from = seconds(CLOCK_THREAD_CPUTIME_ID);
        step_all(small);
        double took = seconds(CLOCK_THREAD_CPUTIME_ID) - from;
        if (took < least) least = took;
        check_small(small);
    }
    free(small);
    return least / turns;
}

// One game after the other, a call for each turn of a game.
static double time_alone(int runs, uint32_t turns) {
    arena_small_game *small = calloc(count, sizeof *small);
    double least = 1e9;
    for (int run = 0; run < runs; run++) {
        for (uint32_t i = 0; i < count; i++) start_small(small + i, i);
        double from = seconds(CLOCK_THREAD_CPUTIME_ID);
        for (uint32_t i = 0; i < count; i++)
            for (uint32_t turn = 0; turn < games[i].turns; turn++) {
                arena_many_orders orders =
                    arena_orders_of(1, games[i].moves[turn], seats, games[i].words[turn], 2);
                arena_small_step(small + i, 1, &orders);
            }
        double took = seconds(CLOCK_THREAD_CPUTIME_ID) - from;
        if (took < least) least = took;
        check_small(small);
    }
    free(small);
    return least / turns;
}

static void start_by_hand(game *to, uint32_t number) {
    xy starts[MOST_SEATS], food[16];
    memcpy(starts, games[number].starts, sizeof *starts * seats);
    memcpy(food, games[number].food, 2 * games[number].foods);
    game_start(to, 0, 11, 11, seats, starts, games[number].foods, food, 1, 15);
}

static double time_by_hand(int runs, uint32_t turns) {
    size_t bytes = game_bytes(11, 11, seats);
    uint8_t *all = aligned_alloc(64, bytes * count), record[4000];
    double least = 1e9;
    for (int run = 0; run < runs; run++) {
        for (uint32_t i = 0; i < count; i++) start_by_hand((game *)(all + bytes * i), i);
        double from = seconds(CLOCK_THREAD_CPUTIME_ID);
        uint32_t running = count;
        for (uint32_t turn = 0; turn < MOST_TURNS; turn++) {
            while (running && games[running - 1].turns <= turn) running--;
            for (uint32_t i = 0; i < running; i++)
                game_step((game *)(all + bytes * i), all_moves + seats * (turn * count + i),
                          all_words + 2 * (turn * count + i), 2);
        }
        double took = seconds(CLOCK_THREAD_CPUTIME_ID) - from;
        if (took < least) least = took;
    }
    for (uint32_t i = 0; i < count; i++) {
        size_t length = game_record((game *)(all + bytes * i), record);
        need(length == games[i].length && !memcmp(record, games[i].last, length),
             "by hand differs");
    }
    free(all);
    return least / turns;
}

static void play_records(const played *from) {
    static uint8_t record[2][4000];
    size_t length;
    int now = 0;
    arena_seat_setup setup = {from->starts, seats, from->food, from->foods, no_cells, 0, 0,
                              11,           11,    1,          15,          0,        0};
    need(arena_start(&setup, record[now], 4000, &length) == ARENA_OK, "no start");
    for (uint32_t turn = 0; turn < from->turns; turn++) {
        arena_seat_orders orders = {
            from->moves[turn], seats, from->words[turn], 2, no_cells, 0, no_cells, 0, 0, 0};
        uint8_t status = arena_turn(record[now], length, &orders, record[1 - now], 4000, &length);
        need(status == ARENA_OK, "no turn");
        now = 1 - now;
    }
    need(length == from->length && !memcmp(record[now], from->last, length), "a record differs");
}

static double time_records(int runs, uint32_t turns) {
    double least = 1e9;
    for (int run = 0; run < runs; run++) {
        double from = seconds(CLOCK_THREAD_CPUTIME_ID);
        for (uint32_t i = 0; i < count; i++) play_records(&games[i]);
        double took = seconds(CLOCK_THREAD_CPUTIME_ID) - from;
        if (took < least) least = took;
    }
    return least / turns;
}

// A thread steps its own games over and over, and starts those anew that are over.
typedef struct {
    double until;
    uint64_t turns;
    uint32_t first;
} share;

enum { SHARE = 256 };

static void *work(void *at) {
    share *own = at;
    arena_small_game *small = calloc(SHARE, sizeof *small);
    uint8_t moves[MOST_SEATS * SHARE];
    uint32_t words[2 * SHARE], turn[SHARE];
    for (uint32_t i = 0; i < SHARE; i++) {
        start_small(small + i, (own->first + i) % count);
        turn[i] = 0;
    }
    while (seconds(CLOCK_MONOTONIC) < own->until)
        for (int round = 0; round < 20; round++) {
            for (uint32_t i = 0; i < SHARE; i++) {
                uint32_t number = (own->first + i) % count;
                if (turn[i] == games[number].turns) {
                    start_small(small + i, number);
                    turn[i] = 0;
                }
                memcpy(moves + seats * i, games[number].moves[turn[i]], seats);
                memcpy(words + 2 * i, games[number].words[turn[i]], 8);
                turn[i]++;
            }
            arena_many_orders orders = arena_orders_of(SHARE, moves, seats, words, 2);
            arena_small_step(small, SHARE, &orders);
            own->turns += SHARE;
        }
    free(small);
    return NULL;
}

static double threads_rate(int threads, double length) {
    pthread_t running[4];
    share shares[4];
    double from = seconds(CLOCK_MONOTONIC);
    uint64_t turns = 0;
    for (int i = 0; i < threads; i++) {
        shares[i] = (share){from + length, 0, SHARE * i};
        need(!pthread_create(&running[i], NULL, work, &shares[i]), "no thread");
    }
    for (int i = 0; i < threads; i++) {
        pthread_join(running[i], NULL);
        turns += shares[i].turns;
    }
    return turns / (seconds(CLOCK_MONOTONIC) - from);
}

static void say(const char *what, double each) {
    printf("%-34s %7.1f ns a turn, %6.2f M a second\n", what, each * 1e9, 1e-6 / each);
}

int main(int argc, char **argv) {
    FILE *file = argc == 4 ? fopen(argv[1], "rb") : NULL;
    need(file != NULL, "bench FILE RUNS SECONDS");
    get(file, &count, 4);
    need(count <= MOST_GAMES, "too many games");
    games = calloc(count, sizeof *games);
    for (uint32_t i = 0; i < count; i++) read_game(file, &games[i]);
    uint32_t turns = longest_first();
    spread();
    int runs = atoi(argv[2]);
    printf("%u games, %u turns\n", count, turns);
    say("C: all games side by side", time_small(runs, turns));
    say("C: one game", time_alone(runs, turns));
    say("C: one record", time_records(runs, turns));
    say("by hand in C, side by side", time_by_hand(runs, turns));
    for (int threads = 1; threads <= 4; threads *= 2)
        printf("%d threads: %.2f M turns a second of wall time, with new games and copied moves\n",
               threads, threads_rate(threads, atof(argv[3])) * 1e-6);
    return 0;
}
