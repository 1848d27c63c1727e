/* Replays the games of a file that tests/library wrote: by the calls on records, by those on many
 * records, and by those on games. Each board has to have the record of the file.
 *
 *     replay FILE
 */
#include "arena.h"

#include <stdio.h>
#include <stdlib.h>
#include <string.h>

enum { COPIES = 3 };

/* A game of the file. */
typedef struct {
    uint8_t mode, width, height, seats, min_food, chance, foods, words;
    arena_cell starts[8], food[16];
    uint32_t turns;
} setup;

/* A game as each family of calls has it. */
typedef struct {
    uint8_t record[ARENA_RECORD_BYTES];
    size_t length;
    uint8_t slots[2 * ARENA_RECORD_BYTES];
    size_t lengths[2];
    arena_small_game small[COPIES];
    arena_large_game large[COPIES];
} boards;

static const arena_cell no_cells[1];

static void fail(const char *what) {
    fprintf(stderr, "replay: %s\n", what);
    exit(1);
}

static void need(int holds, const char *what) {
    if (!holds) fail(what);
}

static void get(FILE *file, void *to, size_t bytes) {
    need(fread(to, 1, bytes, file) == bytes, "the file is cut off");
}

static size_t get_record(FILE *file, uint8_t *to) {
    uint32_t bytes;
    get(file, &bytes, sizeof bytes);
    need(bytes <= ARENA_RECORD_BYTES, "a record is too long");
    get(file, to, bytes);
    return bytes;
}

static int is_small(const setup *s) {
    return s->width <= 11 && s->height <= 11;
}

static void same(const boards *b, const setup *s, const uint8_t *wanted, size_t length) {
    static uint8_t saved[ARENA_RECORD_BYTES];
    need(b->length == length && !memcmp(b->record, wanted, length), "a record differs");
    for (int i = 0; i < 2; i++) {
        const uint8_t *slot = b->slots + i * ARENA_RECORD_BYTES;
        need(b->lengths[i] == length && !memcmp(slot, wanted, length), "a slot differs");
    }
    for (int i = 0; i < COPIES; i++) {
        size_t bytes = is_small(s) ? arena_small_save(&b->small[i], saved, sizeof saved)
                                   : arena_large_save(&b->large[i], saved, sizeof saved);
        need(bytes == length && !memcmp(saved, wanted, length), "a game differs");
    }
}

static void start_games(boards *b, const setup *s) {
    arena_cell starts[8 * COPIES], food[16 * COPIES];
    static const uint8_t which[COPIES] = {1, 1, 1};
    for (int i = 0; i < COPIES; i++) {
        memcpy(starts + i * s->seats, s->starts, s->seats * sizeof *starts);
        memcpy(food + i * s->foods, s->food, s->foods * sizeof *food);
    }
    arena_many_starts first = {
        starts,   (size_t)s->seats * COPIES,
        food,     (size_t)s->foods * COPIES,
        s->foods, which,
        COPIES,   {s->mode, s->width, s->height, s->seats, s->min_food, s->chance}};
    size_t count = is_small(s) ? arena_small_start(b->small, COPIES, &first)
                               : arena_large_start(b->large, COPIES, &first);
    need(count == COPIES, "a game does not start");
}

static void start(boards *b, const setup *s) {
    arena_seat_setup seats = {s->starts, s->seats,  s->food,     s->foods,  no_cells, 0, s->mode,
                              s->width,  s->height, s->min_food, s->chance, 0,        0};
    need(arena_start(&seats, b->record, sizeof b->record, &b->length) == ARENA_OK, "no start");
    for (int i = 0; i < 2; i++) {
        memcpy(b->slots + i * ARENA_RECORD_BYTES, b->record, b->length);
        b->lengths[i] = b->length;
    }
    start_games(b, s);
}

/* The same moves and words for `copies` games. */
static arena_many_orders orders_of(const setup *s, const uint8_t *moves, const uint32_t *words,
                                   size_t copies) {
    arena_many_orders orders = {moves,    s->seats * copies, s->seats, words, s->words * copies,
                                s->words, ARENA_NO_HAZARDS};
    return orders;
}

static void play(boards *b, const setup *s, const uint8_t *moves, const uint32_t *words) {
    arena_seat_orders one = {moves, s->seats, words, s->words, no_cells, 0, no_cells, 0, 0, 0};
    arena_many_orders two = orders_of(s, moves, words, 2), all = orders_of(s, moves, words, COPIES);
    uint8_t over = 2, statuses[2];
    need(arena_over(b->record, b->length, &over) == ARENA_OK && over == 0, "the game is over");
    need(arena_turn(b->record, b->length, &one, b->record, 0, &b->length) == ARENA_ROOM, "room");
    static uint8_t into[ARENA_RECORD_BYTES];
    need(arena_turn(b->record, b->length, &one, into, sizeof into, &b->length) == ARENA_OK, "turn");
    memcpy(b->record, into, b->length);
    need(arena_turns(b->slots, sizeof b->slots, b->lengths, 2, statuses, 2, &two) == 2, "turns");
    need(statuses[0] == ARENA_OK && statuses[1] == ARENA_OK, "a status");
    if (is_small(s))
        arena_small_step(b->small, COPIES, &all);
    else
        arena_large_step(b->large, COPIES, &all);
}

static void load(boards *b, const setup *s) {
    uint8_t status = is_small(s) ? arena_small_load(&b->small[1], b->record, b->length)
                                 : arena_large_load(&b->large[1], b->record, b->length);
    need(status == ARENA_OK, "a board is not loaded");
}

static size_t replay(FILE *file, boards *b) {
    static uint8_t wanted[ARENA_RECORD_BYTES];
    setup s;
    get(file, &s, 8);
    get(file, s.starts, 2 * s.seats);
    get(file, s.food, 2 * s.foods);
    get(file, &s.turns, 4);
    start(b, &s);
    same(b, &s, wanted, get_record(file, wanted));
    for (uint32_t turn = 0; turn < s.turns; turn++) {
        uint8_t moves[8 * COPIES];
        uint32_t words[32 * COPIES];
        get(file, moves, s.seats);
        get(file, words, 4 * s.words);
        for (int i = 1; i < COPIES; i++) {
            memcpy(moves + i * s.seats, moves, s.seats);
            memcpy(words + i * s.words, words, 4 * s.words);
        }
        if (turn == s.turns / 2) load(b, &s);
        play(b, &s, moves, words);
        same(b, &s, wanted, get_record(file, wanted));
    }
    need(arena_legal(b->record, b->length) == ARENA_OK, "the last board is not legal");
    return s.turns;
}

static void check_sizes(const size_t *sizes) {
    const size_t own[11] = {
        sizeof(arena_settings),    sizeof(arena_seat),        sizeof(arena_head),
        sizeof(arena_small_game),  sizeof(arena_large_game),  sizeof(arena_cell),
        sizeof(arena_place),       sizeof(arena_many_orders), sizeof(arena_many_starts),
        sizeof(arena_seat_orders), sizeof(arena_seat_setup)};
    need(!memcmp(sizes, own, sizeof own), "a size differs");
}

static void check_head(const arena_head *h) {
    arena_head own = {{1, 2, 3, 4, 5, 6}, 1793, 2050, 9, 10, {{0, 0, 0, 0, 0, 0}}};
    for (int i = 0; i < 8; i++) {
        int n = 100 + 10 * i;
        arena_seat seat = {256 * n, 256 * n + 1, n + 2, n + 3, n + 4, n + 5};
        own.seats[i] = seat;
    }
    need(!memcmp(h, &own, sizeof own), "a field of a head differs");
}

static void check_layout(boards *b) {
    size_t sizes[11];
    arena_layout(b->small, b->large, sizes, 11);
    check_sizes(sizes);
    check_head(&b->small->head);
    check_head(&b->large->head);
    const arena_small_game *small = b->small;
    const arena_large_game *large = b->large;
    need(small->food[120] == 10120 && large->food[624] == 10624, "food differs");
    need(small->plane[415] == 415 % 251 && large->plane[863] == 863 % 251, "a plane differs");
    need(small->bodies[0] == 20000 && small->bodies[999] == 20999, "bodies differ");
    need(large->bodies[0] == 20000 && large->bodies[5031] == 25031, "bodies differ");
}

int main(int count, char **words) {
    FILE *file = count == 2 ? fopen(words[1], "rb") : NULL;
    boards *b = calloc(1, sizeof *b);
    need(file && b, "no file or no memory");
    check_layout(b);
    uint32_t games;
    size_t turns = 0;
    get(file, &games, 4);
    for (uint32_t game = 0; game < games; game++) turns += replay(file, b);
    printf("%u games, %zu turns agree\n", games, turns);
    free(b);
    return 0;
}
