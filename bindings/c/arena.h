/* The rules of Battlesnake games as a library. docs/SIMULATOR.md has examples and says what is
 * proved of each call. bindings/build makes libarena.a and libarena.so.1; where the Debian package
 * libarena-dev is installed, `pkg-config --cflags --libs arena` names both.
 *
 * Two families of calls
 *   - Calls on records: a board is its record, as docs/FORMATS.md defines it. Each answer is proved
 *     to be the one of the rules' definition. They allocate by the program's malloc and free what
 *     they allocate.
 *   - Calls on games: a game is one struct in your memory, `arena_small_game` for boards of up to
 *     11 by 11 cells, `arena_large_game` for up to 25 by 25. They allocate nothing (the `load`s
 *     excepted). They are proved to be safe for whatever the memory holds, to return, and to play
 *     by the definition. Each `arena_small_..` has its `arena_large_..`.
 *
 * What you owe
 *   - A pointer points to as many entries as the length after it says, and is not null. Where the
 *     length is 0, the functions below that make structs (arena_setup, arena_orders, ..) take null
 *     too, and put ARENA_NONE there, which any list of no entries may be.
 *   - What a call writes overlaps nothing else that it is given.
 *   - Two threads do not write the same struct or buffer at once, and none reads what another
 *     writes. Apart from that any thread may call: the library has no state. Give each thread its
 *     own range of games.
 *   - No call from a signal handler, nor in the forked child of a process with threads.
 *
 * Words are drawn by you, 32 bits each: below the minimum of food each places one; else the first
 * decides by the chance and the second selects the cell. Without words no food appears.
 */
#ifndef ARENA_H
#define ARENA_H

#include <stddef.h>
#include <stdint.h>

#ifdef __cplusplus
extern "C" {
#endif

/* The version of this file; arena_version() has that of the library that is linked. */
#define ARENA_VERSION "1.1.0"
#define ARENA_VERSION_NUMBER 10100 /* 10000 * major + 100 * minor + patch */

/* A status. Each call that can fail returns one as a uint8_t; arena_status_text has its words. */
enum arena_status {
    ARENA_OK = 0,
    ARENA_NOT_A_RECORD = 1, /* not the record of a legal board */
    ARENA_NOT_A_SETUP = 2,  /* a setup that exceeds a limit */
    ARENA_LAST_TURN = 3,    /* no turn follows turn 10,000 */
    ARENA_ROOM = 4,         /* no room for the record, or the board does not fit the game */
    ARENA_MEMORY = 5,       /* out of memory */
    ARENA_HAZARDS = 6       /* `load`: the board has hazards */
};

/* A move of a seat. Any other byte goes straight on, or up in a snake's first turn. */
enum arena_direction {
    ARENA_UP = 0,
    ARENA_DOWN = 1,
    ARENA_LEFT = 2,
    ARENA_RIGHT = 3,
    ARENA_STRAIGHT_ON = 4
};

enum arena_mode { ARENA_STANDARD = 0, ARENA_SOLO = 1, ARENA_CONSTRICTOR = 2, ARENA_WRAPPED = 3 };

/* Why a snake is out. */
enum arena_cause {
    ARENA_ALIVE = 0,
    ARENA_OUT_OF_HEALTH = 1,
    ARENA_WALL_COLLISION = 2,
    ARENA_SELF_COLLISION = 3,
    ARENA_SNAKE_COLLISION = 4,
    ARENA_HEAD_COLLISION = 5,
    ARENA_HAZARD = 6
};

enum {
    ARENA_SEATS = 8,
    ARENA_NO_SEAT = 255,         /* the killer of a seat that has none */
    ARENA_RECORD_BYTES = 166888, /* room for any record */
    ARENA_LAST_TURN_NUMBER = 10000
};

/* A cell of a board; (0, 0) is the bottom left. */
typedef struct {
    uint8_t x, y;
} arena_cell;

/* A cell of a board, or one next to it. */
typedef struct {
    int8_t x, y;
} arena_place;

/* The version of the library, as ARENA_VERSION was when it was built, and what it was built from:
 * lines of version, commit, kit, and whether it is proved. Both are constants. */
const char *arena_version(void);
const char *arena_built(void);

/* The words of a status. */
static inline const char *arena_status_text(uint8_t status) {
    static const char *const texts[] = {"no fault",
                                        "not the record of a legal board",
                                        "a setup that exceeds a limit",
                                        "no turn follows turn 10,000",
                                        "no room",
                                        "out of memory",
                                        "a board with hazards"};
    return status < sizeof texts / sizeof *texts ? texts[status] : "no status of arena.h";
}

/* A list of no entries. */
static const uint64_t arena_none[1] = {0};
#define ARENA_NONE ((const void *)arena_none)

static inline const void *arena_list(const void *list) {
    return list ? list : ARENA_NONE;
}

/* ---- Calls on records ---- */

/* A setup by seats; the snakes have the ids "0", "1" and so on. */
typedef struct {
    const arena_cell *starts; /* one for each seat, 1 to 8, all different */
    size_t starts_len;
    const arena_cell *food; /* all different */
    size_t food_len;
    const arena_cell *hazards; /* if has_hazards is not 0 */
    size_t hazards_len;
    uint8_t mode, width, height, min_food, chance, has_hazards, damage;
} arena_seat_setup;

/* The orders of one turn. */
typedef struct {
    const uint8_t *moves; /* a direction for each seat; a seat without one goes straight on */
    size_t moves_len;
    const uint32_t *words; /* the first 32 are used */
    size_t words_len;
    const arena_cell *hazards; /* the hazards after the turn, if has_hazards is not 0 */
    size_t hazards_len;
    const arena_cell *food; /* added at the end of the turn, if has_food is not 0 */
    size_t food_len;
    uint8_t has_hazards, has_food;
} arena_seat_orders;

/* A setup without hazards: a standard game, in which food appears at least 1 at a time and by a
 * chance of 15 percent. Either list may be null with no entries; set what differs. */
static inline arena_seat_setup arena_setup(uint8_t width, uint8_t height, const arena_cell *starts,
                                           size_t starts_len, const arena_cell *food,
                                           size_t food_len) {
    const arena_cell *none = (const arena_cell *)ARENA_NONE;
    arena_seat_setup setup = {(const arena_cell *)arena_list(starts),
                              starts_len,
                              (const arena_cell *)arena_list(food),
                              food_len,
                              none,
                              0,
                              ARENA_STANDARD,
                              width,
                              height,
                              1,
                              15,
                              0,
                              0};
    return setup;
}

/* Orders without a map. Either list may be null with no entries. */
static inline arena_seat_orders arena_orders(const uint8_t *moves, size_t moves_len,
                                             const uint32_t *words, size_t words_len) {
    const arena_cell *none = (const arena_cell *)ARENA_NONE;
    arena_seat_orders orders = {(const uint8_t *)arena_list(moves),
                                moves_len,
                                (const uint32_t *)arena_list(words),
                                words_len,
                                none,
                                0,
                                none,
                                0,
                                0,
                                0};
    return orders;
}

/* Whether the bytes are the record of a legal board: ARENA_OK, ARENA_NOT_A_RECORD, ARENA_MEMORY. */
uint8_t arena_legal(const uint8_t *record, size_t record_len);

/* Writes 1 if the game of the record is over, else 0. ARENA_OK, ARENA_NOT_A_RECORD,
 * ARENA_MEMORY. After anything but ARENA_OK nothing is written. */
uint8_t arena_over(const uint8_t *record, size_t record_len, uint8_t *over);

/* Writes the record of turn 0 and its length, and nothing behind it. ARENA_OK, ARENA_NOT_A_SETUP,
 * ARENA_ROOM, ARENA_MEMORY. After anything but ARENA_OK nothing is written. */
uint8_t arena_start(const arena_seat_setup *setup, uint8_t *into, size_t room, size_t *length);

/* Plays a turn: writes the record after it and its length, and nothing behind it. ARENA_OK,
 * ARENA_NOT_A_RECORD, ARENA_LAST_TURN, ARENA_ROOM, ARENA_MEMORY. After anything but ARENA_OK
 * nothing is written. */
uint8_t arena_turn(const uint8_t *record, size_t record_len, const arena_seat_orders *orders,
                   uint8_t *into, size_t room, size_t *length);

/* The orders of many games: game i has the i-th `moves_each` bytes and the i-th `words_each` words.
 * A game for which a list is too short has none. Games on a map have hazards beside them: a byte
 * for each cell, row by row from the bottom, that says how often the cell is a hazard, game i the
 * i-th `hazards_each` bytes, and the health that each costs, 0 to 100, a byte for each game. They
 * are those of the board before the turn. arena_turns does not read them: a record has its own. */
typedef struct {
    const uint8_t *moves;
    size_t moves_len, moves_each;
    const uint32_t *words;
    size_t words_len, words_each;
    const uint8_t *hazards;
    size_t hazards_len, hazards_each;
    const uint8_t *damages;
    size_t damages_len;
} arena_many_orders;

/* The last five fields of orders without hazards. */
#define ARENA_NO_HAZARDS (const uint8_t *)ARENA_NONE, 0, 0, (const uint8_t *)ARENA_NONE, 0

/* The orders of `count` games, each of `moves_each` moves and `words_each` words, without hazards.
 * A list may be null with no entries. */
static inline arena_many_orders arena_orders_of(size_t count, const uint8_t *moves,
                                                size_t moves_each, const uint32_t *words,
                                                size_t words_each) {
    arena_many_orders orders = {(const uint8_t *)arena_list(moves),
                                count * moves_each,
                                moves_each,
                                (const uint32_t *)arena_list(words),
                                count * words_each,
                                words_each,
                                ARENA_NO_HAZARDS};
    return orders;
}

/* The same orders of `count` games on a map: `cells` bytes of hazards and a damage for each. */
static inline arena_many_orders arena_among_hazards(arena_many_orders orders, size_t count,
                                                    const uint8_t *hazards, size_t cells,
                                                    const uint8_t *damages) {
    arena_many_orders among = {orders.moves,
                               orders.moves_len,
                               orders.moves_each,
                               orders.words,
                               orders.words_len,
                               orders.words_each,
                               (const uint8_t *)arena_list(hazards),
                               count * cells,
                               cells,
                               (const uint8_t *)arena_list(damages),
                               count};
    return among;
}

/* Plays a turn of many records. Record i lies at the start of the i-th slot: the slots share
 * `records` equally. lengths[i] is its length. The new record and its length take the place of the
 * old ones; statuses[i] is the answer of arena_turn, and where it is not ARENA_OK the record stays.
 * Returns the number of turns that were played. */
size_t arena_turns(uint8_t *records, size_t records_len, size_t *lengths, size_t lengths_len,
                   uint8_t *statuses, size_t statuses_len, const arena_many_orders *orders);

/* ---- Calls on games ---- */

typedef struct {
    uint8_t mode, width, height, seats, min_food, chance;
} arena_settings;

typedef struct {
    uint16_t parts; /* the number of parts of the body */
    uint16_t out;   /* the turn in which it went out, 0 for none */
    uint8_t health, cause;
    uint8_t killer; /* its seat, ARENA_NO_SEAT for none */
    uint8_t spare;
} arena_seat;

typedef struct {
    arena_settings settings;
    uint16_t turn;
    uint16_t foods; /* the number of cells with food */
    uint8_t living; /* the number of living snakes */
    uint8_t over;   /* 1 once the game is over, else 0 */
    arena_seat seats[8];
} arena_head;

/* In these lists the cell (x, y) is (y + 1) * 32 + x + 1. The plane has the number of parts of
 * living snakes on each cell, and 128 more where food is. The body of seat i begins at
 * bodies[125 i] or bodies[629 i], its head first. memcpy copies a game. */
typedef struct {
    arena_head head;
    uint16_t food[121];
    uint8_t plane[416];
    uint16_t bodies[1000];
} arena_small_game;

typedef struct {
    arena_head head;
    uint16_t food[625];
    uint8_t plane[864];
    uint16_t bodies[5032];
} arena_large_game;

/* The first boards of many games. */
typedef struct {
    const arena_cell *starts; /* settings.seats cells for each game, all different */
    size_t starts_len;
    const arena_cell *food; /* food_each cells for each game, all different */
    size_t food_len, food_each;
    const uint8_t *which; /* a byte for each game: see `start` and `advance` */
    size_t which_len;
    arena_settings settings;
} arena_many_starts;

/* The starts of `count` games: `which` has a byte for each, 0 to leave it as it is. `food` may be
 * null with food_each 0. */
static inline arena_many_starts arena_starts_of(size_t count, arena_settings settings,
                                                const arena_cell *starts, const arena_cell *food,
                                                size_t food_each, const uint8_t *which) {
    arena_many_starts all = {(const arena_cell *)arena_list(starts),
                             count * settings.seats,
                             (const arena_cell *)arena_list(food),
                             count * food_each,
                             food_each,
                             (const uint8_t *)arena_list(which),
                             count,
                             settings};
    return all;
}

/* For both sizes, here written for the small one:
 *
 * arena_small_start starts each game whose byte of `which` is not 0, and returns how many started.
 * One whose settings or cells are not those of a first board is over, with no living snake.
 *
 * arena_small_step plays a turn in each game that is not over and is below turn 10,000. A
 * caller that plays a map changes its hazards between turns: a game has no room for them.
 *
 * arena_small_planes writes the planes of game i into the i-th `each` bytes. A plane has width *
 * height bytes, row by row from the bottom. The first has 1 where food is. Then come those of the
 * seats, each 0 or, for a living snake, the number of turns until that part is gone, if nothing is
 * eaten, at most 255.
 *
 * arena_small_advance is one step of many environments, in one pass over the games. The byte of a
 * game in `which` says what is done with it: 0, or no byte, plays its turn, as arena_small_step
 * does; 1 starts it, as arena_small_start does; and both write its planes, as arena_small_planes
 * does. Another byte leaves the game and its planes as they are. Returns how many started. `starts`
 * is read for the games that start, `orders` for those that play. Nothing is drawn here, so that
 * cells need to be drawn for the games that start alone.
 *   - Environments that start a game anew in the step after its end (gymnasium's NEXT_STEP): one
 *     call, with the `over` of each head, as it was after the last call, for `which`; 1 also where
 *     the caller has cut a game off.
 *   - In the step of its end (SAME_STEP): one call without bytes. If games are over then, their
 *     planes and heads are the last ones, to be copied, and a second call, with 1 for these games
 *     and 2 for all others, touches them alone. A reset of some games is that second call.
 *   - An environment a seat: the same calls. Seat s of game i sees planes 0 and 1 + s first, and
 *     the game starts anew once its last seat has received its end.
 *
 * arena_small_food lists the cells with food, the oldest first, and arena_small_body the parts of a
 * seat, its head first, as far as there is room. They return the number of cells.
 *
 * arena_small_save writes the record of the board as far as there is room, with the ids "0" to "7",
 * and returns its length; 0 if the settings are not those of a game.
 *
 * arena_small_load makes the game of a record, whose ids are not kept. A living body that crosses
 * itself more than once has no room either, though no game that was started has one: ARENA_OK,
 * ARENA_NOT_A_RECORD, ARENA_ROOM, ARENA_HAZARDS, ARENA_MEMORY. After ARENA_ROOM and ARENA_HAZARDS
 * the game is over, with no living snake; after the other faults it is as it was. */
#define ARENA_CALLS(size, game)                                                                    \
    size_t arena_##size##_start(game *games, size_t count, const arena_many_starts *starts);       \
    void arena_##size##_step(game *games, size_t count, const arena_many_orders *orders);          \
    void arena_##size##_planes(const game *games, size_t count, uint8_t *into, size_t into_len,    \
                               size_t each);                                                       \
    size_t arena_##size##_advance(game *games, size_t count, const arena_many_orders *orders,      \
                                  const arena_many_starts *starts, uint8_t *into, size_t into_len, \
                                  size_t each);                                                    \
    size_t arena_##size##_food(const game *from, arena_place *into, size_t room);                  \
    size_t arena_##size##_body(const game *from, size_t seat, arena_place *into, size_t room);     \
    size_t arena_##size##_save(const game *from, uint8_t *into, size_t room);                      \
    uint8_t arena_##size##_load(game *to, const uint8_t *record, size_t record_len);

ARENA_CALLS(small, arena_small_game)
ARENA_CALLS(large, arena_large_game)

/* For tests of declarations: writes the sizes of arena_settings, arena_seat, arena_head,
 * arena_small_game, arena_large_game, arena_cell, arena_place, arena_many_orders,
 * arena_many_starts, arena_seat_orders and arena_seat_setup, and numbers the fields of both
 * games. */
void arena_layout(arena_small_game *small, arena_large_game *large, size_t *sizes, size_t count);

#ifdef __cplusplus
}
#endif

#endif
