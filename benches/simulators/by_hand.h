// A simulator of the same rules, written by hand for speed, without a proof: what a library can be
// measured against. Bodies are rings, and a plane has the number of parts on each cell. One game is
// one block of memory without pointers.
#ifndef BY_HAND_H
#define BY_HAND_H
#include <stdbool.h>
#include <stddef.h>
#include <stdint.h>
#include <string.h>

enum { STANDARD, SOLO, CONSTRICTOR, WRAPPED };
enum { UP, DOWN, LEFT, RIGHT, ONWARD };
enum { ALIVE, OUT_OF_HEALTH, WALL, SELF, BODY, HEAD };
#define SEATS 8
#define FOODBIT 0x80u

typedef struct {
    uint16_t turn;
    uint8_t mode, width, height, min_food, chance, seats;
    uint8_t health[SEATS], cause[SEATS], killer[SEATS];
    uint16_t out[SEATS];
    uint16_t head[SEATS], len[SEATS]; // the ring's index of the head, which moves down; the parts
    uint16_t nfood, mask, stride, cells; // the ring's size less 1; the plane's columns and cells
    uint32_t at_count, at_food, at_body, bytes;
} game;

static inline uint8_t *count_of(game *g) {
    return (uint8_t *)g + g->at_count;
}
static inline uint16_t *food_of(game *g) {
    return (uint16_t *)((uint8_t *)g + g->at_food);
}
static inline uint16_t *ring_of(game *g, int s) {
    return (uint16_t *)((uint8_t *)g + g->at_body) + (size_t)s * (g->mask + 1u);
}
static inline uint16_t cell_of(const game *g, int x, int y) {
    return (uint16_t)((y + 1) * g->stride + x + 1);
}

static inline size_t game_bytes(int w, int h, int seats) {
    unsigned ring = 4;
    while (ring < (unsigned)(w * h + 4)) ring *= 2;
    unsigned stride = w + 2 <= 16 ? 16 : 32;
    size_t n = (sizeof(game) + 15) & ~15ul;
    n += (stride * (h + 2) + 15) & ~15ul;
    n += (2ul * w * h + 15) & ~15ul;
    n += 2ul * ring * seats;
    return (n + 63) & ~63ul;
}

typedef struct {
    uint8_t x, y;
} xy;

static inline void game_start(game *g, int mode, int w, int h, int seats, const xy *starts,
                              int nfood, const xy *food, int min_food, int chance) {
    size_t bytes = game_bytes(w, h, seats);
    memset(g, 0, bytes);
    unsigned ring = 4;
    while (ring < (unsigned)(w * h + 4)) ring *= 2;
    g->bytes = bytes;
    g->mode = mode;
    g->width = w;
    g->height = h;
    g->seats = seats;
    g->min_food = min_food;
    g->chance = chance;
    g->mask = ring - 1;
    g->stride = w + 2 <= 16 ? 16 : 32;
    g->cells = g->stride * (h + 2);
    g->at_count = (sizeof(game) + 15) & ~15u;
    g->at_food = g->at_count + ((g->cells + 15) & ~15u);
    g->at_body = g->at_food + ((2u * w * h + 15) & ~15u);
    uint8_t *count = count_of(g);
    if (mode != CONSTRICTOR)
        for (int i = 0; i < nfood; i++) {
            uint16_t c = cell_of(g, food[i].x, food[i].y);
            food_of(g)[g->nfood++] = c;
            count[c] |= FOODBIT;
        }
    for (int s = 0; s < seats; s++) {
        uint16_t c = cell_of(g, starts[s].x, starts[s].y), *r = ring_of(g, s);
        r[0] = r[1] = r[2] = c;
        g->len[s] = 3;
        g->health[s] = 100;
        count[c] += 3;
    }
}

static inline int living(const game *g) {
    int n = 0;
    for (int s = 0; s < g->seats; s++) n += g->cause[s] == ALIVE;
    return n;
}
static inline bool is_over(const game *g) {
    return living(g) <= (g->mode == SOLO ? 0 : 1);
}

static inline void put_out(game *g, int s, int cause, int killer) {
    g->cause[s] = cause;
    g->killer[s] = killer;
    g->out[s] = g->turn + 1;
    uint16_t *r = ring_of(g, s), m = g->mask, at = g->head[s];
    uint8_t *count = count_of(g);
    for (int k = 0; k < g->len[s]; k++) count[r[(at + k) & m]]--;
}

static inline bool on_later_part(game *g, uint16_t head, int t) {
    uint16_t *r = ring_of(g, t), m = g->mask, at = g->head[t];
    for (int k = 1; k < g->len[t]; k++)
        if (r[(at + k) & m] == head) return true;
    return false;
}

static inline uint16_t next_cell(const game *g, uint16_t c, int d) {
    int step = d == UP ? g->stride : d == DOWN ? -g->stride : d == LEFT ? -1 : 1;
    uint16_t n = c + step;
    if (g->mode == WRAPPED) {
        int sh = g->stride == 16 ? 4 : 5, x = n & (g->stride - 1), y = n >> sh;
        if (x == 0)
            n += g->width;
        else if (x > g->width)
            n -= g->width;
        if (y == 0)
            n += g->height << sh;
        else if (y > g->height)
            n -= g->height << sh;
    }
    return n;
}

static inline int onward(const game *g, uint16_t second, uint16_t head) {
    if (next_cell(g, second, DOWN) == head) return DOWN;
    if (next_cell(g, second, LEFT) == head) return LEFT;
    if (next_cell(g, second, RIGHT) == head) return RIGHT;
    return UP;
}

static __attribute__((noinline)) void collide(game *g, unsigned suspects) {
    uint8_t cause[SEATS], killer[SEATS];
    unsigned hit = 0;
    for (unsigned left = suspects; left; left &= left - 1) {
        int s = __builtin_ctz(left);
        uint16_t head = ring_of(g, s)[g->head[s]];
        if (on_later_part(g, head, s)) {
            cause[s] = SELF;
            killer[s] = s;
            hit |= 1u << s;
            continue;
        }
        int body = -1, heads = -1;
        for (int t = 0; t < g->seats; t++) {
            if (t == s || g->cause[t] != ALIVE) continue;
            if ((body < 0 || g->len[t] > g->len[body]) && on_later_part(g, head, t)) body = t;
            if (ring_of(g, t)[g->head[t]] == head && g->len[t] >= g->len[s] &&
                (heads < 0 || g->len[t] > g->len[heads]))
                heads = t;
        }
        if (body >= 0) {
            cause[s] = BODY;
            killer[s] = body;
            hit |= 1u << s;
        } else if (heads >= 0) {
            cause[s] = HEAD;
            killer[s] = heads;
            hit |= 1u << s;
        }
    }
    for (; hit; hit &= hit - 1) {
        int s = __builtin_ctz(hit);
        put_out(g, s, cause[s], killer[s]);
    }
}

static inline void place_food(game *g, uint32_t word) {
    uint8_t *count = count_of(g);
    unsigned free = 0, rows[25];
    for (int y = 0; y < g->height; y++) {
        const uint8_t *row = count + (y + 1) * g->stride + 1;
        unsigned bits = 0;
        for (int x = 0; x < g->width; x++) bits |= (unsigned)(row[x] == 0) << x;
        rows[y] = bits;
        free += __builtin_popcount(bits);
    }
    if (!free) return;
    unsigned k = word % free;
    for (int y = 0;; y++) {
        unsigned n = __builtin_popcount(rows[y]);
        if (k >= n) {
            k -= n;
            continue;
        }
        unsigned bits = rows[y];
        while (k--) bits &= bits - 1;
        uint16_t c = cell_of(g, __builtin_ctz(bits), y);
        count[c] |= FOODBIT;
        food_of(g)[g->nfood++] = c;
        return;
    }
}

static inline void repeat_last(game *g, int s) {
    uint16_t *r = ring_of(g, s), m = g->mask, last = r[(g->head[s] + g->len[s] - 1) & m];
    r[(g->head[s] + g->len[s]) & m] = last;
    g->len[s]++;
    count_of(g)[last]++;
}

static inline void game_step(game *g, const uint8_t *moves, const uint32_t *words, int nwords) {
    uint8_t *count = count_of(g);
    unsigned m = g->mask, eaten = 0, seats = g->seats;
    for (unsigned s = 0; s < seats; s++) {
        if (g->cause[s] != ALIVE) continue;
        uint16_t *r = ring_of(g, s), at = g->head[s], head = r[at];
        int d = moves[s] < 4 ? moves[s] : onward(g, r[(at + 1) & m], head);
        count[r[(at + g->len[s] - 1) & m]]--;
        head = next_cell(g, head, d);
        at = (at - 1) & m;
        g->head[s] = at;
        r[at] = head;
        g->health[s]--;
        if (++count[head] & FOODBIT) {
            g->health[s] = 100;
            repeat_last(g, s);
            eaten = 1;
        }
    }
    if (eaten) {
        uint16_t *food = food_of(g);
        unsigned n = 0;
        for (unsigned i = 0; i < g->nfood; i++) {
            uint16_t f = food[i];
            bool gone = false;
            for (unsigned s = 0; s < seats; s++)
                gone |= g->cause[s] == ALIVE && ring_of(g, s)[g->head[s]] == f;
            if (gone)
                count[f] &= ~FOODBIT;
            else
                food[n++] = f;
        }
        g->nfood = n;
    }
    unsigned sh = g->stride == 16 ? 4 : 5;
    for (unsigned s = 0; s < seats; s++) {
        if (g->cause[s] != ALIVE) continue;
        uint16_t head = ring_of(g, s)[g->head[s]];
        unsigned x = (head & (g->stride - 1)) - 1, y = (head >> sh) - 1;
        if (g->health[s] == 0)
            put_out(g, s, OUT_OF_HEALTH, 0xff);
        else if (x >= g->width || y >= g->height)
            put_out(g, s, WALL, 0xff);
    }
    unsigned suspects = 0;
    for (unsigned s = 0; s < seats; s++)
        if (g->cause[s] == ALIVE && (count[ring_of(g, s)[g->head[s]]] & ~FOODBIT) != 1)
            suspects |= 1u << s;
    if (suspects) collide(g, suspects);
    if (g->mode == CONSTRICTOR) {
        for (unsigned s = 0; s < seats; s++)
            if (g->cause[s] == ALIVE) {
                g->health[s] = 100;
                uint16_t *r = ring_of(g, s), e = g->head[s] + g->len[s];
                if (r[(e - 1) & m] != r[(e - 2) & m]) repeat_last(g, s);
            }
    } else if (g->nfood < g->min_food) {
        int missing = g->min_food - g->nfood;
        if (missing > nwords) missing = nwords;
        for (int i = 0; i < missing; i++) place_food(g, words[i]);
    } else if (nwords >= 2 && words[0] % 100 < g->chance)
        place_food(g, words[1]);
    g->turn++;
}

// The record of the board, byte for byte that of bs_board, with the ids "0", "1", ..
static inline size_t game_record(game *g, uint8_t *to) {
    uint8_t *p = to;
    unsigned sh = g->stride == 16 ? 4 : 5;
    *p++ = g->mode == WRAPPED ? 2 : 1;
    *p++ = g->mode;
    *p++ = g->width;
    *p++ = g->height;
    *p++ = g->turn >> 8;
    *p++ = g->turn;
    *p++ = g->min_food;
    *p++ = g->chance;
    *p++ = g->seats;
    *p++ = g->nfood >> 8;
    *p++ = g->nfood;
    for (int i = 0; i < g->nfood; i++) {
        uint16_t c = food_of(g)[i];
        *p++ = (c & (g->stride - 1)) - 1;
        *p++ = (c >> sh) - 1;
    }
    for (int s = 0; s < g->seats; s++) {
        *p++ = 1;
        *p++ = '0' + s;
        *p++ = g->health[s];
        *p++ = g->cause[s];
        *p++ = g->cause[s] >= SELF ? g->killer[s] + 1 : 0;
        *p++ = g->out[s] >> 8;
        *p++ = g->out[s];
        *p++ = g->len[s] >> 8;
        *p++ = g->len[s];
        for (int k = 0; k < g->len[s]; k++) {
            uint16_t c = ring_of(g, s)[(g->head[s] + k) & g->mask];
            *p++ = c & (g->stride - 1);
            *p++ = c >> sh;
        }
    }
    return p - to;
}
#endif
