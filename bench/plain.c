/* The whole hour of document 01 in direct C, written from the document and its settled readings: an opponent for the proved reconstruction.
   A source is one curve whatever its kind. A purchase has no start, no lows and a flat price; a fixed source has no price, and its lows and
   its high are its level. Direct energy stays part of a unit's level, so floors, prices and costs are all those of levels. A level never falls
   below the basic amount, so the prorated cost that replaces the curve below it is asked for the direct energy alone. */
#include "hour.h"

#include <string.h>

enum { MOST = 32, NONE = 255, NUMBERS = 1024 };
enum { NORMAL, OIL, EMERGENCY, LAST, RUNGS };

/* ---- 15: whether some deck gives the record ---- */

static bool within(uint32_t x, uint32_t least, uint32_t most) { return least <= x && x <= most; }

/* A label is 1 to 16 printing characters; the bytes after them are 0. */
static bool label_stands(const struct label *l) {
    unsigned wrong = 0;
    for (unsigned i = 0; i < 16; i++) {
        unsigned c = l->bytes[i];
        wrong |= i < l->len ? (c < 32) | (c > 126) : c != 0;
    }
    return !wrong && within(l->len, 1, 16);
}

/* Whether the label stands and is new to its class, whose labels so far are in an open table. Those that stand are equal when their bytes are. */
static bool label_enters(const struct label *table[2 * MOST], const struct label *l) {
    uint64_t front, back;
    if (!label_stands(l)) return false;
    memcpy(&front, l->bytes, 8);
    memcpy(&back, l->bytes + 8, 8);
    uint64_t at = ((front ^ (back >> 29 | back << 35)) * 0x9e3779b97f4a7c15u) >> 58;
    for (; table[at]; at = (at + 1) % (2 * MOST)) {
        if (!memcmp(table[at]->bytes, l->bytes, 16)) return false;
    }
    table[at] = l;
    return true;
}

static bool source_stands(const struct source *s) {
    if (s->kind == UNIT) {
        return 1 <= s->k && s->k <= s->e && s->e <= s->o && s->o <= s->n && s->n <= s->g && s->g <= s->h && s->h <= 2000 && s->a <= 999999 && s->b <= 99999 &&
               s->c <= 99 && s->r <= 39996 && !s->rate;
    }
    if (s->h | s->n | s->o | s->e | s->k | s->a | s->b | s->c | s->r) return false;
    return s->g <= 2000 && (s->kind == PURCHASE ? s->rate <= 999999 : s->kind == FIXED && !s->rate);
}

static bool directs_stand(const struct hour *h) {
    const struct direct *first[MOST] = {0};
    uint32_t percent[MOST] = {0};
    for (size_t i = 0; i < h->directs; i++) {
        const struct direct *d = &h->direct[i];
        if (d->source >= h->sources || d->delivery >= h->deliveries || !within(d->percent, 1, 100)) return false;
        const struct source *u = &h->source[d->source];
        bool basis = d->basis == MWH ? within(d->mwh, 1, 1999) && d->mwh < u->h : (d->basis == LOW || d->basis == GENERATION) && !d->mwh;
        if (u->kind != UNIT || !basis) return false;
        if (!first[d->source]) first[d->source] = d;
        if (first[d->source]->basis != d->basis || first[d->source]->mwh != d->mwh) return false;
        if ((percent[d->source] += d->percent) > 100) return false;
    }
    return true;
}

/* Whether the entries past the counts are blank. Sources and deliveries have no gaps before the end of their labels. */
static bool rest_blank(const struct hour *h) {
    static const struct source none;
    for (size_t i = h->sources; i < MOST; i++) {
        if (memcmp(&h->source[i], &none, offsetof(struct source, label) + sizeof(struct label))) return false;
    }
    for (size_t i = h->deliveries; i < MOST; i++) {
        if (memcmp(&h->delivery[i], &none, offsetof(struct delivery, label) + sizeof(struct label))) return false;
    }
    for (size_t i = h->directs; i < MOST; i++) {
        const struct direct *d = &h->direct[i];
        if (d->basis | d->mwh | d->percent | d->source | d->delivery) return false;
    }
    return true;
}

static bool deck_gives(const struct hour *h) {
    if (h->losses > 64000 || h->sources > MOST || h->deliveries > MOST || h->directs > MOST) return false;
    const struct label *sources[2 * MOST] = {0}, *deliveries[2 * MOST] = {0};
    uint32_t generation = 0, used = h->losses;
    bool placed = false, unplaced = false;
    for (size_t i = 0; i < h->sources; i++) {
        if (!source_stands(&h->source[i]) || !label_enters(sources, &h->source[i].label)) return false;
        generation += h->source[i].g;
    }
    for (size_t i = 0; i < h->deliveries; i++) {
        const struct delivery *t = &h->delivery[i];
        if (t->sequence > 99 || !within(t->type, 1, 9) || !within(t->block, 1, 9) || t->mwh > 2000 || !label_enters(deliveries, &t->label)) return false;
        used += t->mwh;
        placed |= t->sequence != 0;
        unplaced |= t->sequence == 0;
    }
    return directs_stand(h) && used <= generation && (placed || !unplaced) && rest_blank(h);
}

/* ---- sequence numbers and groups ---- */

/* Internal numbers. A delivery of sequence 0 is placed by tables of the others: least and greatest of each type and block, least of each type,
   least of all. Blocks 0 and 10 stay empty. */
void number_plainly(const struct hour *h, uint32_t number[MOST]) {
    enum { NOT = 100 };
    uint8_t least[10][11], greatest[10][11] = {{0}}, of_type[10], of_all = NOT;
    bool unplaced = false;
    for (size_t i = 0; i < h->deliveries; i++) {
        number[i] = 10 * h->delivery[i].sequence;
        unplaced |= !number[i];
    }
    if (!unplaced) return;
    memset(least, NOT, sizeof least);
    memset(of_type, NOT, sizeof of_type);
    for (size_t i = 0; i < h->deliveries; i++) {
        uint32_t type = h->delivery[i].type, block = h->delivery[i].block;
        uint8_t s = (uint8_t)h->delivery[i].sequence;
        if (!s) continue;
        if (s < least[type][block]) least[type][block] = s;
        if (s > greatest[type][block]) greatest[type][block] = s;
        if (s < of_type[type]) of_type[type] = s;
        if (s < of_all) of_all = s;
    }
    for (size_t i = 0; i < h->deliveries; i++) {
        uint32_t type = h->delivery[i].type, block = h->delivery[i].block;
        if (number[i]) continue;
        if (least[type][block] != NOT) number[i] = 10u * least[type][block] - 1;
        else if (least[type][block + 1] != NOT) number[i] = 10u * least[type][block + 1] - 1;
        else if (greatest[type][block - 1]) number[i] = 10u * greatest[type][block - 1] + 1;
        else if (of_type[type] != NOT) number[i] = 10u * of_type[type] - 1;
        else number[i] = 10u * of_all - 1;
    }
}

/* A group's members and D lines are chains in deck order, ended by NONE. */
struct group {
    uint32_t number;
    int64_t mwh;
    uint8_t member, direct;
};

struct groups {
    size_t n;
    struct group group[MOST]; /* by falling number */
    uint8_t next_member[MOST], next_direct[MOST];
};

/* The numbers in use are bits of a set, walked from the highest. */
static void form_groups(const struct hour *h, struct groups *gs) {
    uint32_t number[MOST];
    uint64_t used[NUMBERS / 64] = {0};
    uint8_t group[NUMBERS]; /* of a number in use */
    number_plainly(h, number);
    for (size_t i = 0; i < h->deliveries; i++) used[number[i] / 64] |= (uint64_t)1 << number[i] % 64;
    gs->n = 0;
    for (size_t w = NUMBERS / 64; w-- > 0;) {
        while (used[w]) {
            uint32_t bit = 63 - (uint32_t)__builtin_clzll(used[w]), n = 64 * (uint32_t)w + bit;
            used[w] ^= (uint64_t)1 << bit;
            group[n] = (uint8_t)gs->n;
            gs->group[gs->n++] = (struct group){n, 0, NONE, NONE};
        }
    }
    for (size_t i = h->deliveries; i-- > 0;) {
        struct group *g = &gs->group[group[number[i]]];
        gs->next_member[i] = g->member;
        g->member = (uint8_t)i;
        g->mwh += h->delivery[i].mwh;
    }
    for (size_t i = h->directs; i-- > 0;) {
        struct group *g = &gs->group[group[number[h->direct[i].delivery]]];
        gs->next_direct[i] = g->direct;
        g->direct = (uint8_t)i;
    }
}

/* ---- sources ---- */

struct sources {
    size_t n;
    int64_t level[MOST], high[MOST], start[MOST];
    int64_t low[RUNGS][MOST];                         /* floors of the level */
    int64_t fixed[MOST], linear[MOST], square[MOST];  /* from the start up a level m costs fixed + linear m + square m m */
    int64_t percent[MOST], basic[MOST], direct[MOST]; /* the percents so far, b and D */
    int64_t basic_cost[MOST], direct_cost[MOST];      /* W(b), and the part of it that goes with D */
};

static void start_sources(const struct hour *h, struct sources *s) {
    s->n = h->sources;
    for (size_t i = 0; i < s->n; i++) {
        const struct source *f = &h->source[i];
        bool unit = f->kind == UNIT;
        int64_t fixed = f->kind == FIXED ? f->g : 0;
        s->level[i] = f->g;
        s->high[i] = unit ? f->h : f->g;
        s->start[i] = f->k;
        s->low[NORMAL][i] = fixed + f->n;
        s->low[OIL][i] = fixed + f->o;
        s->low[EMERGENCY][i] = fixed + f->e;
        s->low[LAST][i] = fixed;
        s->fixed[i] = 2 * (int64_t)f->a * f->r;
        s->linear[i] = unit ? 2 * (int64_t)f->b * f->r : 2000 * (int64_t)f->rate;
        s->square[i] = (int64_t)f->c * f->r;
        s->percent[i] = s->direct[i] = s->direct_cost[i] = 0;
    }
}

/* The curve's cost of a level. */
static int64_t cost(const struct sources *s, size_t i, int64_t m) {
    int64_t k = s->start[i], at = m < k ? k : m;
    int64_t whole = s->fixed[i] + (s->linear[i] + s->square[i] * at) * at;
    return m < k ? whole * m / k : whole;
}

/* What a group has from one source: direct and incremental MWh, direct and incremental cost. Kept until no refusal can come. */
struct part {
    size_t source;
    int64_t amount[4];
};

struct parts {
    size_t n, begin[MOST + 1]; /* group j's parts start at begin[j] */
    uint8_t of[MOST];          /* the present group's part of each source, counted from its begin, or NONE */
    struct part part[MOST * MOST];
};

/* The present group j's amounts from a source. */
static int64_t *amounts(struct parts *p, size_t j, size_t source) {
    if (p->of[source] == NONE) {
        p->of[source] = (uint8_t)(p->n - p->begin[j]);
        p->part[p->n++] = (struct part){source, {0}};
    }
    return p->part[p->begin[j] + p->of[source]].amount;
}

/* Brings a source to a level; group j has what is lost. */
static void move(struct sources *s, struct parts *p, size_t j, size_t i, int64_t level) {
    int64_t *a = amounts(p, j, i);
    a[1] += s->level[i] - level;
    a[3] += cost(s, i, s->level[i]) - cost(s, i, level);
    s->level[i] = level;
}

/* ---- the choice of MWh ---- */

/* Bidders in the order that settles ties. A bidder's bids fall by its step from its top, as many as it has room; the greatest win. */
struct bids {
    size_t n, source[MOST];
    int64_t top[MOST], step[MOST], room[MOST], won[MOST];
    int64_t enough; /* at or above it lie as many bids as are wanted */
};

/* Bids of the sources with room. Going down (way 1) a bid is the price of a top MWh and a tie takes the earlier source; going up (way -1) it is
   the next MWh's price below 0 and a tie takes the later. A source whose top is below another's goal-th bid cannot win and is left out. */
static void call_bids(struct bids *b, const struct sources *s, const int64_t room[MOST], int64_t goal, int64_t way) {
    int64_t top[MOST], last[MOST], enough = -INT64_MAX;
    for (size_t i = 0; i < s->n; i++) {
        int64_t bid = way * (s->linear[i] + s->square[i] * (2 * s->level[i] - way));
        top[i] = room[i] > 0 ? bid : INT64_MIN;
        last[i] = room[i] >= goal ? bid - 2 * s->square[i] * (goal - 1) : INT64_MIN;
    }
    for (size_t i = 0; i < s->n; i++) enough = last[i] > enough ? last[i] : enough;
    b->enough = enough;
    b->n = 0;
    for (size_t k = 0; k < s->n; k++) {
        size_t i = way > 0 ? k : s->n - 1 - k;
        b->source[b->n] = i;
        b->n += top[i] >= enough;
    }
    for (size_t k = 0; k < b->n; k++) {
        size_t i = b->source[k];
        b->top[k] = top[i];
        b->step[k] = 2 * s->square[i];
        b->room[k] = room[i];
        b->won[k] = 0;
    }
}

/* So many more, one MWh after another. A tree of the greater of two keys gives the winner; a key is a bid and, below it, the bidder's place
   counted from the end, so that of equal bids the earlier is greater. A winner goes on while its key is above all others. */
static void win_singly(struct bids *b, int64_t more) {
    int64_t tree[2 * MOST];
    size_t leaves = 1;
    while (leaves < b->n) leaves *= 2;
    for (size_t i = 0; i < leaves; i++) {
        tree[leaves + i] = i < b->n && b->won[i] < b->room[i] ? (b->top[i] - b->step[i] * b->won[i]) * MOST + (int64_t)(MOST - 1 - i) : INT64_MIN;
    }
    for (size_t i = leaves; --i > 0;) tree[i] = tree[2 * i] > tree[2 * i + 1] ? tree[2 * i] : tree[2 * i + 1];
    for (int64_t key = tree[1]; more > 0;) {
        size_t i = MOST - 1 - (size_t)(key & (MOST - 1));
        int64_t rival = INT64_MIN, won = b->won[i], room = b->room[i], step = b->step[i] * MOST;
        for (size_t node = leaves + i; node > 1; node /= 2) rival = rival > tree[node ^ 1] ? rival : tree[node ^ 1];
        do {
            key = ++won < room ? key - step : INT64_MIN;
            more--;
        } while (key > rival && more > 0);
        b->won[i] = won;
        tree[leaves + i] = key;
        for (size_t node = leaves + i; node > 1; node /= 2) {
            key = key > tree[node ^ 1] ? key : tree[node ^ 1];
            tree[node / 2] = key;
        }
    }
}

/* By price. The marginal bid lies from low to high: those at low or above are enough, those above high are fewer than the goal. Each round
   has all bids at or above a price win. If a few more are wanted they are won singly. Otherwise low or high comes to a bid next to the price,
   and the next price is guessed from the density of bids, aiming at a little less than the goal. A guess that passes low or high is brought
   back to it, the next such one to the middle; after some rounds all are, so that there is an end. Where low and high meet, bids above win, then
   those equal, from the first bidder on. */
static void win_by_price(struct bids *b, int64_t goal) {
    enum { FEW = 8, ROUNDS = 12 };
    const int64_t one = (int64_t)1 << 40;
    int64_t low = INT64_MAX, high = INT64_MIN, bottom[MOST], density[MOST]; /* bids in a grain of price, times one; 0 where the price is flat */
    for (size_t i = 0; i < b->n; i++) {
        bottom[i] = b->top[i] - b->step[i] * (b->room[i] - 1);
        density[i] = b->step[i] ? one / b->step[i] : 0;
        low = bottom[i] < low ? bottom[i] : low;
        high = b->top[i] > high ? b->top[i] : high;
    }
    int64_t price = low + (high - low + 1) / 2;
    if (low < b->enough) price = low = b->enough;
    bool outside = false;
    for (int round = 0; low < high; round++) {
        int64_t count = 0, slope = 0, least = INT64_MAX, next = INT64_MIN; /* the least bid that won, the greatest that did not */
        for (size_t i = 0; i < b->n; i++) {
            int64_t n = b->top[i] < price ? 0 : bottom[i] >= price ? b->room[i] : (b->top[i] - price) / b->step[i] + 1;
            int64_t after = b->top[i] - b->step[i] * n, last = after + b->step[i];
            b->won[i] = n;
            count += n;
            if (n > 0 && last < least) least = last;
            if (n < b->room[i] && after > next) next = after;
            if (n < b->room[i] && last >= price) slope += density[i];
        }
        int64_t more = goal - count;
        if (0 <= more && more <= FEW) {
            if (more > 0) win_singly(b, more);
            return;
        }
        if (more < 0) low = least;
        else high = next;
        if (slope) price -= (more - FEW / 4) * one / slope;
        bool inside = low < price && price <= high;
        if (round > ROUNDS || (!inside && outside)) price = low + (high - low + 1) / 2;
        else if (!inside) price = price <= low ? low + 1 : high;
        outside = !inside && !outside;
    }
    for (size_t i = 0; i < b->n; i++) {
        b->won[i] = b->top[i] <= low ? 0 : bottom[i] > low ? b->room[i] : (b->top[i] - low - 1) / b->step[i] + 1;
        goal -= b->won[i];
    }
    for (size_t i = 0; goal > 0; i++) {
        if (b->won[i] == b->room[i] || b->top[i] - b->step[i] * b->won[i] != low) continue;
        int64_t here = b->step[i] ? 1 : b->room[i] < goal ? b->room[i] : goal;
        b->won[i] += here;
        goal -= here;
    }
}

/* Moves the goal's MWh within the rooms, which hold them, the way given. */
static void move_best(struct sources *s, struct parts *p, size_t j, const int64_t room[MOST], int64_t goal, int64_t way, int by_price) {
    struct bids b;
    call_bids(&b, s, room, goal, way);
    if (by_price) win_by_price(&b, goal);
    else win_singly(&b, goal);
    for (size_t k = 0; k < b.n; k++) {
        if (b.won[k]) move(s, p, j, b.source[k], s->level[b.source[k]] - way * b.won[k]);
    }
}

/* ---- one group ---- */

/* The D lines; gives the MWh they take. */
static int64_t allocate_direct(const struct hour *h, const struct groups *gs, size_t j, struct sources *s, struct parts *p) {
    int64_t all = 0;
    for (size_t d = gs->group[j].direct; d != NONE; d = gs->next_direct[d]) {
        const struct direct *line = &h->direct[d];
        size_t i = line->source;
        if (!s->percent[i]) {
            int64_t basis = line->basis == LOW ? h->source[i].n : line->basis == GENERATION ? h->source[i].g : line->mwh;
            s->basic[i] = basis < s->level[i] ? basis : s->level[i];
            s->basic_cost[i] = cost(s, i, s->basic[i]);
            for (int rung = 0; rung < RUNGS; rung++) {
                if (s->low[rung][i] < s->basic[i]) s->low[rung][i] = s->basic[i];
            }
        }
        s->percent[i] += line->percent;
        int64_t direct = s->basic[i] * s->percent[i] / 100;
        int64_t charged = s->basic[i] ? s->basic_cost[i] * direct / s->basic[i] : 0;
        int64_t *a = amounts(p, j, i);
        a[0] += direct - s->direct[i];
        a[2] += charged - s->direct_cost[i];
        all += direct - s->direct[i];
        s->direct[i] = direct;
        s->direct_cost[i] = charged;
    }
    return all;
}

/* Each source's room down to a rung; gives the sum. */
static int64_t rooms(const struct sources *s, int rung, int64_t room[MOST]) {
    int64_t all = 0;
    for (size_t i = 0; i < s->n; i++) {
        room[i] = s->level[i] > s->low[rung][i] ? s->level[i] - s->low[rung][i] : 0;
        all += room[i];
    }
    return all;
}

/* The last step: all to their emergency floors, then one after another to the basic amount by falling average cost of the normal low. */
static bool unload_last(const struct hour *h, struct sources *s, struct parts *p, size_t j, int64_t left) {
    int64_t room[MOST];
    if (rooms(s, LAST, room) < left) return false;
    left -= rooms(s, EMERGENCY, room);
    struct turn {
        size_t source;
        int64_t cost, mwh;
    } turn[MOST];
    size_t turns = 0;
    for (size_t i = 0; i < s->n; i++) {
        if (room[i]) move(s, p, j, i, s->level[i] - room[i]);
        if (s->level[i] == s->low[LAST][i]) continue;
        struct turn t = {i, cost(s, i, h->source[i].n), h->source[i].n};
        size_t at = turns++;
        for (; at > 0 && turn[at - 1].cost * t.mwh < t.cost * turn[at - 1].mwh; at--) turn[at] = turn[at - 1];
        turn[at] = t;
    }
    for (size_t at = 0; left > 0; at++) {
        size_t i = turn[at].source;
        int64_t most = s->level[i] - s->low[LAST][i], take = most < left ? most : left;
        move(s, p, j, i, s->level[i] - take);
        left -= take;
    }
    return true;
}

static bool unload(const struct hour *h, struct sources *s, struct parts *p, size_t j, int64_t goal, int by_price) {
    int64_t room[MOST];
    int rung = NORMAL;
    while (rung < LAST && rooms(s, rung, room) < goal) rung++;
    if (rung == LAST) return unload_last(h, s, p, j, goal);
    move_best(s, p, j, room, goal, 1, by_price);
    return true;
}

static bool credit(struct sources *s, struct parts *p, size_t j, int64_t goal, int by_price) {
    int64_t room[MOST], all = 0;
    for (size_t i = 0; i < s->n; i++) {
        room[i] = s->level[i] < s->low[EMERGENCY][i] ? 0 : s->high[i] - s->level[i];
        all += room[i];
    }
    if (all < goal) return false;
    move_best(s, p, j, room, goal, -1, by_price);
    return true;
}

/* ---- the answer ---- */

/* Shares a group's parts among its members: each has the growth of |amount| x (MWh so far) / (group's MWh), with the amount's sign. */
static void share(const struct hour *h, const struct groups *gs, size_t j, const struct parts *p, int64_t *cells) {
    int64_t *row[MOST];
    uint64_t so_far[MOST], total = 0;
    size_t members = 0;
    for (size_t i = gs->group[j].member; i != NONE; i = gs->next_member[i]) {
        total += h->delivery[i].mwh;
        row[members] = cells + 4 * h->sources * i;
        so_far[members++] = total;
    }
    if (!total) members = 1;
    for (const struct part *q = p->part + p->begin[j]; q < p->part + p->begin[j + 1]; q++) {
        for (size_t c = 0; c < 4; c++) {
            int64_t amount = q->amount[c], given = 0;
            if (!amount) continue;
            uint64_t size = (uint64_t)(amount < 0 ? -amount : amount);
            for (size_t m = 0; m < members; m++) {
                int64_t now = (int64_t)(so_far[m] == total ? size : size * so_far[m] / total);
                row[m][4 * q->source + c] = amount < 0 ? given - now : now - given;
                given = now;
            }
        }
    }
}

struct refusal rebuild_plainly(const struct hour *h, int64_t *cells, size_t room, int by_price) {
    size_t pairs = h->deliveries * h->sources;
    if (room < 4 * pairs + 2 * h->sources) return (struct refusal){14, 0};
    struct groups gs;
    struct sources s;
    struct parts p;
    form_groups(h, &gs);
    start_sources(h, &s);
    p.n = 0;
    for (size_t j = 0; j < gs.n; j++) {
        p.begin[j] = p.n;
        memset(p.of, NONE, sizeof p.of);
        int64_t left = gs.group[j].mwh - allocate_direct(h, &gs, j, &s, &p);
        if (left > 0 && !unload(h, &s, &p, j, left, by_price)) return (struct refusal){12, gs.group[j].number};
        if (left < 0 && !credit(&s, &p, j, -left, by_price)) return (struct refusal){13, gs.group[j].number};
    }
    p.begin[gs.n] = p.n;
    if (pairs) memset(cells, 0, 4 * pairs * sizeof *cells);
    for (size_t j = 0; j < gs.n; j++) share(h, &gs, j, &p, cells);
    for (size_t i = 0; i < s.n; i++) {
        cells[4 * pairs + 2 * i] = s.level[i] - s.direct[i];
        cells[4 * pairs + 2 * i + 1] = cost(&s, i, s.level[i]) - s.direct_cost[i];
    }
    return (struct refusal){0, 0};
}

struct refusal reconstruct_plainly(const struct hour *h, int64_t *cells, size_t room, int by_price) {
    if (!deck_gives(h)) return (struct refusal){15, 0};
    return rebuild_plainly(h, cells, room, by_price);
}
