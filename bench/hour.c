/* One hour's reconstruction by document 01, written for speed.

   Sources are lanes of plain arrays, so that loops over them turn into vector code. A source's level is
   v + D. It never falls below b, so W at a level is the curve as given; W as changed by a direct
   allocation is met only at D itself, as the direct cost charged so far. */
#include "hour.h"

#include <string.h>

enum { NORMAL, OIL, EMERGENCY, LAST, RUNGS };

struct state {
    unsigned lanes;                            /* the sources, rounded up to 8; the lanes past them never move */
    int32_t level[32];                         /* v + D */
    int32_t low[RUNGS][32];                    /* floors of the level on each rung of the ladder */
    int32_t high[32], start[32];               /* a credit may raise up to high, from a level of at least start */
    int32_t a2[32], b2[32], c[32], r[32];      /* cost at m is ((c m + b2) m + a2) r */
    int32_t step[32];                          /* the m-th MWh costs base + step m */
    int64_t base[32];
    double inverse[32];                        /* 1 / step; large where the step is 0 */
    int64_t cost[32];                          /* W(level) */
    int32_t taken[32], basic[32], percent[32]; /* D, b and the percent total so far */
    int64_t basic_cost[32], charged[32];       /* W(b); W as changed at D */
    uint32_t directs;                          /* bit i: source i has its b */
    bool ordered;                              /* whether the order below is there */
    uint8_t units, order[32];                  /* units by falling average cost at n */
};

/* What a group has from one source, either directly or incrementally. */
struct part {
    int64_t mwh, cost;
    uint32_t cell; /* the source's cell for these MWh; that for the cost is two further */
};

struct group {
    uint32_t members; /* bit j: delivery j */
    int32_t total;
    unsigned parts; /* all parts up to its last */
};

struct course {
    unsigned groups, parts;
    struct group group[32];
    struct part part[32 * 64];
};

/* ---- The record ---- */

static bool zero(const void *p, size_t n) {
    const uint8_t *b = p;
    uint8_t any = 0;
    for (size_t i = 0; i < n; i++)
        any |= b[i];
    return any == 0;
}

static bool label_stands(const struct label *l) {
    uint8_t wrong = 0, len = l->len;
    for (uint8_t i = 0; i < 16; i++) {
        uint8_t b = l->bytes[i], outside = (uint8_t)(b - 32) > 126 - 32 ? 255 : 0;
        wrong |= i < len ? outside : b;
    }
    return wrong == 0 && len >= 1 && len <= 16;
}

/* Labels with zeros after them are equal when their 16 bytes are. */
struct names {
    uint64_t first[32], second[32];
};

static void name(struct names *s, size_t i, const struct label *l) {
    memcpy(&s->first[i], l->bytes, 8);
    memcpy(&s->second[i], l->bytes + 8, 8);
}

static bool distinct(const struct names *s, size_t n) {
    uint64_t same = 0;
    for (size_t i = 1; i < n; i++) {
        uint64_t a = s->first[i], b = s->second[i];
        for (size_t j = 0; j < i; j++)
            same |= ((s->first[j] ^ a) | (s->second[j] ^ b)) == 0;
    }
    return same == 0;
}

static bool level_stands(uint32_t v) { return v - 1 < 2000; }

static bool source_stands(const struct source *x) {
    if (x->kind == UNIT)
        return level_stands(x->h) && level_stands(x->k) && x->k <= x->e && x->e <= x->o && x->o <= x->n && x->n <= x->g &&
               x->g <= x->h && x->a <= 999999 && x->b <= 99999 && x->c <= 99 && x->r <= 39996 && x->rate == 0;
    uint32_t unused = x->h | x->n | x->o | x->e | x->k | x->a | x->b | x->c | x->r;
    if (unused || x->g > 2000)
        return false;
    return x->kind == PURCHASE ? x->rate <= 999999 : x->kind == FIXED && x->rate == 0;
}

static bool source_blank(const struct source *x) {
    return (x->kind | x->g | x->h | x->n | x->o | x->e | x->k | x->a | x->b | x->c | x->r | x->rate | x->label.len) == 0 &&
           zero(x->label.bytes, 16);
}

static bool delivery_blank(const struct delivery *x) {
    return (x->sequence | x->type | x->block | x->mwh | x->label.len) == 0 && zero(x->label.bytes, 16);
}

static bool direct_blank(const struct direct *x) {
    return (x->basis | x->mwh | x->percent) == 0 && (x->source | x->delivery) == 0;
}

/* Whether the entries past the counts are blank. Padding may hold anything, so only where some byte
   is not zero the fields are looked at one by one. */
static bool rest_blank(const struct hour *h) {
    if (!zero(h->source + h->sources, (32 - h->sources) * sizeof h->source[0]))
        for (size_t i = h->sources; i < 32; i++)
            if (!source_blank(&h->source[i]))
                return false;
    if (!zero(h->delivery + h->deliveries, (32 - h->deliveries) * sizeof h->delivery[0]))
        for (size_t i = h->deliveries; i < 32; i++)
            if (!delivery_blank(&h->delivery[i]))
                return false;
    if (!zero(h->direct + h->directs, (32 - h->directs) * sizeof h->direct[0]))
        for (size_t i = h->directs; i < 32; i++)
            if (!direct_blank(&h->direct[i]))
                return false;
    return true;
}

static bool directs_stand(const struct hour *h) {
    uint32_t percent[32] = {0};
    const struct direct *first[32] = {0};
    for (size_t i = 0; i < h->directs; i++) {
        const struct direct *x = &h->direct[i];
        if (x->source >= h->sources || x->delivery >= h->deliveries || h->source[x->source].kind != UNIT)
            return false;
        if (x->basis == MWH ? x->mwh - 1 >= 1999 || x->mwh >= h->source[x->source].h
                            : x->mwh != 0 || (x->basis != LOW && x->basis != GENERATION))
            return false;
        const struct direct *f = first[x->source];
        if (!f)
            first[x->source] = x;
        else if (f->basis != x->basis || f->mwh != x->mwh)
            return false;
        if (x->percent - 1 >= 100 || (percent[x->source] += x->percent) > 100)
            return false;
    }
    return true;
}

bool some_deck_gives(const struct hour *h) {
    struct names names;
    if (h->losses > 64000 || h->sources > 32 || h->deliveries > 32 || h->directs > 32)
        return false;
    uint32_t generation = 0, drawn = h->losses;
    for (size_t i = 0; i < h->sources; i++) {
        const struct source *x = &h->source[i];
        if (!source_stands(x) || !label_stands(&x->label))
            return false;
        name(&names, i, &x->label);
        generation += x->g;
    }
    if (!distinct(&names, h->sources))
        return false;
    bool placed = false, unplaced = false;
    for (size_t j = 0; j < h->deliveries; j++) {
        const struct delivery *x = &h->delivery[j];
        if (x->sequence > 99 || x->type - 1 >= 9 || x->block - 1 >= 9 || x->mwh > 2000 || !label_stands(&x->label))
            return false;
        name(&names, j, &x->label);
        drawn += x->mwh;
        placed |= x->sequence != 0;
        unplaced |= x->sequence == 0;
    }
    return distinct(&names, h->deliveries) && drawn <= generation && (placed || !unplaced) && directs_stand(h) && rest_blank(h);
}

/* ---- Sequence numbers ---- */

void number_deliveries(const struct hour *h, uint32_t number[32]) {
    bool unplaced = false;
    for (size_t j = 0; j < h->deliveries; j++) {
        number[j] = 10 * h->delivery[j].sequence;
        unplaced |= number[j] == 0;
    }
    if (!unplaced)
        return;
    /* The least and the greatest placed number of each type and block; 0 where there is none. */
    uint32_t least[10][11] = {0}, greatest[10][11] = {0}, least_of_type[10] = {0}, least_of_all = 0;
    for (size_t j = 0; j < h->deliveries; j++) {
        const struct delivery *x = &h->delivery[j];
        uint32_t v = number[j];
        if (v == 0)
            continue;
        if (!least[x->type][x->block] || v < least[x->type][x->block])
            least[x->type][x->block] = v;
        if (v > greatest[x->type][x->block])
            greatest[x->type][x->block] = v;
        if (!least_of_type[x->type] || v < least_of_type[x->type])
            least_of_type[x->type] = v;
        if (!least_of_all || v < least_of_all)
            least_of_all = v;
    }
    for (size_t j = 0; j < h->deliveries; j++) {
        const struct delivery *x = &h->delivery[j];
        if (x->sequence)
            continue;
        if (least[x->type][x->block])
            number[j] = least[x->type][x->block] - 1;
        else if (least[x->type][x->block + 1])
            number[j] = least[x->type][x->block + 1] - 1;
        else if (greatest[x->type][x->block - 1]) /* block 0 has no delivery */
            number[j] = greatest[x->type][x->block - 1] + 1;
        else if (least_of_type[x->type])
            number[j] = least_of_type[x->type] - 1;
        else
            number[j] = least_of_all - 1;
    }
}

/* ---- Costs ---- */

/* The curve from its start up; every partial product fits 32 bits but the last. */
static int64_t on_curve(const struct state *s, unsigned i, int32_t m) {
    return (int64_t)((s->c[i] * m + s->b2[i]) * m + s->a2[i]) * s->r[i];
}

/* W as given, at any level. */
static int64_t cost_at(const struct state *s, const struct hour *h, unsigned i, int32_t m) {
    int32_t k = (int32_t)h->source[i].k;
    return m >= k ? on_curve(s, i, m) : on_curve(s, i, k) * m / k;
}

static void open_state(struct state *s, const struct hour *h) {
    unsigned n = (unsigned)h->sources;
    s->lanes = (n + 7) & ~7u;
    s->directs = 0;
    s->ordered = false;
    for (unsigned i = 0; i < n; i++) {
        const struct source *x = &h->source[i];
        bool unit = x->kind == UNIT, fixed = x->kind == FIXED;
        int32_t g = (int32_t)x->g, kept = fixed ? g : 0;
        s->level[i] = g;
        s->low[NORMAL][i] = unit ? (int32_t)x->n : kept;
        s->low[OIL][i] = unit ? (int32_t)x->o : kept;
        s->low[EMERGENCY][i] = unit ? (int32_t)x->e : kept;
        s->low[LAST][i] = kept;
        s->high[i] = unit ? (int32_t)x->h : g;
        s->start[i] = (int32_t)x->e;
        s->a2[i] = (int32_t)(2 * x->a);
        s->b2[i] = (int32_t)(unit ? 2 * x->b : x->rate);
        s->c[i] = (int32_t)x->c;
        s->r[i] = unit ? (int32_t)x->r : 2000;
        s->step[i] = 2 * s->c[i] * s->r[i];
        s->base[i] = (int64_t)(s->b2[i] - s->c[i]) * s->r[i];
        s->inverse[i] = s->step[i] ? 1.0 / s->step[i] : 1e9;
        s->cost[i] = on_curve(s, i, g);
        s->taken[i] = s->basic[i] = s->percent[i] = 0;
        s->basic_cost[i] = s->charged[i] = 0;
    }
    for (unsigned i = n; i < s->lanes; i++) {
        s->level[i] = s->high[i] = s->start[i] = 0;
        for (unsigned j = 0; j < RUNGS; j++)
            s->low[j][i] = 0;
        s->a2[i] = s->b2[i] = s->c[i] = s->r[i] = s->step[i] = 0;
        s->base[i] = 0;
    }
}

/* ---- Moving MWh in order of price ---- */

/* The MWh that may be moved: the t-th of source i comes at first + step t, t from 1 to its room. Going up
   that is its cost, going down its cost negated, so the least comes first both ways. In a tie the later
   source comes first going up, the earlier going down. */
struct choice {
    bool up;
    int32_t room[32];
    int64_t first[32], opening[32]; /* opening is the first MWh's price, beyond all where there is no room */
    unsigned moved;                 /* the answer: how many of which sources */
    uint8_t lane[32];
    int32_t count[32];
};

static void price_choice(const struct state *s, struct choice *c) {
    unsigned lanes = s->lanes;
    if (c->up)
        for (unsigned i = 0; i < lanes; i++)
            c->first[i] = s->base[i] + (int64_t)s->step[i] * s->level[i];
    else
        for (unsigned i = 0; i < lanes; i++)
            c->first[i] = -(s->base[i] + (int64_t)s->step[i] * (s->level[i] + 1));
    for (unsigned i = 0; i < lanes; i++)
        c->opening[i] = c->room[i] > 0 ? c->first[i] + s->step[i] : INT64_MAX;
}

/* The plain rule: one MWh at a time, by a tree of keys with the least on top. */
static void choose_singly(const struct state *s, struct choice *c, int32_t amount) {
    int64_t node[64], up_by[32];
    int32_t left[32];
    unsigned width = 8, turn = c->up ? 31 : 0;
    while (width < s->lanes)
        width *= 2;
    for (unsigned i = 0; i < width; i++) {
        bool some = i < s->lanes && c->room[i] > 0;
        node[width + i] = some ? c->opening[i] * 32 + (i ^ turn) : INT64_MAX;
        left[i] = some ? c->room[i] : 0;
        up_by[i] = some ? (int64_t)s->step[i] * 32 : 0;
    }
    for (unsigned p = width; --p;)
        node[p] = node[2 * p] < node[2 * p + 1] ? node[2 * p] : node[2 * p + 1];
    for (int64_t least = node[1]; amount; amount--) {
        unsigned i = (unsigned)(least & 31) ^ turn, p = width + i;
        least = --left[i] ? least + up_by[i] : INT64_MAX;
        node[p] = least;
        while (p > 1) {
            int64_t beside = node[p ^ 1];
            least = beside < least ? beside : least;
            node[p /= 2] = least;
        }
    }
    c->moved = 0;
    for (unsigned i = 0; i < s->lanes; i++)
        if (c->room[i] > left[i]) {
            c->lane[c->moved] = (uint8_t)i;
            c->count[c->moved++] = c->room[i] - left[i];
        }
}

/* The sources that can have a share, close together; after them some with nothing. */
struct rivals {
    unsigned n; /* in whole fours */
    double first[32], inverse[32], room[32];
    int64_t gain[32]; /* 2^32 / step, 0 where the price is flat */
};

/* How many MWh of source i come at a price or below. Half a grain keeps the product off whole numbers, so
   that rounding it down is the exact division. */
static double share_at(const struct rivals *r, unsigned i, double price) {
    return (price - r->first[i] + 0.5) * r->inverse[i];
}

static double within(double x, double most) {
    x = x > 0 ? x : 0;
    return x < most ? x : most;
}

/* How many come from all, and how many more (times 2^32) with another grain. */
static int32_t count_at(const struct rivals *r, double price, int64_t *gain) {
    int64_t count = 0, gains = 0;
    unsigned n = r->n & ~3u;
    for (unsigned i = 0; i < n; i++) {
        double x = share_at(r, i, price), share = within(x, r->room[i]);
        count += (int64_t)share;
        gains += x == share ? r->gain[i] : 0;
    }
    *gain = gains;
    return (int32_t)count;
}

/* A flat price on the way from here to there stops it: just below it coming from below, at it from above. */
static double stop_at_flat(const struct rivals *r, double here, double there) {
    for (unsigned i = 0; i < r->n; i++) {
        if (r->gain[i])
            continue;
        double at = r->first[i];
        if (here < there) {
            double stop = here < at - 1 ? at - 1 : at;
            if (here < stop && stop < there)
                there = stop;
        } else {
            double stop = at < here ? at : at - 1;
            if (there < stop && stop < here)
                there = stop;
        }
    }
    return there;
}

/* By price: looks for a price at which not more than the amount comes, and at most a few MWh less; takes
   each source's block there, then the few in order. */
static void choose_by_price(const struct state *s, struct choice *c, int32_t amount) {
    enum { FEW = 3 };
    const double unit = 4294967296.0;
    struct rivals r;
    /* A source with room for all bounds the price; one whose first MWh is beyond it has no share. */
    int64_t all[32], bound = INT64_MAX;
    unsigned lanes = s->lanes, n = 0;
    for (unsigned i = 0; i < lanes; i++)
        all[i] = c->room[i] >= amount ? c->first[i] + (int64_t)s->step[i] * amount : INT64_MAX;
    for (unsigned i = 0; i < lanes; i++)
        bound = all[i] < bound ? all[i] : bound;
    int64_t last = bound < INT64_MAX ? bound : INT64_MAX - 1;
    for (unsigned i = 0; i < lanes; i++) {
        c->lane[n] = (uint8_t)i;
        n += c->opening[i] <= last;
    }
    c->moved = n;
    if (n == 1) {
        c->count[0] = amount;
        return;
    }
    double below = 1e18, above = -1e18; /* nothing comes at the first, enough at the second */
    bool flats = false;
    double sum = amount, rate = 0; /* where all have a share: sum of (price - first) / step = amount */
    for (unsigned k = 0; k < n; k++) {
        unsigned i = c->lane[k];
        double step = s->step[i], first = (double)c->first[i], inverse = s->inverse[i], room = c->room[i];
        bool flat = s->step[i] == 0;
        double to = first + step * room;
        r.first[k] = first;
        r.inverse[k] = inverse;
        r.room[k] = room;
        r.gain[k] = flat ? 0 : (int64_t)(unit * inverse);
        below = first + step - 1 < below ? first + step - 1 : below;
        above = to > above ? to : above;
        sum += flat ? 0 : first * inverse + 0.5;
        rate += flat ? 0 : inverse;
        flats |= flat;
    }
    for (r.n = n; r.n % 4; r.n++) {
        r.first[r.n] = 1e12; /* beyond every price */
        r.room[r.n] = 0;
        r.inverse[r.n] = r.gain[r.n] = 1;
    }
    if (bound < INT64_MAX)
        above = (double)bound;
    double price = above, next = rate != 0 ? sum / rate : below;
    int32_t left;
    for (;;) {
        int64_t gain;
        /* On from the price to the next one looked at, a whole number within the bracket. */
        if (flats)
            next = stop_at_flat(&r, price, next);
        if (!(below < next && next < above))
            next = (below + above) * 0.5;
        next = (double)(int64_t)next;
        price = next <= below ? below + 1 : next >= above ? above - 1 : next;
        left = amount - count_at(&r, price, &gain);
        if (left >= 0 && left <= FEW)
            break;
        if (left > 0)
            below = price;
        else
            above = price;
        if (above - below <= 1) {
            if (left < 0)
                left = amount - count_at(&r, price = below, &gain);
            break;
        }
        next = gain ? price + left * (unit / (double)gain) : left > 0 ? above : below;
    }
    for (unsigned k = 0; k < n; k++)
        c->count[k] = (int32_t)within(share_at(&r, k, price), r.room[k]);
    while (left > 0) {
        unsigned best = 0;
        int64_t least = INT64_MAX;
        for (unsigned k = 0; k < n; k++) {
            unsigned i = c->lane[k];
            int64_t after = c->count[k] < c->room[i] ? c->first[i] + (int64_t)s->step[i] * (c->count[k] + 1) : INT64_MAX;
            bool better = c->up ? after <= least : after < least;
            best = better ? k : best;
            least = better ? after : least;
        }
        int32_t room = c->room[c->lane[best]] - c->count[best], block = s->step[c->lane[best]] ? 1 : room < left ? room : left;
        c->count[best] += block;
        left -= block;
    }
}

/* Moves the amount and notes what comes from where. */
static void move(struct state *s, struct choice *c, int32_t amount, bool by_price, struct course *course) {
    price_choice(s, c);
    if (by_price)
        choose_by_price(s, c, amount);
    else
        choose_singly(s, c, amount);
    for (unsigned k = 0; k < c->moved; k++) {
        if (c->count[k] == 0)
            continue;
        unsigned i = c->lane[k];
        int32_t mwh = c->up ? -c->count[k] : c->count[k];
        s->level[i] -= mwh;
        int64_t cost = on_curve(s, i, s->level[i]);
        course->part[course->parts++] = (struct part){mwh, s->cost[i] - cost, 4 * i + 1};
        s->cost[i] = cost;
    }
}

/* ---- One group ---- */

/* Units by falling average cost at n, compared as fractions; a tie keeps deck order. */
static void order_units(struct state *s, const struct hour *h) {
    int64_t cost[32];
    s->units = 0;
    for (unsigned i = 0; i < h->sources; i++) {
        if (h->source[i].kind != UNIT)
            continue;
        int64_t n = h->source[i].n;
        unsigned at = s->units++;
        cost[i] = on_curve(s, i, (int32_t)n);
        for (; at; at--) {
            unsigned j = s->order[at - 1];
            if (cost[j] * n >= cost[i] * (int64_t)h->source[j].n)
                break;
            s->order[at] = (uint8_t)j;
        }
        s->order[at] = (uint8_t)i;
    }
    s->ordered = true;
}

/* The room on a rung, source by source and together. */
static int32_t room_on(const struct state *s, unsigned rung, int32_t *room) {
    int32_t sum = 0;
    for (unsigned i = 0; i < s->lanes; i++) {
        int32_t x = s->level[i] - s->low[rung][i];
        room[i] = x > 0 ? x : 0;
        sum += room[i];
    }
    return sum;
}

/* Takes the MWh off; false where even the last step leaves too little room. */
static bool unload(struct state *s, const struct hour *h, int32_t amount, bool by_price, struct course *course) {
    struct choice c;
    c.up = false;
    for (unsigned rung = NORMAL; rung <= EMERGENCY; rung++)
        if (room_on(s, rung, c.room) >= amount) {
            move(s, &c, amount, by_price, course);
            return true;
        }
    int32_t drop[32], most[32];
    if (room_on(s, LAST, most) < amount)
        return false;
    amount -= room_on(s, EMERGENCY, drop);
    if (!s->ordered)
        order_units(s, h);
    for (unsigned u = 0; u < s->units && amount; u++) {
        unsigned i = s->order[u];
        int32_t more = most[i] - drop[i] < amount ? most[i] - drop[i] : amount;
        drop[i] += more;
        amount -= more;
    }
    for (unsigned i = 0; i < h->sources; i++)
        if (drop[i]) {
            s->level[i] -= drop[i];
            int64_t cost = cost_at(s, h, i, s->level[i]);
            course->part[course->parts++] = (struct part){drop[i], s->cost[i] - cost, 4 * i + 1};
            s->cost[i] = cost;
        }
    return true;
}

/* Puts the MWh back on; false where there is too little headroom. */
static bool credit(struct state *s, int32_t amount, bool by_price, struct course *course) {
    struct choice c;
    int32_t sum = 0;
    c.up = true;
    for (unsigned i = 0; i < s->lanes; i++) {
        c.room[i] = s->level[i] >= s->start[i] ? s->high[i] - s->level[i] : 0;
        sum += c.room[i];
    }
    if (sum < amount)
        return false;
    move(s, &c, amount, by_price, course);
    return true;
}

/* One D line; answers the MWh taken. */
static int32_t take_directly(struct state *s, const struct hour *h, const struct direct *x) {
    unsigned i = (unsigned)x->source;
    if (!(s->directs >> i & 1)) {
        const struct source *u = &h->source[i];
        int32_t basis = (int32_t)(x->basis == LOW ? u->n : x->basis == GENERATION ? u->g : x->mwh);
        int32_t b = s->level[i] < basis ? s->level[i] : basis;
        s->directs |= (uint32_t)1 << i;
        s->basic[i] = b;
        s->basic_cost[i] = cost_at(s, h, i, b);
        for (unsigned rung = 0; rung < RUNGS; rung++)
            if (s->low[rung][i] < b)
                s->low[rung][i] = b;
    }
    s->percent[i] += (int32_t)x->percent;
    int32_t taken = s->basic[i] * s->percent[i] / 100, more = taken - s->taken[i];
    s->taken[i] = taken;
    s->charged[i] = s->basic[i] ? s->basic_cost[i] * taken / s->basic[i] : 0;
    return more;
}

/* The group's D lines in deck order; answers the MWh they take. A unit's several lines make one part. */
static int32_t take_all_directly(struct state *s, const struct hour *h, uint32_t lines, struct course *course) {
    int32_t taken_before[32], sum = 0;
    int64_t charged_before[32];
    uint32_t touched = 0;
    for (; lines; lines &= lines - 1) {
        const struct direct *x = &h->direct[__builtin_ctz(lines)];
        unsigned i = (unsigned)x->source;
        if (!(touched >> i & 1)) {
            touched |= (uint32_t)1 << i;
            taken_before[i] = s->taken[i];
            charged_before[i] = s->charged[i];
        }
        sum += take_directly(s, h, x);
    }
    for (; touched; touched &= touched - 1) {
        unsigned i = (unsigned)__builtin_ctz(touched);
        course->part[course->parts++] = (struct part){s->taken[i] - taken_before[i], s->charged[i] - charged_before[i], 4 * i};
    }
    return sum;
}

/* ---- The hour ---- */

/* Goes through the groups without touching the answer. */
static struct refusal go(const struct hour *h, struct state *s, struct course *c, bool by_price) {
    uint32_t number[32], members[1024], lines[32] = {0};
    uint64_t met[16] = {0}; /* the groups' numbers as bits; members[] holds only for them */
    number_deliveries(h, number);
    for (size_t j = 0; j < h->deliveries; j++) {
        uint64_t *word = &met[number[j] / 64], bit = (uint64_t)1 << number[j] % 64;
        members[number[j]] = (*word & bit ? members[number[j]] : 0) | (uint32_t)1 << j;
        *word |= bit;
    }
    for (size_t k = 0; k < h->directs; k++)
        lines[h->direct[k].delivery] |= (uint32_t)1 << k;
    open_state(s, h);
    c->groups = c->parts = 0;
    for (unsigned w = 16; w--;)
        for (uint64_t rest = met[w]; rest;) {
            unsigned top = 63 - (unsigned)__builtin_clzll(rest);
            uint32_t group = w * 64 + top, todo = 0;
            int32_t total = 0;
            rest ^= (uint64_t)1 << top;
            for (uint32_t m = members[group]; m; m &= m - 1) {
                unsigned j = (unsigned)__builtin_ctz(m);
                total += (int32_t)h->delivery[j].mwh;
                todo |= lines[j];
            }
            int32_t remainder = todo ? total - take_all_directly(s, h, todo, c) : total;
            if (remainder > 0 && !unload(s, h, remainder, by_price, c))
                return (struct refusal){12, group};
            if (remainder < 0 && !credit(s, -remainder, by_price, c))
                return (struct refusal){13, group};
            c->group[c->groups++] = (struct group){members[group], total, c->parts};
        }
    return (struct refusal){0, 0};
}

/* |x|/d rounded down, with x's sign, for a quotient below 2^46: the product is off by one at most. */
static int64_t divide(int64_t x, int64_t d, double inverse) {
    int64_t y = x < 0 ? -x : x, q = (int64_t)((double)y * inverse), rest = y - q * d;
    q += (rest >= d) - (rest < 0);
    return x < 0 ? -q : q;
}

/* Both amounts after the members so far, by schedule and rounded down; a member has the increase. */
static void split(const struct hour *h, const struct group *g, const struct part *p, double inverse, int64_t *cells) {
    int64_t mwh = 0, cost = 0, so_far = 0;
    for (uint32_t m = g->members; m; m &= m - 1) {
        unsigned j = (unsigned)__builtin_ctz(m);
        int64_t *cell = cells + j * h->sources * 4 + p->cell;
        so_far += h->delivery[j].mwh;
        if (so_far == g->total) { /* with a total of 0 at the first; those after it have nothing */
            cell[0] = p->mwh - mwh;
            cell[2] = p->cost - cost;
            return;
        }
        int64_t mwh_now = divide(p->mwh * so_far, g->total, inverse), cost_now = divide(p->cost * so_far, g->total, inverse);
        cell[0] = mwh_now - mwh;
        cell[2] = cost_now - cost;
        mwh = mwh_now;
        cost = cost_now;
    }
}

size_t cell_count(const struct hour *h) { return h->deliveries * h->sources * 4 + h->sources * 2; }

struct refusal reconstruct_read(const struct hour *h, int64_t *cells, int by_price) {
    struct state s;
    struct course c;
    struct refusal refusal = go(h, &s, &c, by_price != 0);
    if (refusal.number)
        return refusal;
    size_t pairs = h->deliveries * h->sources * 4;
    memset(cells, 0, pairs * sizeof cells[0]);
    unsigned part = 0;
    for (unsigned g = 0; g < c.groups; g++) {
        double inverse = c.group[g].total ? 1.0 / c.group[g].total : 0;
        for (; part < c.group[g].parts; part++)
            split(h, &c.group[g], &c.part[part], inverse, cells);
    }
    for (size_t i = 0; i < h->sources; i++) {
        cells[pairs + 2 * i] = s.level[i] - s.taken[i];
        cells[pairs + 2 * i + 1] = s.cost[i] - s.charged[i];
    }
    return refusal;
}

struct refusal rebuild(const struct hour *h, int64_t *cells, size_t room, int by_price) {
    if (room < cell_count(h))
        return (struct refusal){14, 0};
    return reconstruct_read(h, cells, by_price);
}

struct refusal reconstruct(const struct hour *h, int64_t *cells, size_t room, int by_price) {
    if (!some_deck_gives(h))
        return (struct refusal){15, 0};
    return rebuild(h, cells, room, by_price);
}
