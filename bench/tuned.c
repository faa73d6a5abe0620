/* The tuned baseline: two words of 64 patterns in a vector, all words of a signal in a row, only gates that a change reaches simulated
   again, rule 6 in whole tables, entries found by splitting words of patterns until all are. Five and six fan-ins are looked up by the
   functions of the first two; with HALVES defined, as up to four, by choosing between halves of the table. */
#include "baseline.h"
#include <string.h>

typedef uint64_t Pair __attribute__((vector_size(16)));
typedef uint32_t Quad __attribute__((vector_size(16))); /* a pair in lanes of 32 places */
typedef Pair Row[WORDS / 2];

static inline Pair both(uint64_t x) { return (Pair){x, x}; }
static inline int some(Pair x) { return (x[0] | x[1]) != 0; }
static inline uint64_t word(const Pair *row, int w) { return row[w / 2][w % 2]; }
static inline Pair fill(uint64_t t, int i) { return both(-(t >> i & 1)); }
static inline Pair mux(Pair s, Pair hi, Pair lo) { return lo ^ (s & (lo ^ hi)); }
static inline Pair lut1(uint64_t t, Pair a) { return mux(a, fill(t, 1), fill(t, 0)); }
static inline Pair lut2(uint64_t t, Pair a, Pair b) { return mux(b, lut1(t >> 2, a), lut1(t, a)); }
static inline Pair lut3(uint64_t t, Pair a, Pair b, Pair c) { return mux(c, lut2(t >> 4, a, b), lut2(t, a, b)); }
static inline Pair lut4(uint64_t t, Pair a, Pair b, Pair c, Pair d) { return mux(d, lut3(t >> 8, a, b, c), lut3(t, a, b, c)); }

static int pair_count(int n) { return n < 7 ? 1 : 1 << (n - 7); }

/* pair w of input i, of the live places, of the excluded set; where there is one word, the second has no live place */
static Pair input_pair(int i, int w) { return i < 6 ? both(INPUT[i]) : i == 6 ? (Pair){0, ~(uint64_t)0} : fill((unsigned)w, i - 7); }
static Pair live_pair(int n) { return (Pair){live_places(n), n < 7 ? 0 : live_places(n)}; }
static Pair excluded_pair(const Network *net, int w) { return (Pair){net->excluded[2 * w], net->excluded[2 * w + 1]}; }

#ifdef HALVES
/* the table at the rows of five or six fan-ins */
static inline Pair lut5(uint64_t t, Pair a, Pair b, Pair c, Pair d, Pair e) { return mux(e, lut4(t >> 16, a, b, c, d), lut4(t, a, b, c, d)); }
static inline Pair lut6(uint64_t t, Pair a, Pair b, Pair c, Pair d, Pair e, Pair f) { return mux(f, lut5(t >> 32, a, b, c, d, e), lut5(t, a, b, c, d, e)); }

static void look_up_wide(int k, uint64_t t, const Pair *const *in, int pairs, Pair *restrict out) {
    const Pair *a = in[0], *b = in[1], *c = in[2], *d = in[3], *e = in[4], *f = in[5];
    if (k == 5)
        for (int w = 0; w < pairs; w++) out[w] = lut5(t, a[w], b[w], c[w], d[w], e[w]);
    else
        for (int w = 0; w < pairs; w++) out[w] = lut6(t, a[w], b[w], c[w], d[w], e[w], f[w]);
}
#else
/* the sixteen functions of a and b, by their tables */
static inline void functions(Pair a, Pair b, Pair *ab) {
    Pair minterms[4] = {~(a | b), a & ~b, b & ~a, a & b};
    ab[0] = both(0);
    for (int t = 1; t < 16; t++) ab[t] = ab[t & (t - 1)] | minterms[__builtin_ctz((unsigned)t)];
}

/* for each fan-in from the third on, adds the half of the table where it is zero to the half where it is one, as Davio's expansion takes it */
static uint64_t davio(uint64_t t) {
    for (int r = 2; r < FANINS; r++) t ^= t << (1 << r) & INPUT[r];
    return t;
}

/* Davio's expansion of a table t of `davio`, whose digits name functions of a and b */
static inline Pair join3(const Pair *ab, uint64_t t, Pair c) { return ab[t & 15] ^ (c & ab[t >> 4 & 15]); }
static inline Pair join4(const Pair *ab, uint64_t t, Pair c, Pair d) { return join3(ab, t, c) ^ (d & join3(ab, t >> 8, c)); }
static inline Pair join5(const Pair *ab, uint64_t t, Pair c, Pair d, Pair e) { return join4(ab, t, c, d) ^ (e & join4(ab, t >> 16, c, d)); }
static inline Pair join6(const Pair *ab, uint64_t t, Pair c, Pair d, Pair e, Pair f) { return join5(ab, t, c, d, e) ^ (f & join5(ab, t >> 32, c, d, e)); }

/* the table at the rows of five or six fan-ins */
static void look_up_wide(int k, uint64_t t, const Pair *const *in, int pairs, Pair *restrict out) {
    const Pair *a = in[0], *b = in[1], *c = in[2], *d = in[3], *e = in[4], *f = in[5];
    Pair ab[16];
    t = davio(t);
    if (k == 5)
        for (int w = 0; w < pairs; w++) functions(a[w], b[w], ab), out[w] = join5(ab, t, c[w], d[w], e[w]);
    else
        for (int w = 0; w < pairs; w++) functions(a[w], b[w], ab), out[w] = join6(ab, t, c[w], d[w], e[w], f[w]);
}
#endif

/* the table at the rows of a gate's fan-ins */
static void look_up(int k, uint64_t t, const Pair *const *in, int pairs, Pair *restrict out) {
    const Pair *a = in[0], *b = in[1], *c = in[2], *d = in[3];
    if (k == 1)
        for (int w = 0; w < pairs; w++) out[w] = lut1(t, a[w]);
    else if (k == 2)
        for (int w = 0; w < pairs; w++) out[w] = lut2(t, a[w], b[w]);
    else if (k == 3)
        for (int w = 0; w < pairs; w++) out[w] = lut3(t, a[w], b[w], c[w]);
    else if (k == 4)
        for (int w = 0; w < pairs; w++) out[w] = lut4(t, a[w], b[w], c[w], d[w]);
    else
        look_up_wide(k, t, in, pairs, out);
}

static void fanin_rows(const Network *net, int g, const Row *rows, const Pair **in) {
    for (int r = 0; r < net->arity[g]; r++) in[r] = rows[net->fanins[g][r]];
}

static void simulate(const Network *net, Row *rows) {
    int pairs = pair_count(net->n);
    for (int i = 0; i < net->n; i++)
        for (int w = 0; w < pairs; w++) rows[i][w] = input_pair(i, w);
    for (int g = 0; g < net->m; g++) {
        const Pair *in[FANINS] = {0};
        fanin_rows(net, g, rows, in);
        look_up(net->arity[g], net->tables[g], in, pairs, rows[net->n + g]);
    }
}

/* the fan-ins of each gate as bits */
static void fanin_masks(const Network *net, uint64_t *masks) {
    for (int g = 0; g < net->m; g++) {
        masks[g] = 0;
        for (int r = 0; r < net->arity[g]; r++) masks[g] |= BIT(net->fanins[g][r]);
    }
}

/* gate h with the other rows of the changed signals: its own bit, where its row changes too */
static uint64_t again(const Network *net, int h, const Row *rows, uint64_t changed, int pairs, Row *other) {
    const Pair *in[FANINS] = {0};
    for (int r = 0; r < net->arity[h]; r++) {
        int s = net->fanins[h][r];
        in[r] = changed >> s & 1 ? other[s] : rows[s];
    }
    int s = net->n + h;
    look_up(net->arity[h], net->tables[h], in, pairs, other[s]);
    Pair d = both(0);
    for (int w = 0; w < pairs; w++) d |= other[s][w] ^ rows[s][w];
    return (uint64_t)some(d) << s;
}

/* the places at which an output changes */
static void changes(const Network *net, const Row *rows, const Row *other, uint64_t changed, int pairs, Pair *seen) {
    for (int w = 0; w < pairs; w++) seen[w] = both(0);
    for (int i = 0; i < net->p; i++) {
        int s = net->outputs[i];
        if (changed >> s & 1)
            for (int w = 0; w < pairs; w++) seen[w] |= rows[s][w] ^ other[s][w];
    }
}

/* the places at which inverting gate g changes an output */
static void observed(const Network *net, const uint64_t *masks, const Row *rows, int g, int pairs, Row *other, Pair *seen) {
    int s = net->n + g;
    uint64_t changed = BIT(s);
    for (int w = 0; w < pairs; w++) other[s][w] = ~rows[s][w];
    for (int h = g + 1; h < net->m; h++)
        if (masks[h] & changed) changed |= again(net, h, rows, changed, pairs, other);
    changes(net, rows, other, changed, pairs, seen);
}

/* splits cubes[0], places of pair w, by the values of fan-ins `from` to `end` - 1, where a free fan-in is at either */
static inline void split(const Pair *const *in, const Pair *const *free, int w, int from, int end, Pair *cubes) {
    for (int r = from; r < end; r++) {
        Pair v = in[r][w], f = free ? free[r][w] : both(0);
        for (int t = 0, size = 1 << (r - from); t < size; t++) {
            cubes[t | size] = cubes[t] & (v | f);
            cubes[t] &= ~v | f;
        }
    }
}

/* the entries that the places of keep deliver */
static inline uint64_t delivered_by(int k, const Pair *const *in, const Pair *const *free, const Pair *keep, int pairs) {
    uint64_t entries = 0;
    for (int w = 0; w < pairs && entries != all_entries(k); w++) {
        Pair cubes[1 << FANINS];
        cubes[0] = keep[w];
        split(in, free, w, 0, k, cubes);
        for (int t = 0; t < 1 << k; t++) entries |= (uint64_t)some(cubes[t]) << t;
    }
    return entries;
}

/* bit i in each lane of 32 places that x and cube i share */
static inline Quad shared(Pair x, const Pair *cubes) {
    Quad lanes = {0};
    for (int i = 0; i < 8; i++) lanes |= (Quad)((Quad)(x & cubes[i]) != 0) & (Quad){1u << i, 1u << i, 1u << i, 1u << i};
    return lanes;
}

/* the same for five or six fan-ins: the cubes of the first three meet those of the others */
static inline uint64_t delivered_wide(int k, const Pair *const *in, const Pair *const *free, const Pair *keep, int pairs) {
    uint64_t entries = 0;
    for (int w = 0; w < pairs && entries != all_entries(k); w++) {
        Pair low[8] = {keep[w]}, high[8] = {both(~(uint64_t)0)};
        split(in, free, w, 0, 3, low);
        split(in, free, w, 3, k, high);
        for (int half = 0; half < 1 << (k - 5); half++) {
            Quad found = {0};
            for (int t = 3; t >= 0; t--) found = found << 8 | shared(high[4 * half + t], low);
            entries |= (uint64_t)(found[0] | found[1] | found[2] | found[3]) << (32 * half);
        }
    }
    return entries;
}

/* a call for each arity, whose loops compile to straight code */
static inline uint64_t delivered(int k, const Pair *const *in, const Pair *const *free, const Pair *keep, int pairs) {
    return k == 1   ? delivered_by(1, in, free, keep, pairs)
           : k == 2 ? delivered_by(2, in, free, keep, pairs)
           : k == 3 ? delivered_by(3, in, free, keep, pairs)
           : k == 4 ? delivered_by(4, in, free, keep, pairs)
#ifdef HALVES
           : k == 5 ? delivered_by(5, in, free, keep, pairs)
                    : delivered_by(6, in, free, keep, pairs);
#else
           : k == 5 ? delivered_wide(5, in, free, keep, pairs)
                    : delivered_wide(6, in, free, keep, pairs);
#endif
}

static void dont_cares(const Network *net, Sets *sets) {
    Row rows[SIGNALS], other[SIGNALS], come, seen;
    uint64_t masks[GATES];
    int pairs = pair_count(net->n);
    Pair live = live_pair(net->n);
    for (int w = 0; w < pairs; w++) come[w] = live & ~excluded_pair(net, w);
    simulate(net, rows);
    fanin_masks(net, masks);
    for (int g = 0; g < net->m; g++) {
        const Pair *in[FANINS] = {0};
        int k = net->arity[g];
        fanin_rows(net, g, rows, in);
        observed(net, masks, rows, g, pairs, other, seen);
        for (int w = 0; w < pairs; w++) {
            Pair odc = ~seen[w] & live;
            memcpy(sets->odc[g] + 2 * w, &odc, sizeof odc);
            seen[w] &= come[w];
        }
        sets->cdc[g] = all_entries(k) & ~delivered(k, in, 0, come, pairs);
        sets->full[g] = all_entries(k) & ~delivered(k, in, 0, seen, pairs);
    }
}

/* each entry's place taken by the entry that differs from it at fan-in r */
static inline uint64_t flip(uint64_t entries, int r) {
    return (entries & INPUT[r]) >> (1 << r) | (entries << (1 << r) & INPUT[r]);
}

/* Rule 6 as one table for each fan-in. For a set f of fan-ins, at[f] has the entries at which f is free so far, constant[f] those at which
   the table is constant over all values of f. */
static void edge_tables(int k, uint64_t table, uint64_t *edges) {
    uint64_t at[1 << FANINS], constant[1 << FANINS];
    at[0] = constant[0] = all_entries(k);
#pragma GCC unroll 6 /* each turn with its own masks */
    for (int r = 0; r < k; r++) {
        uint64_t same = ~(table ^ flip(table, r));
        edges[r] = 0;
        for (int f = 0; f < 1 << r; f++) {
            int more = f | 1 << r;
            constant[more] = constant[f] & flip(constant[f], r) & same;
            at[more] = at[f] & constant[more];
            at[f] &= ~at[more];
            edges[r] |= at[more];
        }
    }
}

/* the compatible set of each signal, from the last gate back */
static void hide(const Network *net, const Row *rows, int pairs, Row *hidden) {
    for (int s = 0; s < net->n + net->m; s++)
        for (int w = 0; w < pairs; w++) hidden[s][w] = live_pair(net->n);
    for (int i = 0; i < net->p; i++)
        for (int w = 0; w < pairs; w++) hidden[net->outputs[i]][w] &= excluded_pair(net, w);
    for (int g = net->m - 1; g >= 0; g--) {
        const Pair *in[FANINS] = {0};
        uint64_t edges[FANINS];
        int k = net->arity[g];
        fanin_rows(net, g, rows, in);
        edge_tables(k, net->tables[g], edges);
        for (int r = 0; r < k; r++) {
            Row edge;
            look_up(k, edges[r], in, pairs, edge);
            Pair *h = hidden[net->fanins[g][r]];
            for (int w = 0; w < pairs; w++) h[w] &= hidden[net->n + g][w] | edge[w];
        }
    }
    memset(hidden, 0, sizeof(Row) * (size_t)net->n);
}

static void compatible(const Network *net, Sets *sets) {
    Row rows[SIGNALS], hidden[SIGNALS], keep;
    int pairs = pair_count(net->n);
    simulate(net, rows);
    hide(net, rows, pairs, hidden);
    for (int g = 0; g < net->m; g++) {
        const Pair *in[FANINS] = {0}, *free[FANINS] = {0};
        int k = net->arity[g];
        fanin_rows(net, g, rows, in);
        fanin_rows(net, g, hidden, free);
        for (int w = 0; w < pairs; w++) keep[w] = live_pair(net->n) & ~hidden[net->n + g][w];
        sets->open[g] = all_entries(k) & ~delivered(k, in, free, keep, pairs);
        memcpy(sets->hidden[g], hidden[net->n + g], sizeof(Pair) * (size_t)pairs);
    }
}

/* place b of word i is set in WEIGHT[j] where j of the seven bits of 64 i + b are */
static const Pair WEIGHT[8] = {{0x0000000000000001, 0x0000000000000000}, {0x0000000100010116, 0x0000000000000001},
                               {0x0001011601161668, 0x0000000100010116}, {0x0116166816686880, 0x0001011601161668},
                               {0x1668688068808000, 0x0116166816686880}, {0x6880800080000000, 0x1668688068808000},
                               {0x8000000000000000, 0x6880800080000000}, {0x0000000000000000, 0x8000000000000000}};

/* the lightest pattern of a set that has some, the smaller number among equals */
static int lightest(const Pair *set, int pairs) {
    static const int ONES[WORDS / 2] = {0, 1, 1, 2, 1, 2, 2, 3};
    int least = INPUTS + 1, x = 0;
    for (int w = 0; w < pairs; w++) {
        if (!some(set[w])) continue;
        for (int j = 0; j < 8 && ONES[w] + j < least; j++) {
            Pair found = set[w] & WEIGHT[j];
            if (some(found)) least = ONES[w] + j, x = 128 * w + (found[0] ? __builtin_ctzll(found[0]) : 64 + __builtin_ctzll(found[1]));
        }
    }
    return x;
}

/* the lowest output that changes at pattern x, where one does */
static int lowest_output(const Network *net, const Row *rows, const Row *other, uint64_t changed, int x) {
    for (int i = 0; i < net->p; i++) {
        int s = net->outputs[i];
        if (changed >> s & 1 && (word(rows[s], x / 64) ^ word(other[s], x / 64)) >> x % 64 & 1) return i;
    }
    return net->p;
}

/* the lightest harm: the replaced network is simulated only at gates with another table or a changed fan-in */
static Answer verdict(const Network *loaded, const Network *replaced) {
    Row rows[SIGNALS], other[SIGNALS], harm;
    uint64_t masks[GATES], changed = 0;
    int pairs = pair_count(loaded->n);
    simulate(loaded, rows);
    fanin_masks(loaded, masks);
    for (int g = 0; g < loaded->m; g++)
        if (loaded->tables[g] != replaced->tables[g] || masks[g] & changed) changed |= again(replaced, g, rows, changed, pairs, other);
    changes(loaded, rows, other, changed, pairs, harm);
    Pair any = both(0);
    for (int w = 0; w < pairs; w++) any |= harm[w] &= live_pair(loaded->n) & ~excluded_pair(loaded, w);
    if (!some(any)) return (Answer){0, 0, 0};
    int x = lightest(harm, pairs);
    return (Answer){14, x, lowest_output(loaded, rows, other, changed, x)};
}

const Baseline TUNED = {dont_cares, compatible, verdict};
