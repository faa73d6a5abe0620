/* The plain baseline: pattern by pattern, gate by gate, as the rules read. */
#include "baseline.h"
#include <string.h>

static unsigned entry(const Network *net, int g, const uint8_t *values) {
    unsigned t = 0;
    for (int r = 0; r < net->arity[g]; r++) t |= (unsigned)values[net->fanins[g][r]] << r;
    return t;
}

/* the values of all signals at pattern x, with gate `inverted` the other way round */
static void simulate(const Network *net, int x, int inverted, uint8_t *values) {
    for (int i = 0; i < net->n; i++) values[i] = x >> i & 1;
    for (int g = 0; g < net->m; g++)
        values[net->n + g] = (net->tables[g] >> entry(net, g, values) & 1) ^ (g == inverted);
}

static int excluded(const Network *net, int x) { return net->excluded[x / 64] >> (x % 64) & 1; }

static int same_outputs(const Network *net, const uint8_t *a, const uint8_t *b) {
    for (int i = 0; i < net->p; i++)
        if (a[net->outputs[i]] != b[net->outputs[i]]) return 0;
    return 1;
}

static void dont_cares(const Network *net, Sets *sets) {
    for (int g = 0; g < net->m; g++) {
        sets->cdc[g] = sets->full[g] = all_entries(net->arity[g]);
        memset(sets->odc[g], 0, sizeof sets->odc[g]);
    }
    for (int x = 0; x < 1 << net->n; x++) {
        uint8_t values[SIGNALS], other[SIGNALS];
        simulate(net, x, -1, values);
        for (int g = 0; g < net->m; g++) {
            simulate(net, x, g, other);
            int same = same_outputs(net, values, other);
            unsigned t = entry(net, g, values);
            sets->odc[g][x / 64] |= (uint64_t)same << (x % 64);
            if (excluded(net, x)) continue;
            sets->cdc[g] &= ~BIT(t);
            if (!same) sets->full[g] &= ~BIT(t);
        }
    }
}

/* the fan-ins that rule 6 frees at entry t, as bits */
static unsigned free_fanins(int k, uint64_t table, unsigned t) {
    unsigned free = 0;
    for (int r = 0; r < k; r++) {
        unsigned more = free | 1u << r;
        int constant = 1;
        for (unsigned u = 0; u < 1u << k; u++)
            if ((u & ~more) == (t & ~more) && ((table >> u ^ table >> t) & 1)) constant = 0;
        if (constant) free = more;
    }
    return free;
}

/* whether each signal's compatible set holds the pattern */
static void hidden_at(const Network *net, int x, const uint8_t *values, uint8_t *hidden) {
    memset(hidden, 1, SIGNALS);
    if (!excluded(net, x))
        for (int i = 0; i < net->p; i++) hidden[net->outputs[i]] = 0;
    for (int g = net->m - 1; g >= 0; g--) {
        if (hidden[net->n + g]) continue;
        unsigned free = free_fanins(net->arity[g], net->tables[g], entry(net, g, values));
        for (int r = 0; r < net->arity[g]; r++)
            if (!(free >> r & 1)) hidden[net->fanins[g][r]] = 0;
    }
    memset(hidden, 0, (size_t)net->n);
}

static void compatible(const Network *net, Sets *sets) {
    for (int g = 0; g < net->m; g++) {
        sets->open[g] = all_entries(net->arity[g]);
        memset(sets->hidden[g], 0, sizeof sets->hidden[g]);
    }
    for (int x = 0; x < 1 << net->n; x++) {
        uint8_t values[SIGNALS], hidden[SIGNALS];
        simulate(net, x, -1, values);
        hidden_at(net, x, values, hidden);
        for (int g = 0; g < net->m; g++) {
            sets->hidden[g][x / 64] |= (uint64_t)hidden[net->n + g] << (x % 64);
            if (hidden[net->n + g]) continue;
            unsigned t = entry(net, g, values), free = 0;
            for (int r = 0; r < net->arity[g]; r++) free |= (unsigned)hidden[net->fanins[g][r]] << r;
            for (unsigned u = 0; u < 1u << net->arity[g]; u++)
                if ((u & ~free) == (t & ~free)) sets->open[g] &= ~BIT(u);
        }
    }
}

/* the lowest output that changes at pattern x, or -1 */
static int lowest_output(const Network *loaded, const Network *replaced, int x) {
    uint8_t a[SIGNALS], b[SIGNALS];
    simulate(loaded, x, -1, a);
    simulate(replaced, x, -1, b);
    for (int i = 0; i < loaded->p; i++)
        if (a[loaded->outputs[i]] != b[loaded->outputs[i]]) return i;
    return -1;
}

/* the next larger number of the same weight; of 0 there is none, and the result is past all patterns */
static int next_of_weight(int x) {
    if (!x) return 1 << INPUTS;
    int up = x + (x & -x);
    return up | (x ^ up) >> (__builtin_ctz((unsigned)x) + 2);
}

/* the first harm, by weight and then by number */
static Answer verdict(const Network *loaded, const Network *replaced) {
    for (int weight = 0; weight <= loaded->n; weight++)
        for (int x = (1 << weight) - 1; x < 1 << loaded->n; x = next_of_weight(x)) {
            int i = excluded(loaded, x) ? -1 : lowest_output(loaded, replaced, x);
            if (i >= 0) return (Answer){14, x, i};
        }
    return (Answer){0, 0, 0};
}

const Baseline PLAIN = {dont_cares, compatible, verdict};
