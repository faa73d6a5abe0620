/* A network as the C baselines hold it, and what they work out of it. Terms as in the specification. */
#ifndef BASELINE_H
#define BASELINE_H
#include <stddef.h>
#include <stdint.h>

enum { GATES = 40, INPUTS = 10, SIGNALS = 50, OUTPUTS = 8, FANINS = 6, WORDS = 16, MOST_FILE = 839, MOST_BLIF = 24543 };

typedef struct {
    int n, m, p;
    uint8_t arity[GATES], fanins[GATES][FANINS], outputs[OUTPUTS];
    uint64_t tables[GATES];
    uint64_t excluded[WORDS]; /* a one means the pattern never comes */
} Network;

typedef struct {
    uint64_t cdc[GATES], full[GATES], open[GATES];
    uint64_t odc[GATES][WORDS], hidden[GATES][WORDS];
} Sets;

/* gates, by signal number, each with its table */
typedef struct {
    size_t gates_len, tables_len;
    uint64_t gates[GATES], tables[GATES];
} Handful;

typedef struct {
    int number, first, second; /* 0, or a refusal with the values that it names */
} Answer;

typedef struct {
    void (*dont_cares)(const Network *, Sets *); /* CDC, ODC and full table of each gate */
    void (*compatible)(const Network *, Sets *); /* compatible set and open table of each gate */
    Answer (*verdict)(const Network *loaded, const Network *replaced);
} Baseline;

extern const Baseline PLAIN, TUNED;

/* 0, or one of the refusals 1 to 8 */
int parse(const uint8_t *file, size_t size, Network *net);

/* puts the file, for which MOST_FILE bytes are enough, and gives its length */
size_t print(const Network *net, uint8_t *file);

/* 0, or 17, 18 or 3 by the first line at fault */
int parse_blif(const uint8_t *text, size_t size, Network *net);

/* puts the text, for which MOST_BLIF bytes are enough, and gives its length; 0 where the copies make more than 40 gates */
size_t print_blif(const Network *net, uint8_t *text);

/* 0 or 10; 0, 10, 15, or 11, 16 or 12 of the first pair at fault */
int state_test(const Network *loaded, const Network *current);
int handful_test(const Network *loaded, const Network *current, const Handful *handful);

/* sets a gate's table in `current`, with the tests 10 to 13 */
Answer exchange(const Network *loaded, Network *current, const Sets *sets, uint64_t gate, uint64_t table);

/* the values of inputs 0 to 5 at 64 patterns, and so the entries at which fan-ins 0 to 5 are one */
static const uint64_t INPUT[6] = {0xAAAAAAAAAAAAAAAA, 0xCCCCCCCCCCCCCCCC, 0xF0F0F0F0F0F0F0F0,
                                  0xFF00FF00FF00FF00, 0xFFFF0000FFFF0000, 0xFFFFFFFF00000000};

#define BIT(i) ((uint64_t)1 << (i))

/* the 2^k entries of k fan-ins, up to 6 */
static inline uint64_t all_entries(int k) {
    static const uint64_t ALL[FANINS + 1] = {1, 3, 0xF, 0xFF, 0xFFFF, 0xFFFFFFFF, ~(uint64_t)0};
    return ALL[k];
}
static inline int word_count(int n) { return n < 6 ? 1 : 1 << (n - 6); }
static inline uint64_t live_places(int n) { return all_entries(n < 6 ? n : 6); }
#endif
