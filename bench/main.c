/* Times the library's calls against the two baselines, on the same random networks in the same run, and prints a table of medians and
   ratios. Every result is compared before it is timed; a difference ends the run. */
#include "../include/tusqirma.h"
#include "baseline.h"
#include <stdio.h>
#include <stdlib.h>
#include <string.h>
#include <time.h>

enum { CASES = 21, BATCHES = 5, TABLE_WORDS = 5 };
#define SESSION TUSQIRMA_SESSION_WORDS

/* a network as a file and as a text, a question about some of its gates, and room for the answers */
typedef struct {
    uint8_t file[MOST_FILE], text[MOST_BLIF];
    size_t size, text_size;
    Network loaded, current, replaced;
    Sets sets;
    uint64_t session[SESSION], out[2 * GATES * WORDS];
    Handful asked;
    Answer answer;
} Case;

static uint64_t seed = 1;

static unsigned below(unsigned bound) {
    seed ^= seed << 13, seed ^= seed >> 7, seed ^= seed << 17;
    return (unsigned)(seed >> 32) % bound;
}

/* ## Random networks */

/* n inputs, m gates of `least` to `most` fan-ins, where n is at least `most` */
typedef struct {
    int n, m, least, most;
} Kind;

/* the next fan-in: every other one a signal that feeds nothing yet, where there is one */
static int pick(int signals, uint64_t unused) {
    int s = (int)below((unsigned)signals);
    uint64_t later = unused >> s << s;
    if (below(2) && unused) s = __builtin_ctzll(later ? later : unused);
    return s;
}

static uint64_t random_table(int k) {
    uint64_t table = 0;
    for (int t = 0; t < 1 << k; t += 16) table |= (uint64_t)below(65536) << t;
    return table & all_entries(k);
}

static void make_gate(Network *net, int g, const Kind *kind, uint64_t *unused) {
    int k = kind->least + (int)below((unsigned)(kind->most - kind->least + 1)), s;
    uint64_t listed = 0;
    for (int r = 0; r < k; r++) {
        do s = pick(net->n + g, *unused);
        while (listed >> s & 1);
        listed |= BIT(s);
        net->fanins[g][r] = (uint8_t)s;
    }
    *unused = (*unused & ~listed) | BIT(net->n + g);
    net->arity[g] = (uint8_t)k, net->tables[g] = random_table(k);
}

/* the last 8 gates are outputs; every other network excludes about one pattern in eight */
static void make(Case *c, const Kind *kind, int excludes) {
    Network net = {.n = kind->n, .m = kind->m, .p = OUTPUTS};
    for (int i = 0; excludes && i < (1 << net.n) / 8; i++)
        net.excluded[i / 8] |= (uint64_t)(below(256) & below(256) & below(256)) << (8 * (i % 8));
    uint64_t unused = BIT(net.n) - 1;
    for (int g = 0; g < net.m; g++) make_gate(&net, g, kind, &unused);
    for (int i = 0; i < net.p; i++) net.outputs[i] = (uint8_t)(net.n + net.m - 1 - i % net.m);
    c->size = print(&net, c->file);
}

/* ## The calls, each beside the baseline's way to the same answer */

static void die(const char *what) {
    printf("differs: %s\n", what);
    exit(1);
}

static void our_load(Case *c) {
    if (tusqirma_load(c->file, c->size, c->session, SESSION)) die("load");
}
static void begin(const Baseline *b, Case *c) {
    b->compatible(&c->loaded, &c->sets);
    c->current = c->loaded;
}
static void base_load(const Baseline *b, Case *c) {
    if (parse(c->file, c->size, &c->loaded)) die("parse");
    begin(b, c);
}
static void our_read_blif(Case *c) {
    if (tusqirma_read_blif(c->text, c->text_size, c->session, SESSION)) die("read BLIF");
}
static void base_read_blif(const Baseline *b, Case *c) {
    if (parse_blif(c->text, c->text_size, &c->loaded)) die("parse BLIF");
    begin(b, c);
}
static void our_write_blif(Case *c) {
    if (tusqirma_write_blif(c->session, SESSION, c->text, MOST_BLIF, c->out, 1)) die("write BLIF");
    c->text_size = (size_t)c->out[0];
}
static void base_write_blif(const Baseline *b, Case *c) {
    (void)b;
    if (state_test(&c->loaded, &c->current)) die("state");
    c->text_size = print_blif(&c->current, c->text);
}
static void our_listing(Case *c) {
    uint8_t text[TUSQIRMA_MOST_TEXT];
    if (tusqirma_listing(c->file, c->size, text, sizeof text, c->out, 1)) die("listing");
}
static void our_tables(Case *c) {
    if (tusqirma_all_tables(c->session, SESSION, c->out, TABLE_WORDS * GATES)) die("tables");
}
static void base_tables(const Baseline *b, Case *c) {
    if (state_test(&c->loaded, &c->current)) die("state");
    b->dont_cares(&c->current, &c->sets);
}
/* without the text and the counts */
static void base_listing(const Baseline *b, Case *c) {
    base_load(b, c);
    base_tables(b, c);
}
static void our_sets(Case *c) {
    if (tusqirma_pattern_sets(c->session, SESSION, c->out, 2 * GATES * WORDS)) die("sets");
}
static void base_sets(const Baseline *b, Case *c) {
    base_tables(b, c);
    b->compatible(&c->loaded, &c->sets);
}
static void our_verdict(Case *c) {
    const Handful *h = &c->asked;
    uint64_t n = tusqirma_verdict(c->session, SESSION, h->gates, h->gates_len, h->tables, h->tables_len, c->out, 2);
    c->answer = n ? (Answer){(int)n, (int)c->out[0], (int)c->out[1]} : (Answer){0, 0, 0};
}
static void base_verdict(const Baseline *b, Case *c) {
    const Handful *h = &c->asked;
    if (handful_test(&c->loaded, &c->current, h)) die("question");
    c->replaced = c->current;
    for (size_t i = 0; i < h->gates_len; i++) c->replaced.tables[h->gates[i] - (uint64_t)c->loaded.n] = h->tables[i];
    c->answer = b->verdict(&c->loaded, &c->replaced);
}
static void our_exchange(Case *c) {
    uint64_t n = tusqirma_exchange(c->session, SESSION, (size_t)c->asked.gates[0], c->asked.tables[0], c->out, 1);
    c->answer = n ? (Answer){(int)n, (int)c->out[0], 0} : (Answer){0, 0, 0};
}
static void base_exchange(const Baseline *b, Case *c) {
    (void)b;
    c->answer = exchange(&c->loaded, &c->current, &c->sets, c->asked.gates[0], c->asked.tables[0]);
}

/* ## Questions: gates and tables that alter entries of a kind, where the network has some */

static void put_pair(Case *c, int g, uint64_t altered) {
    Handful *h = &c->asked;
    h->gates[h->gates_len++] = (uint64_t)(c->loaded.n + g);
    h->tables[h->tables_len++] = c->loaded.tables[g] ^ altered;
}

/* one entry of one gate */
static void ask(Case *c, const uint64_t *entries, int wanted) {
    for (int g = 0; g < c->loaded.m; g++)
        for (int t = 0; t < 1 << c->loaded.arity[g]; t++)
            if ((int)(entries[g] >> t & 1) == wanted) {
                c->asked.gates_len = c->asked.tables_len = 0;
                put_pair(c, g, BIT(t));
                if (below(8) == 0) return;
            }
}
static void any(Case *c) { (void)c; }
static void harmless(Case *c) { ask(c, c->sets.full, 1); }
static void harmful(Case *c) { ask(c, c->sets.full, 0); }
static void allowed(Case *c) { ask(c, c->sets.open, 1); }
static void closed(Case *c) { ask(c, c->sets.open, 0); }

/* where a pattern stands by weight and then by number */
static int place(int x) { return __builtin_popcount((unsigned)x) << INPUTS | x; }

/* of all alterations of one entry of one gate, the first whose harm comes latest */
static void harm_late(Case *c) {
    int latest = -1;
    c->replaced = c->loaded;
    for (int g = 0; g < c->loaded.m; g++)
        for (int t = 0; t < 1 << c->loaded.arity[g]; t++) {
            c->replaced.tables[g] = c->loaded.tables[g] ^ BIT(t);
            Answer a = TUNED.verdict(&c->loaded, &c->replaced);
            c->replaced.tables[g] = c->loaded.tables[g];
            if (!a.number || place(a.first) <= latest) continue;
            latest = place(a.first);
            c->asked.gates_len = c->asked.tables_len = 0;
            put_pair(c, g, BIT(t));
        }
}

/* random open entries of so many gates, those that have some first */
static void ask_open(Case *c, int count) {
    for (int has = 1; has >= 0; has--)
        for (int g = 0; g < c->loaded.m && count; g++)
            if ((c->sets.open[g] != 0) == has) put_pair(c, g, random_table(c->loaded.arity[g]) & c->sets.open[g]), count--;
}
static void eight_open(Case *c) { ask_open(c, 8); }
static void all_open(Case *c) { ask_open(c, c->loaded.m); }

/* one random entry of each gate */
static void all_altered(Case *c) {
    for (int g = 0; g < c->loaded.m; g++) put_pair(c, g, BIT(below(1u << c->loaded.arity[g])));
}

typedef struct {
    const char *name;
    int number; /* what the call answers */
    void (*question)(Case *);
    void (*ours)(Case *);
    void (*base)(const Baseline *, Case *);
} Task;

static const Task TASKS[] = {
    {"listing: CDC, full, open, counts of a file", 0, any, our_listing, base_listing},
    {"load: a session with its open tables", 0, any, our_load, base_load},
    {"all tables: SDC, CDC, full, open", 0, any, our_tables, base_tables},
    {"pattern sets: words of ODC and compatible sets", 0, any, our_sets, base_sets},
    {"verdict, harmless", 0, harmless, our_verdict, base_verdict},
    {"verdict, harmful", 14, harmful, our_verdict, base_verdict},
    {"verdict, harm late", 14, harm_late, our_verdict, base_verdict},
    {"verdict on 8 gates, harmless", 0, eight_open, our_verdict, base_verdict},
    {"verdict on all gates, harmless", 0, all_open, our_verdict, base_verdict},
    {"verdict on all gates, harmful", 14, all_altered, our_verdict, base_verdict},
    {"exchange, accepted", 0, allowed, our_exchange, base_exchange},
    {"exchange, refused", 13, closed, our_exchange, base_exchange},
    {"read BLIF: a session with its open tables", 0, any, our_read_blif, base_read_blif},
    {"write BLIF", 0, any, our_write_blif, base_write_blif},
};

/* ## Every result is compared first */

static void same(int holds, const char *what) {
    if (!holds) die(what);
}

/* the table and behind it its complement, over two words */
static int is_sdc(const uint64_t *words, int k, uint64_t table) {
    uint64_t complement = all_entries(k) & ~table;
    return k == 6 ? words[0] == table && words[1] == complement : words[0] == (table | complement << (1 << k)) && !words[1];
}

static void compare_sets(Case *c) {
    const Network *net = &c->loaded;
    int words = word_count(net->n);
    our_tables(c);
    for (int g = 0; g < net->m; g++) {
        const uint64_t *own = c->out + TABLE_WORDS * g;
        same(is_sdc(own, net->arity[g], net->tables[g]), "SDC");
        same(own[2] == c->sets.cdc[g], "CDC");
        same(own[3] == c->sets.full[g], "full");
        same(own[4] == c->sets.open[g], "open");
    }
    our_sets(c);
    for (int g = 0; g < net->m; g++) {
        const uint64_t *own = c->out + 2 * g * words;
        same(!memcmp(own, c->sets.odc[g], 8 * (size_t)words), "ODC");
        same(!memcmp(own + words, c->sets.hidden[g], 8 * (size_t)words), "compatible set");
    }
}

/* the text is as the library first wrote it */
static void compare_text(const Case *c, const uint8_t *text, size_t size) {
    same(size == c->text_size && !memcmp(text, c->text, size), "BLIF text");
}

/* the same text from both, before and after they read it, and the same open tables */
static void compare_blif(Case *c, const Baseline *b) {
    uint8_t text[MOST_BLIF];
    our_load(c), our_write_blif(c);
    size_t size = c->text_size;
    memcpy(text, c->text, size);
    base_load(b, c), base_write_blif(b, c), compare_text(c, text, size);
    our_read_blif(c), our_write_blif(c), compare_text(c, text, size);
    base_read_blif(b, c), base_write_blif(b, c), compare_text(c, text, size);
    for (int g = 0; g < c->loaded.m; g++) same(c->session[TUSQIRMA_WORD_OPEN + g] == c->sets.open[g], "open table of a text");
}

static void compare_answers(Case *c, const Task *task) {
    task->ours(c);
    Answer own = c->answer;
    same(own.number == task->number, task->name);
    task->base(&PLAIN, c);
    same(!memcmp(&own, &c->answer, sizeof own), task->name);
    task->base(&TUNED, c);
    same(!memcmp(&own, &c->answer, sizeof own), task->name);
}

/* whether the task has a question to ask of the network */
static int prepare(Case *c, const Task *task) {
    compare_blif(c, &PLAIN), compare_blif(c, &TUNED);
    our_load(c);
    base_load(&PLAIN, c), base_tables(&PLAIN, c);
    compare_sets(c);
    base_load(&TUNED, c), base_tables(&TUNED, c);
    compare_sets(c);
    c->asked.gates_len = c->asked.tables_len = 0;
    task->question(c);
    if (c->asked.gates_len) compare_answers(c, task);
    return task->question == any || c->asked.gates_len;
}

/* ## Time */

static double microseconds(void) {
    struct timespec t;
    clock_gettime(CLOCK_MONOTONIC, &t);
    return (double)t.tv_sec * 1e6 + (double)t.tv_nsec * 1e-3;
}

static void once(const Task *task, const Baseline *b, Case *c) {
    if (b) task->base(b, c);
    else task->ours(c);
}

/* the best of some batches, each long enough for the clock */
static double cost(const Task *task, const Baseline *b, Case *c) {
    double best = 1e18;
    for (int batch = 0; batch < BATCHES; batch++) {
        int runs = 0;
        double began = microseconds(), took;
        do once(task, b, c), runs++, took = microseconds() - began;
        while (took < 300);
        if (took / runs < best) best = took / runs;
    }
    return best;
}

static int by_size(const void *a, const void *b) {
    double x = *(const double *)a, y = *(const double *)b;
    return (x > y) - (x < y);
}
static double median(double *xs, int count) {
    qsort(xs, (size_t)count, sizeof *xs, by_size);
    return xs[count / 2];
}

static void put_kind(const Kind *kind) {
    printf("| %d | %d | %d", kind->n, kind->m, kind->least);
    if (kind->least < kind->most) printf(" to %d", kind->most);
}

static void row(const Kind *kind, const Task *task) {
    static Case c;
    double ours[CASES], plain[CASES], tuned[CASES];
    int count = 0;
    seed = 1;
    for (int i = 0; i < CASES; i++) {
        make(&c, kind, i % 2);
        if (!prepare(&c, task)) continue;
        ours[count] = cost(task, 0, &c);
        tuned[count] = cost(task, &TUNED, &c);
        plain[count++] = cost(task, &PLAIN, &c);
    }
    if (!count) return;
    double o = median(ours, count), p = median(plain, count), t = median(tuned, count);
    put_kind(kind);
    printf(" | %s | %.2f | %.2f | %.2f | %.1f | %.2f |\n", task->name, o, t, p, p / o, o / t);
    fflush(stdout);
}

/* how many times as long the library takes at n = 10, m = 40 as in smaller networks, which are timed in turn with the large ones */
static void growth(const Task *task) {
    static const Kind FROM[] = {{6, 40, 1, 4}, {8, 40, 1, 4}, {10, 10, 1, 4}, {10, 20, 1, 4}}, TO = {10, 40, 1, 4};
    static Case small, large;
    printf("| %s |", task->name);
    for (size_t s = 0; s < sizeof FROM / sizeof *FROM; s++) {
        double ratios[CASES];
        int count = 0;
        seed = 1;
        for (int i = 0; i < CASES; i++) {
            make(&small, &FROM[s], i % 2);
            make(&large, &TO, i % 2);
            if (!prepare(&small, task) || !prepare(&large, task)) continue;
            double before = cost(task, 0, &small);
            ratios[count++] = cost(task, 0, &large) / before;
        }
        printf(" %.1f |", count ? median(ratios, count) : 0);
    }
    printf("\n");
    fflush(stdout);
}

int main(void) {
    static const Kind KINDS[] = {{10, 40, 1, 4}, {10, 40, 4, 4}, {10, 40, 1, 6}, {10, 40, 6, 6}, {10, 20, 1, 4},
                                 {10, 10, 1, 4}, {8, 40, 1, 4},  {6, 40, 1, 4},  {4, 40, 1, 4}};
    if (tusqirma_session_words() != SESSION) die("session words");
    printf("| n | m | k | task | library, us | tuned C, us | plain C, us | times faster than plain | times the tuned one |\n");
    printf("|---|---|---|---|---|---|---|---|---|\n");
    for (size_t s = 0; s < sizeof KINDS / sizeof *KINDS; s++)
        for (size_t t = 0; t < sizeof TASKS / sizeof *TASKS; t++) row(&KINDS[s], &TASKS[t]);
    printf("\n| times as long at n = 10, m = 40 as at | n = 6, m = 40 | n = 8, m = 40 | n = 10, m = 10 | n = 10, m = 20 |\n|---|---|---|---|---|\n");
    for (size_t t = 0; t < sizeof TASKS / sizeof *TASKS; t++) growth(&TASKS[t]);
    return 0;
}
