/* What both baselines share: the file in and out, the tests of a state and of a handful of gates, the exchange. */
#include "baseline.h"

static int gate_fault(const Network *net, int g) {
    int k = net->arity[g];
    if (k < 1 || FANINS < k) return 3;
    uint64_t listed = 0;
    for (int r = 0; r < k; r++) {
        if (net->fanins[g][r] >= net->n + g) return 4;
        uint64_t place = BIT(net->fanins[g][r]);
        if (listed & place) return 5;
        listed |= place;
    }
    return net->tables[g] & ~all_entries(k) ? 6 : 0;
}

static int excluded_fault(const Network *net) {
    for (int w = 0; w < WORDS; w++)
        if (net->excluded[w] & ~(w < word_count(net->n) ? live_places(net->n) : 0)) return 6;
    return 0;
}

static int counts_fault(const Network *net) {
    return net->n < 1 || INPUTS < net->n || net->m < 1 || GATES < net->m || net->p < 1 || OUTPUTS < net->p ? 3 : 0;
}

static int state_fault(const Network *net) {
    if (counts_fault(net) || excluded_fault(net)) return 1;
    for (int g = 0; g < net->m; g++)
        if (gate_fault(net, g)) return 1;
    for (int i = 0; i < net->p; i++)
        if (net->outputs[i] >= net->n + net->m) return 1;
    return 0;
}

/* ## The file */

/* a gate's record: the second byte of its mark, the bounds of k, the bytes of its table */
typedef struct {
    int mark, least, most, bytes;
} GateForm;

static const GateForm NARROW = {0x47, 1, 4, 2}, WIDE = {0x48, 5, FANINS, 8};

typedef struct {
    const uint8_t *at, *end;
} Reader;

/* whether a record with this mark is next */
static int opens(const Reader *in, int second) { return in->end - in->at >= 2 && in->at[0] == 0x4E && in->at[1] == second; }

static int mark(Reader *in, int second) {
    if (in->end - in->at < 2) return 1;
    if (!opens(in, second)) return 2;
    in->at += 2;
    return 0;
}

static int excluded_bytes(int n) { return n < 3 ? 1 : 1 << (n - 3); }

static int parse_excluded(Reader *in, Network *net) {
    in->at += 2;
    int size = excluded_bytes(net->n);
    if (in->end - in->at < size) return 1;
    for (int i = 0; i < size; i++) net->excluded[i / 8] |= (uint64_t)in->at[i] << (8 * (i % 8));
    in->at += size;
    return excluded_fault(net);
}

static inline int parse_form(Reader *in, GateForm form, Network *net, int g) {
    int fault = mark(in, form.mark);
    if (fault) return fault;
    if (in->end - in->at < 1) return 1;
    int k = net->arity[g] = *in->at++;
    if (k < form.least || form.most < k) return 3;
    if (in->end - in->at < k + form.bytes) return 1;
    for (int r = 0; r < k; r++) net->fanins[g][r] = in->at[r];
    in->at += k;
    uint64_t table = 0;
    for (int i = 0; i < form.bytes; i++) table |= (uint64_t)in->at[i] << (8 * i);
    in->at += form.bytes;
    net->tables[g] = table;
    return gate_fault(net, g);
}

/* a call for each form, which compiles to its own code */
static int parse_gate(Reader *in, Network *net, int g) {
    return opens(in, WIDE.mark) ? parse_form(in, WIDE, net, g) : parse_form(in, NARROW, net, g);
}

static int parse_output(Reader *in, Network *net, int i) {
    int fault = mark(in, 0x4F);
    if (fault) return fault;
    if (in->end - in->at < 1) return 1;
    net->outputs[i] = *in->at++;
    return net->outputs[i] < net->n + net->m ? 0 : 7;
}

int parse(const uint8_t *file, size_t size, Network *net) {
    Reader in = {file, file + size};
    *net = (Network){0};
    int fault = mark(&in, 0x49);
    if (fault) return fault;
    if (in.end - in.at < 3) return 1;
    net->n = in.at[0], net->m = in.at[1], net->p = in.at[2];
    in.at += 3;
    fault = counts_fault(net);
    if (!fault && opens(&in, 0x58)) fault = parse_excluded(&in, net);
    for (int g = 0; !fault && g < net->m; g++) fault = parse_gate(&in, net, g);
    for (int i = 0; !fault && i < net->p; i++) fault = parse_output(&in, net, i);
    return fault ? fault : in.at < in.end ? 8 : 0;
}

static uint8_t *put_mark(uint8_t *at, int second) {
    *at++ = 0x4E, *at++ = (uint8_t)second;
    return at;
}

static uint8_t *put_excluded(uint8_t *at, const Network *net) {
    int size = excluded_bytes(net->n), any = 0;
    for (int w = 0; w < WORDS; w++) any |= net->excluded[w] != 0;
    if (!any) return at;
    at = put_mark(at, 0x58);
    for (int i = 0; i < size; i++) *at++ = (uint8_t)(net->excluded[i / 8] >> (8 * (i % 8)));
    return at;
}

static uint8_t *put_gate(uint8_t *at, const Network *net, int g) {
    int k = net->arity[g];
    GateForm form = k < WIDE.least ? NARROW : WIDE;
    at = put_mark(at, form.mark);
    *at++ = (uint8_t)k;
    for (int r = 0; r < k; r++) *at++ = net->fanins[g][r];
    for (int i = 0; i < form.bytes; i++) *at++ = (uint8_t)(net->tables[g] >> (8 * i));
    return at;
}

size_t print(const Network *net, uint8_t *file) {
    uint8_t *at = put_mark(file, 0x49);
    *at++ = (uint8_t)net->n, *at++ = (uint8_t)net->m, *at++ = (uint8_t)net->p;
    at = put_excluded(at, net);
    for (int g = 0; g < net->m; g++) at = put_gate(at, net, g);
    for (int i = 0; i < net->p; i++) at = put_mark(at, 0x4F), *at++ = net->outputs[i];
    return (size_t)(at - file);
}

/* ## The tests of a session's calls, and the exchange */

int state_test(const Network *loaded, const Network *current) {
    return state_fault(loaded) || state_fault(current) ? 10 : 0;
}

/* of one pair, where the places of `named` are named before it */
static int pair_test(const Network *loaded, uint64_t named, uint64_t gate, uint64_t table) {
    uint64_t g = gate - (uint64_t)loaded->n;
    if ((uint64_t)loaded->m <= g) return 11;
    if (named >> g & 1) return 16;
    return table & ~all_entries(loaded->arity[g]) ? 12 : 0;
}

int handful_test(const Network *loaded, const Network *current, const Handful *handful) {
    uint64_t named = 0;
    if (state_test(loaded, current)) return 10;
    if (handful->gates_len != handful->tables_len) return 15;
    for (size_t i = 0; i < handful->gates_len; i++) {
        int number = pair_test(loaded, named, handful->gates[i], handful->tables[i]);
        if (number) return number;
        named |= BIT(handful->gates[i] - (uint64_t)loaded->n);
    }
    return 0;
}

Answer exchange(const Network *loaded, Network *current, const Sets *sets, uint64_t gate, uint64_t table) {
    int number = state_test(loaded, current);
    if (!number) number = pair_test(loaded, 0, gate, table);
    if (number) return (Answer){number, 0, 0};
    uint64_t g = gate - (uint64_t)loaded->n;
    uint64_t altered = (loaded->tables[g] ^ table) & ~sets->open[g];
    if (altered) return (Answer){13, __builtin_ctzll(altered), 0};
    current->tables[g] = table;
    return (Answer){0, 0, 0};
}
