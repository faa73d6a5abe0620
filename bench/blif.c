/* BLIF in and out, for both baselines: names are places in the text, looked up one after the other. */
#include "baseline.h"
#include <string.h>

/* ## In */

/* a word, or what is left of a line or of the text */
typedef struct {
    const uint8_t *at, *end;
} Span;

static size_t length(Span s) { return (size_t)(s.end - s.at); }
static int same(Span a, Span b) { return length(a) == length(b) && !memcmp(a.at, b.at, length(a)); }
static int is(Span w, const char *word) { return length(w) == strlen(word) && !memcmp(w.at, word, length(w)); }
static int blank(uint8_t b) { return b == ' ' || b == '\t' || b == '\r'; }

/* takes the next word off the line; an empty one where there is none */
static Span next_word(Span *line) {
    while (line->at < line->end && blank(*line->at)) line->at++;
    Span w = {line->at, line->at};
    while (w.end < line->end && !blank(*w.end)) w.end++;
    line->at = w.end;
    return w;
}

/* takes the next line that has words off the text, with its first word; 0 where there is none */
static int next_line(Span *text, Span *line, Span *first) {
    while (text->at < text->end) {
        const uint8_t *newline = memchr(text->at, '\n', length(*text));
        *line = (Span){text->at, newline ? newline : text->end};
        text->at = newline ? newline + 1 : text->end;
        const uint8_t *comment = memchr(line->at, '#', length(*line));
        if (comment) line->end = comment;
        *first = next_word(line);
        if (length(*first)) return 1;
    }
    return 0;
}

static int printing(Span line) {
    for (; line.at < line.end; line.at++)
        if (!blank(*line.at) && (*line.at < 0x21 || 0x7E < *line.at)) return 0;
    return 1;
}

/* the place of the name, or their number */
static int place(const Span *names, int count, Span name) {
    for (int i = 0; i < count; i++)
        if (same(names[i], name)) return i;
    return count;
}

/* some name of the line stands there twice */
static int repeats(Span line) {
    for (Span w = next_word(&line); length(w); w = next_word(&line)) {
        Span rest = line;
        for (Span v = next_word(&rest); length(v); v = next_word(&rest))
            if (same(v, w)) return 1;
    }
    return 0;
}

/* the names of a line that is due, of which there are 1 to `most` */
static int parse_names(Span *text, const char *due, int most, Span *names, int *count) {
    Span line, first;
    if (!next_line(text, &line, &first) || !is(first, due) || !printing(line)) return 17;
    if (repeats(line)) return 18;
    for (Span w = next_word(&line); length(w); w = next_word(&line)) {
        if (*count == most) return 3;
        names[(*count)++] = w;
    }
    return *count ? 0 : 3;
}

static int parse_model(Span *text) {
    Span line, first;
    if (!next_line(text, &line, &first) || !is(first, ".model") || !printing(line)) return 17;
    return length(next_word(&line)) && !length(next_word(&line)) ? 0 : 17;
}

/* of a `.names` line: all names but the last are known, and none stands twice */
static int block_names_fault(const Span *signals, int count, Span line) {
    Span rest = line, w = next_word(&rest);
    if (!length(w)) return 3;
    for (Span next = next_word(&rest); length(next); w = next, next = next_word(&rest))
        if (place(signals, count, w) == count) return 18;
    return place(signals, count, w) < count || repeats(line) ? 18 : 0;
}

static int parse_block(Span line, Network *net, Span *signals) {
    int known = net->n + net->m, k = 0;
    if (!printing(line)) return 17;
    int fault = block_names_fault(signals, known, line);
    if (fault) return fault;
    Span w = next_word(&line);
    for (Span next = next_word(&line); length(next); w = next, next = next_word(&line)) {
        if (k == FANINS) return 3;
        net->fanins[net->m][k++] = (uint8_t)place(signals, known, w);
    }
    if (!k || net->m == GATES) return 3;
    signals[known] = w;
    net->arity[net->m++] = (uint8_t)k;
    return 0;
}

/* a row of the last block, whose earlier rows have this digit, or 0 where there is none */
static int parse_row(Span marks, Span line, Network *net, int *digit) {
    Span value = next_word(&line);
    if (!net->m || length(next_word(&line)) || length(value) != 1) return 17;
    int g = net->m - 1, k = net->arity[g], d = *value.at;
    if ((d != '0' && d != '1') || (*digit && *digit != d) || length(marks) != (size_t)k) return 17;
    uint64_t row = all_entries(k);
    for (int r = 0; r < k; r++) {
        uint8_t b = marks.at[r];
        if (b != '0' && b != '1' && b != '-') return 17;
        if (b != '-') row &= b == '1' ? INPUT[r] : ~INPUT[r];
    }
    if (!*digit && d == '0') net->tables[g] = all_entries(k);
    if (d == '1') net->tables[g] |= row;
    else net->tables[g] &= ~row;
    *digit = d;
    return 0;
}

/* up to `.end`, whose words behind it are left in `line` */
static int parse_blocks(Span *text, Network *net, Span *signals, Span *line) {
    int digit = 0;
    for (Span first;;) {
        if (!next_line(text, line, &first)) return 17;
        if (is(first, ".end")) return 0;
        int opens = is(first, ".names");
        int fault = opens ? parse_block(*line, net, signals) : parse_row(first, *line, net, &digit);
        if (fault) return fault;
        if (opens) digit = 0;
    }
}

int parse_blif(const uint8_t *bytes, size_t size, Network *net) {
    Span text = {bytes, bytes + size}, line = {0}, first, signals[SIGNALS], outputs[OUTPUTS];
    *net = (Network){0};
    int fault = parse_model(&text);
    if (!fault) fault = parse_names(&text, ".inputs", INPUTS, signals, &net->n);
    if (!fault) fault = parse_names(&text, ".outputs", OUTPUTS, outputs, &net->p);
    if (!fault) fault = parse_blocks(&text, net, signals, &line);
    if (fault) return fault;
    if (length(next_word(&line))) return 17;
    for (int i = 0; i < net->p; i++)
        if ((net->outputs[i] = (uint8_t)place(signals, net->n + net->m, outputs[i])) == net->n + net->m) return 18;
    if (!net->m) return 3;
    return next_line(&text, &line, &first) ? 17 : 0;
}

/* ## Out */

static uint8_t *put(uint8_t *at, const char *text) {
    size_t size = strlen(text);
    memcpy(at, text, size);
    return at + size;
}

static uint8_t *put_name(uint8_t *at, int signal) {
    *at++ = ' ', *at++ = 's';
    if (signal >= 10) *at++ = (uint8_t)('0' + signal / 10);
    *at++ = (uint8_t)('0' + signal % 10);
    return at;
}

static uint8_t *put_block(uint8_t *at, const Network *net, int g) {
    int k = net->arity[g];
    uint64_t table = net->tables[g];
    at = put(at, ".names");
    for (int r = 0; r < k; r++) at = put_name(at, net->fanins[g][r]);
    at = put(put_name(at, net->n + g), "\n");
    for (uint64_t left = table; left; left &= left - 1) {
        int t = __builtin_ctzll(left);
        for (int r = 0; r < k; r++) *at++ = (uint8_t)('0' + (t >> r & 1));
        at = put(at, " 1\n");
    }
    return at;
}

/* adds a copy for each output that is an input or repeats an earlier one; 0 where there is no place for it */
static int add_copies(const Network *net, Network *out) {
    *out = *net;
    for (int i = 0; i < net->p; i++) {
        uint8_t signal = net->outputs[i];
        int copied = signal < net->n;
        for (int j = 0; j < i; j++) copied |= net->outputs[j] == signal;
        if (!copied) continue;
        if (out->m == GATES) return 0;
        out->outputs[i] = (uint8_t)(out->n + out->m);
        out->arity[out->m] = 1, out->fanins[out->m][0] = signal, out->tables[out->m++] = 2;
    }
    return 1;
}

size_t print_blif(const Network *net, uint8_t *text) {
    Network out;
    if (!add_copies(net, &out)) return 0;
    uint8_t *at = put(text, ".model s\n.inputs");
    for (int i = 0; i < out.n; i++) at = put_name(at, i);
    at = put(at, "\n.outputs");
    for (int i = 0; i < out.p; i++) at = put_name(at, out.outputs[i]);
    at = put(at, "\n");
    for (int g = 0; g < out.m; g++) at = put_block(at, &out, g);
    return (size_t)(put(at, ".end\n") - text);
}
