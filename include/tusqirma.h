/*
 * Tusqirma: don't-care tables of gate networks, verdicts on any handful of gates, and sessions of exchanges.
 *
 * The calls of the static library libcapi.a. Each returns 0 where it did what was asked, or the number of a refusal.
 *
 * A network has n inputs (1 to 10), m gates (1 to 40) and p outputs (1 to 8); a gate has k fan-ins (1 to 6). Signals 0 to
 * n-1 are the inputs and n to n+m-1 the gates, in file order; a call names a gate by its signal number. Pattern x gives
 * input i the value of bit i of x. Entry t of a table stands at bit t and answers the fan-in values whose sum, fan-in r
 * times 2^r, is t; with six fan-ins it has all 64 bits, and none is past its end. A set of patterns has pattern x at bit
 * x % 64 of its word x / 64.
 *
 * A one in the excluded set means that the pattern NEVER comes.
 *
 * Buffers. Each is passed as a pointer and a length in elements. The pointer must be aligned for its type, and that many
 * elements must be there; it may be null where the length is 0. Buffers of one call must not overlap. A call keeps no
 * pointer. What lies behind the elements that a call needs stays as it was.
 *
 * Threads and memory. The calls keep no state of their own, so threads may use different sessions at the same time, or
 * read the same one. A call takes no heap, and up to 64 kB of stack.
 *
 * Refusals. TUSQIRMA_CLOSED_ENTRY and TUSQIRMA_HARM write the values that they name to the start of `out`, and nothing
 * else. In every other refusal each lent word and byte stays as it was. A session is written by tusqirma_load,
 * tusqirma_read_blif and tusqirma_exchange alone, and only where they return 0. A network is loaded by either of the first
 * two.
 *
 * Proved of these calls, for every file, text and length of a buffer (docs/DEMANDS.md leads to the theorems):
 *   - A call ends in 0 or in one of the refusals named beside it, and writes inside the buffers that it was lent.
 *   - After a load and any list of exchanges, refused ones included, a gate set several times or set back: every output on
 *     every pattern not excluded stays that of the loaded network, and each gate has the table of its last accepted
 *     exchange, or the loaded one. No call refuses such a session with 10. Neighbours at different gates may be swapped.
 *   - An exchange at a gate, with a table that fits, is refused exactly when it alters a closed entry of the loaded
 *     table. What exchanges would accept, each for itself, is harmless on one verdict, and so is every part of it.
 *   - A verdict finds harm exactly when some pattern that is not excluded changes an output with all of its gates replaced.
 *   - A network written and loaded again is the same network.
 *   - A network written as BLIF and read again has the same inputs, the same gates under the same numbers, the value of
 *     every output at every pattern, and the same text once more.
 *
 * Order of the tests. tusqirma_load: 1 to 8, then 9. tusqirma_read_blif: 17, 18 and 3 of the first line at fault, then 9.
 * The calls on a session: 9 for a session of fewer than 427 words, 10, 9 for any other buffer, then 11, 12 and 13; a
 * verdict 15, then of each pair in order 11, 16 and 12, then 14; tusqirma_write_blif 3 between 10 and 9.
 * tusqirma_listing: 9 only.
 */
#ifndef TUSQIRMA_H
#define TUSQIRMA_H

#include <stddef.h>
#include <stdint.h>

#ifdef __cplusplus
extern "C" {
#endif

/* What a call returns. */
enum tusqirma_refusal {
    TUSQIRMA_DONE = 0,              /* not refused */
    /* the file */
    TUSQIRMA_TRUNCATED = 1,         /* bytes run out where a record is due or inside one */
    TUSQIRMA_UNEXPECTED_MARK = 2,   /* the mark is not due there */
    TUSQIRMA_OUT_OF_BOUNDS = 3,     /* n, m, p or k outside its bounds; k of a file's record 4E 47: 1 to 4, of 4E 48: 5 or 6 */
    TUSQIRMA_FANIN_NOT_EARLIER = 4, /* a fan-in that is not an earlier signal */
    TUSQIRMA_FANIN_REPEATED = 5,    /* a fan-in already listed in this gate */
    TUSQIRMA_BIT_PAST_END = 6,      /* a bit set at or past 2^k in a table, or 2^n in the excluded set */
    TUSQIRMA_NOT_A_SIGNAL = 7,      /* an output signal not below n+m */
    TUSQIRMA_TRAILING_BYTES = 8,    /* bytes after the last record */
    /* the buffers */
    TUSQIRMA_BUFFER_TOO_SHORT = 9,  /* a buffer shorter than the words or bytes needed */
    /* the maker of a state */
    TUSQIRMA_INVALID_STATE = 10,    /* session words that hold no network: see the session's words below */
    /* the session's user */
    TUSQIRMA_NOT_A_GATE = 11,       /* no gate has that signal number */
    TUSQIRMA_TABLE_TOO_WIDE = 12,   /* the table has a bit at or past 2^k */
    TUSQIRMA_CLOSED_ENTRY = 13,     /* exchange: alters a closed entry of the loaded table; out[0]: the smallest */
    TUSQIRMA_HARM = 14,             /* verdict: an output changes; out[0]: of the patterns not excluded that change one
                                       the one with the fewest ones, the smaller number among equals; out[1]: there,
                                       the lowest output */
    TUSQIRMA_LISTS_UNEQUAL = 15,    /* verdict: lists of unequal length */
    TUSQIRMA_GATE_REPEATED = 16,    /* verdict: a gate named a second time */
    /* the BLIF text */
    TUSQIRMA_OUTSIDE_SUBSET = 17,   /* a line outside the subset or out of order, or no line where one is due */
    TUSQIRMA_BAD_NAME = 18          /* a name unknown where used, defined twice, or listed twice in one line */
};

/*
 * The words of a session, one number in each. The user may keep, copy and read them. Words made by hand are tested by
 * every call, which returns TUSQIRMA_INVALID_STATE where
 *   - one of the words before TUSQIRMA_WORD_EXCLUDED is past 255;
 *   - n, m, p, or the k of one of the m gates is outside its bounds;
 *   - one of a gate's k fan-ins is no earlier signal, or is listed twice;
 *   - a loaded or a current table of the m gates has a bit at or past 2^k;
 *   - the excluded set has a bit at or past 2^n in any of its words;
 *   - one of the p outputs is not below n+m.
 * Open tables are taken as they stand. Places behind a gate's k fan-ins, the m gates and the p outputs are held to the
 * first of these tests only, and stay as they are.
 */
enum tusqirma_word {
    TUSQIRMA_WORD_N = 0,          /* inputs */
    TUSQIRMA_WORD_M = 1,          /* gates */
    TUSQIRMA_WORD_P = 2,          /* outputs */
    TUSQIRMA_WORD_ARITY = 3,      /* 40: k of each gate */
    TUSQIRMA_WORD_FANINS = 43,    /* 240: six places for each gate; fan-in r of gate n+g is at 43 + 6 g + r */
    TUSQIRMA_WORD_OUTPUTS = 283,  /* 8: the signal of each output */
    TUSQIRMA_WORD_EXCLUDED = 291, /* 16: the excluded set; a one means that the pattern never comes */
    TUSQIRMA_WORD_LOADED = 307,   /* 40: the table of each gate as loaded */
    TUSQIRMA_WORD_CURRENT = 347,  /* 40: the table of each gate after the exchanges */
    TUSQIRMA_WORD_OPEN = 387,     /* 40: the open table of each gate */
    TUSQIRMA_SESSION_WORDS = 427  /* words in all */
};

/* Lengths that are enough for any network. */
enum tusqirma_most {
    TUSQIRMA_MOST_FILE = 839,           /* bytes of a file that loads */
    TUSQIRMA_MOST_TEXT = 2482,          /* bytes of a listing */
    TUSQIRMA_MOST_BLIF = 24543,         /* bytes of a BLIF text from tusqirma_write_blif */
    TUSQIRMA_MOST_GATES = 40,           /* words for tusqirma_hidden */
    TUSQIRMA_MOST_TABLE_WORDS = 200,    /* words for tusqirma_all_tables */
    TUSQIRMA_MOST_PATTERN_WORDS = 1280  /* words for tusqirma_pattern_sets */
};

/* The number of a session's words: TUSQIRMA_SESSION_WORDS. */
size_t tusqirma_session_words(void);

/*
 * Reads a network file into `session` (427 words), with the open tables of its gates worked out; current tables are the
 * loaded ones. Refusals 1 to 8, then 9.
 */
uint64_t tusqirma_load(const uint8_t *file, size_t file_len, uint64_t *session, size_t session_len);

/*
 * Reads a BLIF text into `session` (427 words; those behind stay), as tusqirma_load reads a file; nothing is excluded.
 * Refusals 17, 18 or 3, by the first line at fault, then 9.
 *
 * Lines end in newlines, the last may lack its own; `#` starts a comment anywhere; blank lines are passed over. Words, of
 * the bytes 21 to 7E, are parted by spaces, tabs and carriage returns; any word may be a name. The lines, in this order:
 *   .model NAME        the name is not kept
 *   .inputs NAME ..    1 to 10 names: signals 0 to n-1
 *   .outputs NAME ..   1 to 8 names, which are looked up at .end
 *   .names NAME ..     1 to 40 times: the names of 1 to 6 fan-ins, known by then, and of the gate. Its rows follow: a 0, 1
 *                      or - for each fan-in, the first leftmost, and behind them a 1, in all rows of the gate, or a 0.
 *                      The entries that some row covers have that value, the others the other; without rows all are 0.
 *   .end               nothing but blank lines and comments behind it
 */
uint64_t tusqirma_read_blif(const uint8_t *text, size_t text_len, uint64_t *session, size_t session_len);

/*
 * The tables of one gate, to `out` (5 words): SDC low, SDC high, CDC, full, open. All but the last are of the current
 * network; the open table is the one that the session holds. Refusals 9, 10, 11.
 *   SDC         entry t + 2^k o, where o is 0 or 1, is set when o differs from the table's entry t. Its entries below 64
 *               are the first word, the others the second, which is 0 for up to five fan-ins
 *   CDC         entry t is set when no pattern outside the excluded set gives the fan-ins the values of t
 *   full table  the entries that a lone replacement may alter: each pattern that gives t is excluded or in the ODC
 *   open table  the entries that an exchange may alter, whatever is exchanged at other gates
 */
uint64_t tusqirma_tables(const uint64_t *session, size_t session_len, size_t gate, uint64_t *out, size_t out_len);

/* The same five words of each gate, gate after gate, to `out` (5 m words). Refusals 9, 10. */
uint64_t tusqirma_all_tables(const uint64_t *session, size_t session_len, uint64_t *out, size_t out_len);

/*
 * Two sets of patterns of each gate, gate after gate, to `words` (2 m W words, where W is 2^n / 64 and at least 1). Each
 * set fills W words; spare bits are zero. Refusals 9, 10.
 *   ODC  of the current network: the patterns at which inverting the gate's value changes no output
 *   H    the compatible set, of the loaded network: the patterns at which the gate's value does not matter, shared out so
 *        that all gates may use theirs at once
 */
uint64_t tusqirma_pattern_sets(const uint64_t *session, size_t session_len, uint64_t *words, size_t words_len);

/* The number of patterns in the compatible set H of each gate, gate after gate, to `out` (m words). Refusals 9, 10. */
uint64_t tusqirma_hidden(const uint64_t *session, size_t session_len, uint64_t *out, size_t out_len);

/*
 * Judges the current network with the tables of some gates replaced, all of them at once, against the loaded network's
 * outputs. Gate gates[i] gets table tables[i]; the gates may stand in any order, none twice. Returns 0 where no pattern
 * that is not excluded changes an output; otherwise 14, with the one of these patterns that has the fewest inputs at 1,
 * the smaller number among equals, in out[0] and its lowest changed output (0 to p-1) in out[1]. `out` has 2 words, and
 * keeps them in every other outcome. The session stays. NULL with length 0 serves for an empty list, on which the current
 * network is judged as it stands.
 * Refusals 9, 10, 15 where the lists are of unequal length, then of the first pair at fault 11, 16 where an earlier pair
 * names its gate, or 12; then 14.
 */
uint64_t tusqirma_verdict(const uint64_t *session, size_t session_len, const uint64_t *gates, size_t gates_len,
                          const uint64_t *tables, size_t tables_len, uint64_t *out, size_t out_len);

/*
 * Sets the current table of one gate. Refused with 13 where the table differs from the loaded one at an entry that is
 * not open; out[0] is then the smallest such entry. `out` has 1 word, and keeps it in every other outcome.
 * Refusals 9, 10, 11, 12, 13.
 */
uint64_t tusqirma_exchange(uint64_t *session, size_t session_len, size_t gate, uint64_t table, uint64_t *out, size_t out_len);

/*
 * Writes the network with its current tables as a file from the start of `file`, and the number of its bytes to `out`
 * (1 word). An empty excluded set is left out. Refusals 9 (`out`, or `file` shorter than these bytes), 10.
 */
uint64_t tusqirma_write(const uint64_t *session, size_t session_len, uint8_t *file, size_t file_len, uint64_t *out, size_t out_len);

/*
 * The network with its current tables as BLIF from the start of `text`, and the number of its bytes to `out` (1 word); no
 * zero byte follows. Signal x is called `sx`. An output that repeats an earlier one or is an input gets a gate that copies
 * it, behind all others and in output order. Excluded sets do not go out.
 * Refusals 9 (session), 10, 3 (over 40 gates with the copies), 9 (`out`, or `text` shorter than these bytes).
 */
uint64_t tusqirma_write_blif(const uint64_t *session, size_t session_len, uint8_t *text, size_t text_len, uint64_t *out, size_t out_len);

/*
 * The listing of a file, from the start of `text`, and the number of its bytes to `out` (1 word). No zero byte follows.
 * Tables have four hexadecimal digits, or, where some gate of the network has more than four fan-ins, all have sixteen.
 * A file that would not load has the listing `refused N` and a newline; the call itself then returns 0.
 * Refusal 9 (`out`, or `text` shorter than these bytes).
 */
uint64_t tusqirma_listing(const uint8_t *file, size_t file_len, uint8_t *text, size_t text_len, uint64_t *out, size_t out_len);

#ifdef __cplusplus
}
#endif

#endif
