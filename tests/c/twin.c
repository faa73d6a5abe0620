/* The twin network of document 01 by every call: gates 1 and 2 copy input 0, gate 3 is their OR. Then its like with six copies. */
#include <inttypes.h>
#include <stdio.h>

#include "tusqirma.h"

static const uint8_t twin[] = {0x4E, 0x49, 1, 3, 1, 0x4E, 0x47, 1, 0, 2,    0, 0x4E, 0x47, 1,
                               0,    2,    0, 0x4E, 0x47, 2, 1, 2, 0x0E, 0, 0x4E, 0x4F, 3};

static const uint8_t or_six[] = {0x4E, 0x49, 1, 7, 1, 0x4E, 0x47, 1, 0, 2, 0, 0x4E, 0x47, 1, 0, 2, 0, 0x4E, 0x47, 1, 0, 2, 0,
                                 0x4E, 0x47, 1, 0, 2, 0, 0x4E, 0x47, 1, 0, 2, 0, 0x4E, 0x47, 1, 0, 2, 0,
                                 0x4E, 0x48, 6, 1, 2, 3, 4, 5, 6, 0xFE, 0xFF, 0xFF, 0xFF, 0xFF, 0xFF, 0xFF, 0xFF, 0x4E, 0x4F, 7};

static const uint8_t one_gate[] = ".model t\n.inputs a\n.outputs f\n.names a f\n1 1\n.end\n";

static uint64_t session[TUSQIRMA_SESSION_WORDS];

/* Prints what a call returned, and the words that it gave. */
static void print(const char *what, uint64_t number, const uint64_t *words, size_t count)
{
    size_t i;
    printf("%s: %" PRIu64, what, number);
    for (i = 0; i < count; i++)
        printf(" %" PRIX64, words[i]);
    printf("\n");
}

static void exchange(const char *what, size_t gate, uint64_t table)
{
    uint64_t entry[1] = {0};
    uint64_t number = tusqirma_exchange(session, TUSQIRMA_SESSION_WORDS, gate, table, entry, 1);
    print(what, number, entry, number == TUSQIRMA_CLOSED_ENTRY ? 1 : 0);
}

/* Of gates 1 and 2, or of one of them, to table 0. */
static const uint64_t gates[] = {1, 2}, zeros[] = {0, 0};

static void verdict(const char *what, size_t from, size_t count)
{
    uint64_t harm[2] = {0, 0};
    uint64_t number = tusqirma_verdict(session, TUSQIRMA_SESSION_WORDS, gates + from, count, zeros, count, harm, 2);
    print(what, number, harm, number == TUSQIRMA_HARM ? 2 : 0);
}

static void listing(const uint8_t *file, size_t length)
{
    uint8_t text[TUSQIRMA_MOST_TEXT];
    uint64_t bytes[1] = {0};
    uint64_t number = tusqirma_listing(file, length, text, sizeof text, bytes, 1);
    print("listing", number, bytes, 1);
    fwrite(text, 1, (size_t)bytes[0], stdout);
}

static void sets(void)
{
    uint64_t tables[TUSQIRMA_MOST_TABLE_WORDS];
    uint64_t words[TUSQIRMA_MOST_PATTERN_WORDS];
    uint64_t hidden[TUSQIRMA_MOST_GATES];
    print("tables of gate 1", tusqirma_tables(session, TUSQIRMA_SESSION_WORDS, 1, tables, 5), tables, 5);
    print("tables of gate 3", tusqirma_tables(session, TUSQIRMA_SESSION_WORDS, 3, tables, 5), tables, 5);
    print("all tables", tusqirma_all_tables(session, TUSQIRMA_SESSION_WORDS, tables, 15), tables, 15);
    print("pattern sets", tusqirma_pattern_sets(session, TUSQIRMA_SESSION_WORDS, words, 6), words, 6);
    print("hidden", tusqirma_hidden(session, TUSQIRMA_SESSION_WORDS, hidden, 3), hidden, 3);
}

static void write_again(void)
{
    uint8_t file[TUSQIRMA_MOST_FILE];
    uint64_t bytes[1] = {0};
    uint64_t number = tusqirma_write(session, TUSQIRMA_SESSION_WORDS, file, sizeof file, bytes, 1);
    print("write", number, bytes, 1);
    listing(file, (size_t)bytes[0]);
}

/* As BLIF, and read again: the words of the session are these. */
static void blif(void)
{
    uint8_t text[TUSQIRMA_MOST_BLIF];
    uint64_t bytes[1] = {0}, again[TUSQIRMA_SESSION_WORDS];
    uint64_t number = tusqirma_write_blif(session, TUSQIRMA_SESSION_WORDS, text, sizeof text, bytes, 1);
    print("write BLIF", number, bytes, 1);
    fwrite(text, 1, (size_t)bytes[0], stdout);
    number = tusqirma_read_blif(text, (size_t)bytes[0], again, TUSQIRMA_SESSION_WORDS);
    print("read BLIF", number, again, 3);
    print("its tables", number, again + TUSQIRMA_WORD_CURRENT, 3);
    print("its open tables", number, again + TUSQIRMA_WORD_OPEN, 3);
}

/* Each buffer of each call in turn null, with length 0; the others as the call needs them. */
static void nulls(void)
{
    enum { WORDS = TUSQIRMA_SESSION_WORDS };
    uint64_t out[TUSQIRMA_MOST_PATTERN_WORDS];
    uint8_t bytes[TUSQIRMA_MOST_TEXT];
    print("load, null file", tusqirma_load(NULL, 0, session, WORDS), out, 0);
    print("load, null session", tusqirma_load(twin, sizeof twin, NULL, 0), out, 0);
    print("tables, null session", tusqirma_tables(NULL, 0, 1, out, 5), out, 0);
    print("tables, null out", tusqirma_tables(session, WORDS, 1, NULL, 0), out, 0);
    print("all tables, null session", tusqirma_all_tables(NULL, 0, out, 15), out, 0);
    print("all tables, null out", tusqirma_all_tables(session, WORDS, NULL, 0), out, 0);
    print("pattern sets, null session", tusqirma_pattern_sets(NULL, 0, out, 6), out, 0);
    print("pattern sets, null words", tusqirma_pattern_sets(session, WORDS, NULL, 0), out, 0);
    print("hidden, null session", tusqirma_hidden(NULL, 0, out, 3), out, 0);
    print("hidden, null out", tusqirma_hidden(session, WORDS, NULL, 0), out, 0);
    print("verdict, null session", tusqirma_verdict(NULL, 0, gates, 2, zeros, 2, out, 2), out, 0);
    print("verdict, null out", tusqirma_verdict(session, WORDS, gates, 2, zeros, 2, NULL, 0), out, 0);
    print("verdict, null gates", tusqirma_verdict(session, WORDS, NULL, 0, zeros, 2, out, 2), out, 0);
    print("verdict, null tables", tusqirma_verdict(session, WORDS, gates, 2, NULL, 0, out, 2), out, 0);
    print("verdict, null lists", tusqirma_verdict(session, WORDS, NULL, 0, NULL, 0, out, 2), out, 0);
    print("exchange, null session", tusqirma_exchange(NULL, 0, 2, 0, out, 1), out, 0);
    print("exchange, null out", tusqirma_exchange(session, WORDS, 2, 0, NULL, 0), out, 0);
    print("write, null session", tusqirma_write(NULL, 0, bytes, sizeof bytes, out, 1), out, 0);
    print("write, null file", tusqirma_write(session, WORDS, NULL, 0, out, 1), out, 0);
    print("write, null out", tusqirma_write(session, WORDS, bytes, sizeof bytes, NULL, 0), out, 0);
    print("read BLIF, null text", tusqirma_read_blif(NULL, 0, session, WORDS), out, 0);
    print("read BLIF, null session", tusqirma_read_blif(one_gate, sizeof one_gate - 1, NULL, 0), out, 0);
    print("write BLIF, null session", tusqirma_write_blif(NULL, 0, bytes, sizeof bytes, out, 1), out, 0);
    print("write BLIF, null text", tusqirma_write_blif(session, WORDS, NULL, 0, out, 1), out, 0);
    print("write BLIF, null out", tusqirma_write_blif(session, WORDS, bytes, sizeof bytes, NULL, 0), out, 0);
    print("listing, null text", tusqirma_listing(twin, sizeof twin, NULL, 0, out, 1), out, 0);
    print("listing, null out", tusqirma_listing(twin, sizeof twin, bytes, sizeof bytes, NULL, 0), out, 0);
    listing(NULL, 0);
}

static void refusals(void)
{
    uint64_t out[15];
    uint64_t n = session[TUSQIRMA_WORD_N];
    print("load one byte short", tusqirma_load(twin, sizeof twin - 1, session, TUSQIRMA_SESSION_WORDS), out, 0);
    print("load to a short session", tusqirma_load(twin, sizeof twin, session, TUSQIRMA_SESSION_WORDS - 1), out, 0);
    print("read BLIF to a short session", tusqirma_read_blif(one_gate, sizeof one_gate - 1, session, TUSQIRMA_SESSION_WORDS - 1), out, 0);
    print("read BLIF without .end", tusqirma_read_blif(one_gate, sizeof one_gate - 6, session, TUSQIRMA_SESSION_WORDS), out, 0);
    print("read BLIF without .inputs", tusqirma_read_blif(one_gate, 9, session, TUSQIRMA_SESSION_WORDS), out, 0);
    print("tables to four words", tusqirma_tables(session, TUSQIRMA_SESSION_WORDS, 1, out, 4), out, 0);
    print("all tables to fourteen words", tusqirma_all_tables(session, TUSQIRMA_SESSION_WORDS, out, 14), out, 0);
    print("tables of an input", tusqirma_tables(session, TUSQIRMA_SESSION_WORDS, 0, out, 5), out, 0);
    session[TUSQIRMA_WORD_N] = 11;
    print("tables of a state with n 11", tusqirma_tables(session, TUSQIRMA_SESSION_WORDS, 1, out, 5), out, 0);
    session[TUSQIRMA_WORD_N] = n;
}

/* Of six fan-ins: a table takes all bits of a word, and the SDC two words. */
static void six(void)
{
    uint64_t tables[TUSQIRMA_MOST_TABLE_WORDS];
    listing(or_six, sizeof or_six);
    print("load six", tusqirma_load(or_six, sizeof or_six, session, TUSQIRMA_SESSION_WORDS), session, 3);
    print("tables of gate 7", tusqirma_tables(session, TUSQIRMA_SESSION_WORDS, 7, tables, 5), tables, 5);
    print("all tables", tusqirma_all_tables(session, TUSQIRMA_SESSION_WORDS, tables, 35), tables + 25, 10);
    exchange("exchange, gate 7 to 0", 7, 0);
    exchange("exchange, gate 7 to FFFFFFFFFFFFFFFF", 7, 0xFFFFFFFFFFFFFFFF);
    exchange("exchange, gate 7 to FFFFFFFF00000000", 7, 0xFFFFFFFF00000000);
    print("its table", 0, session + TUSQIRMA_WORD_CURRENT + 6, 1);
}

int main(void)
{
    if (tusqirma_session_words() != TUSQIRMA_SESSION_WORDS)
        return 1;
    listing(twin, sizeof twin);
    print("load", tusqirma_load(twin, sizeof twin, session, TUSQIRMA_SESSION_WORDS), session, 3);
    sets();
    verdict("verdict, gate 1 to 0", 0, 1);
    verdict("verdict, gate 2 to 0", 1, 1);
    verdict("verdict, gates 1 and 2 to 0", 0, 2);
    exchange("exchange, gate 1 to 0", 1, 0);
    exchange("exchange, gate 2 to 0", 2, 0);
    verdict("verdict, gate 2 to 0", 1, 1);
    exchange("exchange, gate 3 to C", 3, 0xC);
    exchange("exchange, gate 3 to 10", 3, 0x10);
    exchange("exchange, gate 4 to 0", 4, 0);
    nulls();
    write_again();
    blif();
    refusals();
    six();
    return 0;
}
