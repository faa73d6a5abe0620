/* May gates 14 and 22 be set to table 0 on one order? Reads a network file from standard input and asks, by verdicts and by exchanges. */
#include "tusqirma.h"
#include <stdio.h>

static uint64_t session[TUSQIRMA_SESSION_WORDS];

static void verdict(const char *asked, const uint64_t *gates, const uint64_t *tables, size_t count) {
    uint64_t out[2];
    uint64_t number = tusqirma_verdict(session, TUSQIRMA_SESSION_WORDS, gates, count, tables, count, out, 2);
    printf("verdict, %s: ", asked);
    if (number == TUSQIRMA_HARM)
        printf("harm at pattern %llu, output %llu\n", (unsigned long long)out[0], (unsigned long long)out[1]);
    else if (number) printf("refused %llu\n", (unsigned long long)number);
    else printf("harmless\n");
}

static void exchange(size_t gate, uint64_t table) {
    uint64_t out[1];
    uint64_t number = tusqirma_exchange(session, TUSQIRMA_SESSION_WORDS, gate, table, out, 1);
    printf("exchange, gate %zu to %llu: ", gate, (unsigned long long)table);
    if (number == TUSQIRMA_CLOSED_ENTRY) printf("refused, entry %llu is closed\n", (unsigned long long)out[0]);
    else if (number) printf("refused %llu\n", (unsigned long long)number);
    else printf("done\n");
}

int main(void) {
    uint8_t file[TUSQIRMA_MOST_FILE + 1];
    size_t size = fread(file, 1, sizeof file, stdin);
    uint64_t number = tusqirma_load(file, size, session, TUSQIRMA_SESSION_WORDS);
    if (number) {
        printf("load: refused %llu\n", (unsigned long long)number);
        return 1;
    }
    static const uint64_t gates[] = {14, 22}, tables[] = {0, 0};
    verdict("gate 14 to 0", gates, tables, 1);
    verdict("gate 22 to 0", gates + 1, tables + 1, 1);
    verdict("gates 14 and 22 to 0", gates, tables, 2);
    exchange(14, 0);
    verdict("gate 22 to 0", gates + 1, tables + 1, 1);
    exchange(22, 0);
    return 0;
}
