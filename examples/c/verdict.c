/* The palletiser's question. A removal routine leaves two pointers a and b at different nodes with the same successor. May the
 * list from a lead to b? And may it also lead back, from b to a?
 *
 *     .ci/check lemitsaka_c
 *     cc -Iinclude examples/c/verdict.c target/staticlib/liblemitsaka.a -o verdict && ./verdict
 */
#include "lemitsaka.h"
#include <stdio.h>

static const uint8_t order[] = {1, 2, 3, 8, 4, 5, 6, 7};

static const uint8_t there[] = {
    4, 0, 0, 1, 2,          /* four terms: a is 1, b is 2, a->next is 3, b->next is 4 */
    2, 1, 3, 4, 0, 1, 2,    /* a->next == b->next, a != b */
    1, 1, 1, 2,             /* b can be reached from a */
    0,                      /* nothing is said of data fields */
    0                       /* section 5 is retired: always 0 */
};

static const uint8_t there_and_back[] = {
    4, 0, 0, 1, 2,
    2, 1, 3, 4, 0, 1, 2,
    2, 1, 1, 2, 1, 2, 1,    /* b can be reached from a, and a from b */
    0,
    0
};

static void print_refusal(uint64_t answer)
{
    printf("  refused %u at %u\n", lemitsaka_refusal(answer), lemitsaka_place(answer));
}

/* A report has, each after its count: successors, the nodes of the terms, data bytes, and a byte that is 0. */
static void print_heap(const uint8_t *report)
{
    const uint8_t *next = report;
    const uint8_t *node = next + 1 + next[0];
    unsigned i;

    for (i = 1; i <= next[0]; i++)
        printf("  node %u links to node %u\n", i, (unsigned)next[i]);
    for (i = 1; i <= node[0]; i++)
        printf("  term %u is node %u\n", i, (unsigned)node[i]);
}

/* A derivation has its line count in two bytes, then four bytes a line. */
static void print_derivation(const uint8_t *query, size_t query_len)
{
    static uint8_t buffer[LEMITSAKA_DERIVATION_SIZE];
    uint64_t answer = lemitsaka_derivation(order, sizeof order, query, query_len, buffer, sizeof buffer);
    const uint8_t *line = buffer + 2;
    unsigned lines = buffer[0] * 256u + buffer[1];

    if (answer != LEMITSAKA_REFUTED)
        print_refusal(answer);
    for (; lines > 0; lines--, line += 4)
        printf("  %u %u %u %u\n", (unsigned)line[0], (unsigned)line[1], (unsigned)line[2], (unsigned)line[3]);
}

static void ask(const char *question, const uint8_t *query, size_t query_len)
{
    uint8_t report[LEMITSAKA_REPORT_SIZE];
    uint64_t answer = lemitsaka_verdict(order, sizeof order, query, query_len, report, sizeof report);

    printf("%s\n", question);
    if (answer == LEMITSAKA_SATISFIABLE) {
        printf("  Yes, in this heap:\n");
        print_heap(report);
    } else if (answer == LEMITSAKA_REFUTED) {
        printf("  No, by this derivation:\n");
        print_derivation(query, query_len);
    } else {
        print_refusal(answer);
    }
}

int main(void)
{
    ask("a and b differ and share their successor. May a lead to b?", there, sizeof there);
    ask("May a lead to b, and b to a?", there_and_back, sizeof there_and_back);
    return 0;
}
