/* A routine puts a node n between p and the node q behind it, in a doubly linked list. Afterwards, may q->prev->next be another node
 * than q? And may it, if the routine forgets its last assignment?
 *
 *     .ci/check lemitsaka_c
 *     cc -Iinclude examples/c/insert.c target/staticlib/liblemitsaka.a -o insert && ./insert
 */
#include "lemitsaka.h"
#include <stdio.h>

static const uint8_t order[] = {1, 2, 3, 8, 4, 5, 6, 7};

/* next is link 1 and prev is link 2; 0 0 is a variable */
#define TERMS                                                                       \
    8, 0, 0, 0, 0, 0, 0,    /* eight terms: p is 1, n is 2, q is 3, */              \
    1, 1, 1, 2, 2, 2, 2, 3, /* p->next is 4, n->next 5, n->prev 6, q->prev 7, */    \
    1, 7                    /* and q->prev->next is 8 */

static const uint8_t right[] = {
    TERMS,
    5, 1, 4, 2, 1, 5, 3, 1, 6, 1, 1, 7, 2,  /* p->next == n, n->next == q, n->prev == p, q->prev == n */
    0, 8, 3,                                /* q->prev->next != q */
    0, 0, 0                                 /* nothing is said of reachability and data; section 5 is retired */
};

static const uint8_t forgetful[] = {
    TERMS,
    5, 1, 4, 2, 1, 5, 3, 1, 6, 1, 1, 7, 1,  /* q->prev is still p */
    0, 8, 3,
    0, 0, 0
};

/* The report begins with three times the count of nodes, and the successors of all by link 1, then by link 2, then by link 3. */
static void print_heap(const uint8_t *report)
{
    unsigned i, m = report[0] / 3u;

    for (i = 1; i <= m; i++)
        printf("  node %u: next is node %u, prev is node %u\n", i, (unsigned)report[i], (unsigned)report[m + i]);
}

/* A rule's number is 16 higher for link 2 and 32 higher for link 3. */
static void print_derivation(const uint8_t *query, size_t query_len)
{
    static uint8_t buffer[LEMITSAKA_DERIVATION_SIZE];
    uint64_t answer = lemitsaka_links_derivation(order, sizeof order, query, query_len, buffer, sizeof buffer);
    const uint8_t *line = buffer + 2;
    unsigned lines = buffer[0] * 256u + buffer[1];

    if (answer != LEMITSAKA_REFUTED)
        printf("  refused %u at %u\n", lemitsaka_refusal(answer), lemitsaka_place(answer));
    for (; lines > 0; lines--, line += 4)
        printf("  %u %u %u %u\n", (unsigned)line[0], (unsigned)line[1], (unsigned)line[2], (unsigned)line[3]);
}

static void ask(const char *question, const uint8_t *query, size_t query_len)
{
    uint8_t report[LEMITSAKA_LINKS_REPORT_SIZE];
    uint64_t answer = lemitsaka_links_verdict(order, sizeof order, query, query_len, report, sizeof report);

    printf("%s\n", question);
    if (answer == LEMITSAKA_SATISFIABLE) {
        printf("  Yes, in this heap:\n");
        print_heap(report);
    } else if (answer == LEMITSAKA_REFUTED) {
        printf("  No, by this derivation:\n");
        print_derivation(query, query_len);
    } else {
        printf("  refused %u at %u\n", lemitsaka_refusal(answer), lemitsaka_place(answer));
    }
}

int main(void)
{
    ask("n was put between p and q. May q->prev->next be another node than q?", right, sizeof right);
    ask("And if q->prev is still p?", forgetful, sizeof forgetful);
    return 0;
}
