/* Lemitsaka, the list prover: its calls for C and C++.
 *
 *     .ci/check lemitsaka_c
 *     cc -Iinclude yours.c target/staticlib/liblemitsaka.a
 *
 * examples/c/verdict.c is a whole program, and examples/c/insert.c one for three links. docs/manual has the bytes of a query, of a
 * report and of a derivation, and a page for C.
 *
 * Every slice is a pointer and a length in bytes:
 *
 *   order    the order in which the rules are tried: eight bytes, each of 1 to 8 once
 *   query    the statements, at most 561 bytes; the term byte 255 names null, one node whose link goes to itself. Queries of
 *            lemitsaka_between have a section more, at most 791 bytes, and those of lemitsaka_links_verdict,
 *            lemitsaka_links_derivation and lemitsaka_links_check a layout of their own for three links, at most 637 bytes
 *   report, buffer, and all others that are not const    lent to the call, which writes every byte, whatever it answers
 *
 * Any bytes and any lengths will do: what is no order list, no query and so on is refused. What the library cannot see for
 * itself, the caller vouches for:
 *
 *   - each pointer leads to as many bytes as its length says; no pointer is null, not even with length 0;
 *   - the lent bytes overlap none of the other slices (which may overlap each other), and no other thread uses them during
 *     the call.
 *
 * The calls keep nothing: no statics, no heap memory, no locks, no input or output. They may run in several threads at a
 * time. A call needs less than 350 kB of stack, one for three links less than 900 kB. It always returns, and no order list makes
 * a verdict slow; queries of many terms can still be made on purpose that take a second or more.
 *
 * The answer is one number. Below 65,536 it is the call's own answer; else the call was refused, and it is the refusal's
 * number times 65,536, plus its place, counted from 0 in the query. After a refusal all of the lent bytes are zero.
 * lemitsaka_join adds LEMITSAKA_SECOND to a refusal of its second query, and lemitsaka_hand_back alone answers otherwise, as they
 * say.
 */
#ifndef LEMITSAKA_H
#define LEMITSAKA_H

#include <stddef.h>
#include <stdint.h>

#ifdef __cplusplus
extern "C" {
#endif

/* The calls' own answers. */
#define LEMITSAKA_SATISFIABLE 0
#define LEMITSAKA_REFUTED 1

/* The bytes of an order list; the most bytes of a query and of a heap report, and of both with three links; and the bytes that hold
 * every derivation. */
#define LEMITSAKA_ORDER_SIZE 8
#define LEMITSAKA_QUERY_SIZE 561
#define LEMITSAKA_REPORT_SIZE 53
#define LEMITSAKA_LINKS_QUERY_SIZE 637
#define LEMITSAKA_LINKS_REPORT_SIZE 85
#define LEMITSAKA_DERIVATION_SIZE 64002

/* The bytes that hold the text of every heap report. */
#define LEMITSAKA_DOT_SIZE 508

/* The number of the refusal in an answer, or 0 where the call was not refused:
 *
 *    1  the order list is not eight bytes with each of 1 to 8 once
 *    2  the query ends before a count or inside a section (place: its length)
 *    3  a count is above its section's limit (place: that count)
 *    4  bytes follow the last section (place: the first of them)
 *    5  a term byte is not below its own term's number, and not 255 (place: that byte, here and in 6 to 8)
 *    6  a sign is neither 0 nor 1
 *    7  a term number in sections 2 to 4, in lemitsaka_between also 6, is 0 or above the term count
 *    8  a field number, in lemitsaka_rewrite also a boolean's, is not 1 to 8
 *    9  the report has fewer than 53 bytes, in lemitsaka_links_verdict fewer than 85
 *   11  a derivation was asked for and the query is satisfiable
 *   12  the derivation has more than 16,000 lines, or its buffer cannot hold it
 *   13  a report is not well formed
 *   14  the lent bytes are too few (the call says how many are enough)
 *   15  a precedence sheet has the wrong length or count
 *   16  a rule number of a sheet is not 1 to 8
 *   17  a formula's text is too long, outside the grammar, or names a literal that the query lacks (place in the text)
 *   18  a formula's 33rd parenthesis open at once (place in the text)
 *   19  a formula has more than 64 conjunctions
 *   20  a derivation to check is not 2 plus 4 times its count long, or its count is above 16,000
 *   21  a query with between literals has more than five terms
 *   22  a link byte may not stand where it does (place: that byte; it is met between 4 and 5)
 *   23  a pair list has the wrong length or count, or a term that its query lacks
 *   24  the joined query passes a limit, or the lent bytes are too few for it
 *   25  the line does not begin with 9, or names no literal of either query
 *   26  the count of section 5, the booleans, which are retired, is not 0 (place: that count; it is met where 3 would be)
 *   27  an old query has no room for the fresh variable or its booleans, or the lent bytes are too few for the query rewritten
 *
 * There is no 10, and no call of this header has 28. The place is 0 for 1 and from 9 on, but for 17, 18, 22 and 26. */
static inline unsigned lemitsaka_refusal(uint64_t answer)
{
    return (unsigned)(answer / 65536 % 65536);
}

/* The place of the refusal in an answer. */
static inline unsigned lemitsaka_place(uint64_t answer)
{
    return (unsigned)(answer % 65536);
}

/* Is there a heap that meets every literal of the query?
 *
 *   LEMITSAKA_SATISFIABLE   there is, and the report shows one; the bytes past it are zero
 *   LEMITSAKA_REFUTED       there is none, of any size; the report is all zero
 *   refused                 1 to 9 and 26; 9 unless the report has LEMITSAKA_REPORT_SIZE bytes or more
 *
 * A report: the count of nodes and the successor of each; the count of terms and the node of each; the count of nodes and
 * a byte of data for each, field j in bit j-1; a 1 and a byte that is 0. Nodes and terms count from 1. */
uint64_t lemitsaka_verdict(const uint8_t *order, size_t order_len,
                           const uint8_t *query, size_t query_len,
                           uint8_t *report, size_t report_len);

/* Why is there no heap that meets every literal of the query?
 *
 *   LEMITSAKA_REFUTED       the derivation is in the buffer; the bytes past it are zero
 *   refused                 1 to 8, 26, 11 and 12; 11 where there is such a heap. Never LEMITSAKA_SATISFIABLE
 *
 * A derivation: the count of lines in two bytes, high byte first, then four bytes a line: a rule's number, 1 to 8, and its
 * triple; 9 and the clash that ends a path; or 10, a term, the term that it replaced and 0, for each two terms that were
 * joined, at the head of the branch that the join made, or of the listing for what the query itself joins. */
uint64_t lemitsaka_derivation(const uint8_t *order, size_t order_len,
                              const uint8_t *query, size_t query_len,
                              uint8_t *buffer, size_t buffer_len);

/* What does a heap report look like?
 *
 * The report's text for Graphviz: a line per node, then an arrow per link. The answer is the text's length, with zeros past it;
 * LEMITSAKA_DOT_SIZE bytes hold every text.
 *
 *   refused   13 the report is not well formed, then 14 the text does not fit; at 0 */
uint64_t lemitsaka_dot(const uint8_t *report, size_t report_len,
                       uint8_t *text, size_t text_len);

/* Which order list keeps what is known of it?
 *
 * A precedence sheet: a count of 0 to 28 and that many pairs of rule numbers, earlier then later.
 *
 *   0         the order list is the smallest that keeps every pair
 *   1         no order list keeps them all: the shortest ring of pairs, each rule once, from its lowest, zeros to eight
 *   refused   15 a sheet of wrong length or count, 16 a rule number not 1 to 8, then 14 fewer than eight bytes lent; at 0
 *
 * Bytes past the eighth are zero. */
uint64_t lemitsaka_order(const uint8_t *sheet, size_t sheet_len,
                         uint8_t *order, size_t order_len);

/* Is there a heap that meets a formula over the query's literals?
 *
 * The text, at most 512 bytes, names literals, E, R, D or B with a place from 1, joined by & and |, with parentheses, & binding
 * tighter. Literals that it does not name do not count. The answer is the number of the first satisfiable conjunction, from 1,
 * and the report shows its heap; 0 where there is none, and the report is all zero.
 *
 *   refused   1 to 9 and 26 as of lemitsaka_verdict, then 17 and 18, then 19 */
uint64_t lemitsaka_formula(const uint8_t *order, size_t order_len,
                           const uint8_t *query, size_t query_len,
                           const uint8_t *text, size_t text_len,
                           uint8_t *report, size_t report_len);

/* Is this a derivation, whoever wrote it?
 *
 * The lines are a full tree for the query: each rule line applies where it stands, its branches are all there in order, the
 * lines of joins are those that lemitsaka_derivation writes, each path ends in a true clash as soon as one stands, and
 * nothing follows. Then no heap of any size meets every literal of the query.
 *
 *   0          accepted
 *   1 to 16001 the number of the first wrong line; one more than the count of lines if they run out
 *   refused    2 to 8 and 26 of the query, then 20, at 0 */
uint64_t lemitsaka_check(const uint8_t *query, size_t query_len,
                         const uint8_t *derivation, size_t derivation_len);

/* The same of a query with three links. A rule line's first byte is the rule's number and 16 times (link minus 1).
 *
 *   refused    22 too, between 4 and 5 */
uint64_t lemitsaka_links_check(const uint8_t *query, size_t query_len,
                               const uint8_t *derivation, size_t derivation_len);

/* Is there a heap that meets every literal of a small query, between literals too?
 *
 * A query of six sections, at most five terms: the five of a query, and a count of 0 to 60 and that many between literals, each a
 * sign and three terms x, y, z: following links from x both y and z are met, and y after no more links than z. The report shows the
 * first heap that meets them all, by node count, then successors, then nodes of terms.
 *
 *   LEMITSAKA_SATISFIABLE   there is one; the bytes past the report are zero
 *   LEMITSAKA_REFUTED       there is none, of any size; the report is all zero
 *   refused                 2 to 9 and 26 over six sections, then 21 */
uint64_t lemitsaka_between(const uint8_t *query, size_t query_len,
                           uint8_t *report, size_t report_len);

/* What do two teams say together?
 *
 * One query of two: in each section the first's entries, then the second's with its term numbers raised, then an equality for
 * each pair. A pair list: a count of 0 to 60 and that many pairs, a term of the first query and a term of the second. All
 * nil terms of both are one. The answer is the length of the query written, with zeros past it.
 *
 *   refused   2 to 8 and 26 of the first query; the same of the second, with LEMITSAKA_SECOND added; then 23 and 24, at 0 */
#define LEMITSAKA_SECOND 4294967296u
uint64_t lemitsaka_join(const uint8_t *first, size_t first_len,
                        const uint8_t *second, size_t second_len,
                        const uint8_t *pairs, size_t pairs_len,
                        uint8_t *query, size_t query_len);

/* Whose literal does a clash line of the joined query name?
 *
 * The answer is 65,536 times the offset of the literal's own bytes in the first query, plus their length; for the second query
 * LEMITSAKA_SECOND is added. From LEMITSAKA_NO_PART on the call was refused, and lemitsaka_refusal and lemitsaka_place take the
 * answer apart as it is: 2 to 8 and 26 of the first query; the same of the second, from LEMITSAKA_NO_PART + LEMITSAKA_SECOND on;
 * then 25, at 0. */
#define LEMITSAKA_NO_PART 1099511627776u
uint64_t lemitsaka_hand_back(const uint8_t *first, size_t first_len,
                             const uint8_t *second, size_t second_len,
                             const uint8_t *line, size_t line_len);

/* What does a query say that still has booleans?
 *
 * An old query, at most LEMITSAKA_OLD_QUERY_SIZE bytes: section 5 holds up to 60 booleans, a sign and a number 1 to 8 each. If
 * there are any, the query written has one fresh variable, behind its terms, and boolean j is that variable's data field j, behind
 * the data literals; else it is copied. It is satisfiable exactly if some heap with booleans meets the old query. The answer is the
 * length of the query written, with zeros past it; LEMITSAKA_QUERY_SIZE bytes hold every one.
 *
 *   refused   2 to 8 of the old query, 3 where it has more than 60 booleans and never 26; then 27, at 0: it has booleans and 16
 *             terms, more than 60 booleans and data literals together, or the lent bytes are too few */
#define LEMITSAKA_OLD_QUERY_SIZE 681
uint64_t lemitsaka_rewrite(const uint8_t *old_query, size_t old_query_len,
                           uint8_t *query, size_t query_len);

/* Is there a heap with three links that meets every literal of the query?
 *
 * A query with three links has the sections of a query, but a term entry is two bytes, link and term: 0 0 a variable, 0 255 null,
 * whose three links go to itself, or a link 1 to 3 and an earlier term; and a reachability literal is four: sign, link, from, to.
 *
 *   LEMITSAKA_SATISFIABLE   there is, and the report shows one; the bytes past it are zero
 *   LEMITSAKA_REFUTED       there is none, of any size; the report is all zero
 *   refused                 1 to 9, 22 and 26; 9 unless the report has LEMITSAKA_LINKS_REPORT_SIZE bytes or more
 *
 * A report: three times the count of nodes, and the successor of each by link 1, of each by link 2 and of each by link 3; then as
 * lemitsaka_verdict has it. */
uint64_t lemitsaka_links_verdict(const uint8_t *order, size_t order_len,
                                 const uint8_t *query, size_t query_len,
                                 uint8_t *report, size_t report_len);

/* Why is there no heap with three links that meets every literal of the query?
 *
 *   LEMITSAKA_REFUTED       the derivation is in the buffer; the bytes past it are zero
 *   refused                 1 to 8, 22, 26, 11 and 12; 11 where there is such a heap. Never LEMITSAKA_SATISFIABLE
 *
 * A derivation is that of lemitsaka_derivation, but a rule's number is 16 higher for link 2 and 32 higher for link 3. Clashes and
 * joins name no link. */
uint64_t lemitsaka_links_derivation(const uint8_t *order, size_t order_len,
                                    const uint8_t *query, size_t query_len,
                                    uint8_t *buffer, size_t buffer_len);

/* What does a query say where there are three links?
 *
 * The query written is the same with link 1, in the layout for three links: a term entry is two bytes, its link and its term byte,
 * the link 0 before 0 and 255, else 1; a reachability literal is four, sign, 1, from and to. The same heaps meet both queries, so
 * that both have the same verdict under every order list. The answer is the length of the query written, with zeros past it;
 * LEMITSAKA_LINKS_QUERY_SIZE bytes hold every one.
 *
 *   refused   2 to 8 and 26 of the query, then 27: the lent bytes are too few; at 0 */
uint64_t lemitsaka_links_rewrite(const uint8_t *query, size_t query_len,
                                 uint8_t *links_query, size_t links_query_len);

#ifdef __cplusplus
}
#endif

#endif
