/* Bobbinmarl for C: readers of grammars and graphs, a chart run in steps, a writer of derivations as text or as records, and a replay.
 *
 * '01' is the paper that fixes files, questions and answers. Every function is proved to meet a contract that fixes its answer and every byte
 * and word that it is lent (crates/capi/src/lib.rt). It is told no more than its parameters, keeps nothing between calls, and needs no heap.
 * Lend it 8 MiB of stack: the replay of 4,096 applications, each under the one before, takes about 2.2.
 *
 * The caller sees to it that
 * - a pointer and the length behind it (in elements, not bytes) name memory that may be read, and written where it is not const, for the whole
 *   call, and nothing else changes meanwhile; where the length is 0, any pointer will do;
 * - memory that is written overlaps nothing else of the same call;
 * - `done` and `told` point to a word.
 *
 * An answer is a number of 01's questions, the first one that is answered no:
 *    0  done
 *    1  a line is not of the shape
 *    2  a line of this letter is not due here, or is missing, or is one too many
 *    3  a fixed field is missing or out of its range
 *    4  a line lists more or fewer nodes than are due, or has fields to spare
 *    5  a listed node is out of range, or listed twice
 *    6  a node is on no edge
 *    7  the plan breaks its rules, or is not whole
 *    8  the chart does not hold 1 to 4,096 items, no accepted texts could have filled the tables, or a record is not the image of an item that names what exists
 *    9  the chart does not hold the closure
 *   10  items wait: run on
 *   11  the goal is not in the closure: the grammar does not derive the graph
 *   12  the output does not hold the derivation
 *   13  the file is no derivation of this graph
 * 1 to 8 and 11 to 13 change no lent byte, word or record. 9 and 10 leave the handled items in the chart.
 */
#ifndef BOBBINMARL_H
#define BOBBINMARL_H

#include <stddef.h>
#include <stdint.h>

#ifdef __cplusplus
extern "C" {
#endif

/* How many words to lend: the tables of the largest grammar (1,665) and of the largest graph (65), and a chart that holds so many items (0 where items is
 * 0 or above 4,096). Longer tables and charts are taken too: words behind the table stay, and a chart holds as many items as fit. How a chart's words are
 * laid out is the library's own and may change: bobbinmarl_item tells what they say. */
size_t bobbinmarl_grammar_words(void);
size_t bobbinmarl_graph_words(void);
size_t bobbinmarl_chart_words(size_t items);

/* Reads a grammar text into the table. 0: the table is filled. 1 to 7: the text is refused, line by line. 8: the text passes, and the table is too
 * short. The text may have any length; the limit of 32,768 bytes is the programs' own. */
uint64_t bobbinmarl_read_grammar(const uint8_t *text, size_t text_len, uint64_t *table, size_t table_len);

/* Reads a graph text with a grammar's table into a table. 8 ahead of the text: no reading filled the grammar table. Else as above. */
uint64_t bobbinmarl_read_graph(const uint64_t *grammar, size_t grammar_len, const uint8_t *text, size_t text_len, uint64_t *table,
                               size_t table_len);

/* Starts a chart, whatever it holds: makes the leaf items present. 0: started. 8: the tables or the chart's size are refused. 9: the leaf items
 * alone are more than it holds. */
uint64_t bobbinmarl_start(const uint64_t *grammar, size_t grammar_len, const uint64_t *graph, size_t graph_len, uint64_t *chart,
                          size_t chart_len);

/* Does the steps given, or as many as are left, on a chart that was started. 0: all items are handled; *done is the number of steps since the start,
 * which is that of the closure's items. 10: items wait after *done steps; the next run goes on. 9: one item more was found than the chart holds; every
 * later run says so, and *done stays. 8: the tables or the chart are refused, and *done stays. */
uint64_t bobbinmarl_run(const uint64_t *grammar, size_t grammar_len, const uint64_t *graph, size_t graph_len, uint64_t *chart, size_t chart_len,
                        uint64_t steps, uint64_t *done);

/* The fields of an item, by their places in the words that bobbinmarl_item fills. */
enum bobbinmarl_field {
    BOBBINMARL_KIND,    /* 0: an active item, of a rule at a plan node; 1: a passive one, of a symbol */
    BOBBINMARL_OF,      /* the number of the rule (kind 0) or of the symbol (kind 1) */
    BOBBINMARL_PLAN,    /* kind 0: the plan node; kind 1: 0 */
    BOBBINMARL_EDGES,   /* the graph edges that it stands for: bit i for edge i */
    BOBBINMARL_COUNT,   /* the applications that it takes, as found so far; of a handled item the fewest */
    BOBBINMARL_HANDLED, /* 0: it waits */
    BOBBINMARL_NODES,   /* eight words: the graph node of each rule node (kind 0) or external node (kind 1) that it knows; 64: none */
    BOBBINMARL_FIRST = BOBBINMARL_NODES + 8, /* the place of the item that it was made from; a leaf's is 0 */
    BOBBINMARL_SECOND,  /* the graph edge, or the place of the other item, that it was made with; 0 where there is none */
    BOBBINMARL_FIELDS   /* how many there are: 16 */
};

/* How many items a chart has: those at the places below that number, in the order in which they were found. Of words that no start has filled it is some
 * number, and never more than they hold. */
uint64_t bobbinmarl_items(const uint64_t *chart, size_t chart_len);

/* Tells the item at a place, whatever wrote the chart. 0: its 16 fields are in the first words of fields, and the rest of it stays. 8: the chart has no
 * item at that place. 12: fields has fewer than 16 words. */
uint64_t bobbinmarl_item(const uint64_t *chart, size_t chart_len, uint64_t place, uint64_t *fields, size_t fields_len);

/* Writes the derivation of the graph that a chart holds, as the text of a derivation file; on a chart untouched since its start, one with the
 * fewest applications. 0: *told bytes are written to the front of out, and the rest of it stays. 10: items wait after *told steps. 8 (also where a
 * touched chart leads to no derivation), 9, 11 and 12 as above, and *told stays. */
uint64_t bobbinmarl_write(const uint64_t *grammar, size_t grammar_len, const uint64_t *graph, size_t graph_len, const uint64_t *chart,
                          size_t chart_len, uint8_t *out, size_t out_len, uint64_t *told);

/* One application of a derivation: what a line `A` of the text says, without the application's own number, which is its place in the row. Numbering is
 * from the top: an application, then its parts in edge order, each with everything under it before the next part. 19 words without gaps. */
typedef struct bobbinmarl_application {
    uint64_t rule;       /* the number of the rule */
    uint64_t node_count; /* how many nodes the rule has: so many places of `nodes` are in use, 1 to 8 */
    uint64_t part_count; /* how many edges the rule has: so many places of `parts` are in use, 1 to 8 */
    uint64_t nodes[8];   /* the graph node of each rule node; unused places are 0 */
    uint64_t parts[8];   /* for each rule edge the graph edge (of a terminal) or the number of the application that replaces it (of a nonterminal);
                          * unused places are 0 */
} bobbinmarl_application;

#if defined(__cplusplus) && __cplusplus >= 201103L
static_assert(sizeof(bobbinmarl_application) == 152, "19 words");
#elif defined(__STDC_VERSION__) && __STDC_VERSION__ >= 201112L
_Static_assert(sizeof(bobbinmarl_application) == 152, "19 words");
#endif

/* Fills a row of application records with the derivation that bobbinmarl_write writes as text: record i is the line of application i. rows_len counts
 * records; no derivation has more than 4,096. 0: *told records are filled at the front of rows, and those behind them stay. 12: the row has fewer
 * places than the derivation has applications. All else is as for bobbinmarl_write, *told too. A refusal changes no record. */
uint64_t bobbinmarl_fill(const uint64_t *grammar, size_t grammar_len, const uint64_t *graph, size_t graph_len, const uint64_t *chart,
                         size_t chart_len, bobbinmarl_application *rows, size_t rows_len, uint64_t *told);

/* Replays the text of a derivation file. 0: it is a derivation of the graph. 13: it is none. 8: the tables are refused. */
uint64_t bobbinmarl_replay(const uint64_t *grammar, size_t grammar_len, const uint64_t *graph, size_t graph_len, const uint8_t *derivation,
                           size_t derivation_len);

#ifdef __cplusplus
}
#endif

#endif
