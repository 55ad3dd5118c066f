/* The calls of the header, seen from C: K1 to K10 of 01, every refusal, and what a call leaves as it was.
 * The last line is 'c checks N, failures M'; the exit status is 0 only where something was checked and nothing failed. */
#include <inttypes.h>
#include <stdio.h>
#include <string.h>

#include "bobbinmarl.h"

static int checks, failures;

#define CHECK(fact) check((fact), #fact, __func__, __LINE__)

static void check(int holds, const char *fact, const char *where, int line)
{
    checks++;
    if (!holds) {
        failures++;
        printf("test.c:%d (%s): not so: %s\n", line, where, fact);
    }
}

/* ---- what is lent, with guards around each part; `kept` is a copy from before a call */

/* A chart of 4,097 items, one more than a chart may hold, has less than CHART words (test_words). */
enum { GUARD = 8, GRAMMAR = 1665, GRAPH = 65, CHART = 70000, OUT = 64, ROWS = 2048, FIELDS = BOBBINMARL_FIELDS };

static struct lent {
    uint64_t guard0[GUARD];
    uint64_t grammar[GRAMMAR + GUARD];
    uint64_t guard1[GUARD];
    uint64_t graph[GRAPH + GUARD];
    uint64_t guard2[GUARD];
    uint64_t chart[CHART + GUARD];
    uint64_t guard3[GUARD];
    uint8_t out[OUT];
    uint64_t guard4[GUARD];
    bobbinmarl_application rows[ROWS];
    uint64_t guard5[GUARD];
    uint64_t told;
    uint64_t guard6[GUARD];
    uint64_t fields[FIELDS + GUARD];
    uint64_t guard7[GUARD];
} lent, kept;

static void keep(void)
{
    memcpy(&kept, &lent, sizeof lent);
}

/* Other bytes everywhere, none of them 0. */
static void paint(void)
{
    unsigned char *bytes = (unsigned char *)&lent;
    for (size_t i = 0; i < sizeof lent; i++)
        bytes[i] = (unsigned char)(1 + i % 251);
}

static int same(void)
{
    return memcmp(&lent, &kept, sizeof lent) == 0;
}

/* Is all as kept, but for so many bytes from `part` on? */
static int same_but(const void *part, size_t size)
{
    const unsigned char *now = (const unsigned char *)&lent, *then = (const unsigned char *)&kept;
    size_t start = (size_t)((const unsigned char *)part - now), end = start + size;
    return memcmp(now, then, start) == 0 && memcmp(now + end, then + end, sizeof lent - end) == 0;
}

#define TABLES lent.grammar, GRAMMAR, lent.graph, GRAPH

/* Each item takes as many words as the others. */
static size_t words_per_item(void)
{
    return bobbinmarl_chart_words(2) - bobbinmarl_chart_words(1);
}

/* The words of a chart, also where the library has none of that size; of no items the most that hold none. */
static size_t chart_words(size_t items)
{
    return items == 0 ? bobbinmarl_chart_words(1) - 1 : bobbinmarl_chart_words(1) + words_per_item() * (items - 1);
}

static uint64_t read_grammar(const char *text)
{
    return bobbinmarl_read_grammar((const uint8_t *)text, strlen(text), lent.grammar, GRAMMAR);
}

static uint64_t read_graph(const char *text)
{
    return bobbinmarl_read_graph(lent.grammar, GRAMMAR, (const uint8_t *)text, strlen(text), lent.graph, GRAPH);
}

static uint64_t start(size_t items)
{
    return bobbinmarl_start(TABLES, lent.chart, chart_words(items));
}

static uint64_t run(size_t items, uint64_t steps)
{
    return bobbinmarl_run(TABLES, lent.chart, chart_words(items), steps, &lent.told);
}

static uint64_t write_out(size_t items, size_t room)
{
    return bobbinmarl_write(TABLES, lent.chart, chart_words(items), lent.out, room, &lent.told);
}

static uint64_t fill(size_t items, size_t room)
{
    return bobbinmarl_fill(TABLES, lent.chart, chart_words(items), lent.rows, room, &lent.told);
}

static uint64_t replay(const char *text)
{
    return bobbinmarl_replay(TABLES, (const uint8_t *)text, strlen(text));
}

/* ---- touched charts: where a field stands in the words is learnt by asking */

struct bit {
    size_t word;
    unsigned place;
};

/* The bits of the number of items, and of each field of the item at place 0, the lowest first. */
static struct bit number_bits[13], field_bits[FIELDS][64];
static unsigned widths[FIELDS];

static void flip(struct bit bit)
{
    lent.chart[bit.word] ^= (uint64_t)1 << bit.place;
}

static void put_bits(const struct bit *bits, unsigned width, size_t behind, uint64_t value)
{
    for (unsigned k = 0; k < width; k++) {
        struct bit bit = {bits[k].word + behind, bits[k].place};
        if ((lent.chart[bit.word] >> bit.place & 1) != (value >> k & 1))
            flip(bit);
    }
}

static unsigned log_of(uint64_t power)
{
    unsigned k = 0;
    while (power >> k > 1)
        k++;
    return k;
}

/* In a chart whose bits are all 1 a bit that is changed takes from one field what it stands for there. */
static void learn_field(struct bit bit)
{
    uint64_t most[FIELDS], now[FIELDS];
    CHECK(bobbinmarl_item(lent.chart, chart_words(1), 0, most, FIELDS) == 0);
    flip(bit);
    CHECK(bobbinmarl_item(lent.chart, chart_words(1), 0, now, FIELDS) == 0);
    flip(bit);
    for (int field = 0; field < FIELDS; field++)
        if (most[field] != now[field]) {
            field_bits[field][log_of(most[field] - now[field])] = bit;
            widths[field]++;
        }
}

/* In the largest chart whose bits are all 0 a bit of the number counts as many items as it stands for; higher bits count all that fit. */
static void learn_number(struct bit bit)
{
    flip(bit);
    unsigned k = log_of(bobbinmarl_items(lent.chart, chart_words(4096)));
    if (bobbinmarl_items(lent.chart, chart_words(4096)) == (uint64_t)1 << k && number_bits[k].place == 64)
        number_bits[k] = bit;
    flip(bit);
}

static void learn(void)
{
    for (size_t k = 0; k < sizeof number_bits / sizeof number_bits[0]; k++)
        number_bits[k].place = 64;
    for (unsigned i = 0; i < 64 * chart_words(1); i++) {
        struct bit bit = {i / 64, i % 64};
        memset(lent.chart, 0xff, sizeof(uint64_t) * chart_words(1));
        learn_field(bit);
        memset(lent.chart, 0, sizeof(uint64_t) * chart_words(1));
        learn_number(bit);
    }
}

static void put_number(uint64_t items)
{
    put_bits(number_bits, sizeof number_bits / sizeof number_bits[0], 0, items);
}

static uint64_t most_of(int field)
{
    return UINT64_MAX >> (64 - widths[field]);
}

static void put_field(uint64_t place, int field, uint64_t value)
{
    put_bits(field_bits[field], widths[field], words_per_item() * place, value);
}

static uint64_t item(size_t items, uint64_t place)
{
    return bobbinmarl_item(lent.chart, chart_words(items), place, lent.fields, FIELDS);
}

/* ---- texts */

#define GRAMMAR_A(first, edge, last)                                                                                                       \
    first "S   0   0   2\nS   1   1   2\n"                                                                                                 \
          "R   0   1   2   1   2   0   1\nE   0   0   1\nP   0   0   0\nP   1   0   0\n"                                                   \
          "R   1   1   3   2   3   0   1\nE   0   0   2\n" edge "P   0   0   0\nP   1   0   0\n" last

static const char grammar_a[] = GRAMMAR_A("G   2   2   1\n", "E   1   2   1\n", "P   1   1   1\n");
static const char grammar_b[] = "G   3   2   1\nS   0   0   2\nS   1   1   1\nS   2   1   2\n"
                                "R   0   1   2   1   2   0\nE   2   0   1\nP   0   0   0\nP   1   0   0\n"
                                "R   1   2   2   1   2   0   1\nE   0   0   1\nP   0   0   0\nP   1   0   0\n";
static const char grammar_renaming[] = "G   2   2   1\nS   0   0   2\nS   1   1   2\n"
                                       "R   0   1   2   1   2   0   1\nE   0   0   1\nP   0   0   0\nP   1   0   0\n"
                                       "R   1   1   2   1   2   0   1\nE   1   0   1\nP   0   0   0\nP   1   0   0\n";
static const char k1[] = "H   2   1   0   1\nE   0   0   1\n";
static const char k2[] = "H   3   2   0   2\nE   0   0   1\nE   0   1   2\n";
static const char k3[] = "H   3   2   0   1\nE   0   0   1\nE   0   0   2\n";
static const char k4[] = "H   2   1   1   0\nE   0   0   1\n";
static const char k5[] = "H   2   1   0\nE   0   0   1\n";
static const char k6[] = "H   2   2   0   1\nE   0   0   1\nE   0   0   1\n";
static const char derivation_k2[] = "D   2\nA   0   1   0   2   1   0   1\nA   1   0   1   2   1\n";
enum { K2_BYTES = sizeof derivation_k2 - 1, K2_ITEMS = 10 };

static const bobbinmarl_application records_k2[] = {
    {.rule = 1, .node_count = 3, .part_count = 2, .nodes = {0, 2, 1}, .parts = {0, 1}},
    {.rule = 0, .node_count = 2, .part_count = 1, .nodes = {1, 2}, .parts = {1}},
};

static int put_numbers(char *text, const uint64_t *numbers, uint64_t count)
{
    int at = 0;
    for (uint64_t i = 0; i < count && i < 8; i++)
        at += sprintf(text + at, "%4" PRIu64, numbers[i]);
    return at;
}

/* The derivation file of up to eight records; of what is no record it may be any text that fits. */
static const char *text_of(const bobbinmarl_application *rows, uint64_t count)
{
    static char text[4096];
    int at = sprintf(text, "D%4" PRIu64 "\n", count);
    for (uint64_t i = 0; i < count && i < 8; i++) {
        at += sprintf(text + at, "A%4" PRIu64 "%4" PRIu64, i, rows[i].rule);
        at += put_numbers(text + at, rows[i].nodes, rows[i].node_count);
        at += put_numbers(text + at, rows[i].parts, rows[i].part_count);
        at += sprintf(text + at, "\n");
    }
    return text;
}

/* Fresh memory with both tables read. */
static void read_both(const char *grammar, const char *graph)
{
    paint();
    CHECK(read_grammar(grammar) == 0);
    CHECK(read_graph(graph) == 0);
}

/* K2 on a chart of ten items, with so many steps done. */
static void run_k2(uint64_t steps)
{
    read_both(grammar_a, k2);
    CHECK(start(K2_ITEMS) == 0);
    CHECK(run(K2_ITEMS, steps) == (steps < K2_ITEMS ? 10 : 0));
    CHECK(lent.told == (steps < K2_ITEMS ? steps : K2_ITEMS));
}

/* ---- tests */

static void test_words(void)
{
    CHECK(bobbinmarl_grammar_words() == GRAMMAR);
    CHECK(bobbinmarl_graph_words() == GRAPH);
    CHECK(bobbinmarl_chart_words(0) == 0);
    CHECK(bobbinmarl_chart_words(1) > 0);
    CHECK(bobbinmarl_chart_words(4096) == chart_words(4096));
    CHECK(chart_words(4097) < CHART);
    CHECK(bobbinmarl_chart_words(4097) == 0);
    CHECK(bobbinmarl_chart_words(SIZE_MAX) == 0);
}

/* The same derivation as records: text from them is the text that was written. */
static void test_records(size_t items, size_t written, uint64_t applications)
{
    lent.told = 77;
    keep();
    CHECK(fill(items, ROWS) == 0);
    CHECK(lent.told == applications);
    const char *text = text_of(lent.rows, applications);
    CHECK(strlen(text) == written && memcmp(text, lent.out, written) == 0);
    lent.told = kept.told;
    CHECK(same_but(lent.rows, applications * sizeof lent.rows[0]));
}

/* The steps of a closure, and the applications of its derivation, none where the answer is 11. */
static void test_graph(const char *grammar, const char *graph, uint64_t steps, int applications)
{
    read_both(grammar, graph);
    keep();
    CHECK(start(2048) == 0);
    CHECK(same_but(lent.chart, sizeof(uint64_t) * chart_words(2048)));
    CHECK(run(2048, 2048) == 0);
    CHECK(lent.told == steps);
    keep();
    uint64_t answer = write_out(2048, OUT);
    if (applications == 0) {
        CHECK(answer == 11);
        CHECK(fill(2048, ROWS) == 11);
        CHECK(same());
        return;
    }
    CHECK(answer == 0 && lent.told < OUT);
    if (answer != 0 || lent.told >= OUT)
        return;
    char first[16];
    snprintf(first, sizeof first, "D%4d\n", applications);
    CHECK(memcmp(lent.out, first, strlen(first)) == 0);
    size_t written = (size_t)lent.told;
    CHECK(bobbinmarl_replay(TABLES, lent.out, written) == 0);
    lent.told = kept.told;
    CHECK(same_but(lent.out, written));
    test_records(2048, written, (uint64_t)applications);
}

static void test_k1_to_k6(void)
{
    test_graph(grammar_a, k1, 5, 1);
    test_graph(grammar_a, k2, 10, 2);
    test_graph(grammar_a, k3, 8, 0);
    test_graph(grammar_a, k4, 5, 0);
    test_graph(grammar_b, k5, 6, 2);
    test_graph(grammar_a, k6, 8, 0);
}

/* A chart of nine is too small, says so ever after, and tells no steps. */
static void test_k7(void)
{
    read_both(grammar_a, k2);
    CHECK(start(9) == 0);
    keep();
    CHECK(run(9, 9) == 9);
    CHECK(same_but(lent.chart, sizeof(uint64_t) * chart_words(9)));
    CHECK(bobbinmarl_items(lent.chart, chart_words(9)) == 9);
    CHECK(item(9, 0) == 0 && lent.fields[BOBBINMARL_HANDLED] == 1);
    keep();
    CHECK(run(9, 9) == 9);
    CHECK(same());
    CHECK(write_out(9, OUT) == 9);
    CHECK(fill(9, ROWS) == 9);
    CHECK(same());
    CHECK(start(1) == 9);
    CHECK(start(10) == 0);
    CHECK(run(10, 10) == 0);
    CHECK(lent.told == 10);
}

static void test_k8(void)
{
    run_k2(9);
    keep();
    lent.told = 77;
    CHECK(write_out(K2_ITEMS, OUT) == 10);
    CHECK(lent.told == 9);
    lent.told = 77;
    CHECK(fill(K2_ITEMS, ROWS) == 10);
    CHECK(lent.told == 9);
    CHECK(same());
    CHECK(run(K2_ITEMS, 1) == 0);
    CHECK(lent.told == 10);
}

static void test_k9(void)
{
    run_k2(0);
    keep();
    CHECK(run(K2_ITEMS, 0) == 10);
    CHECK(lent.told == 0);
    CHECK(same());
}

static void test_k10(void)
{
    run_k2(10);
    keep();
    CHECK(K2_BYTES == 58);
    CHECK(write_out(K2_ITEMS, 57) == 12);
    CHECK(same());
    CHECK(write_out(K2_ITEMS, 58) == 0);
    CHECK(lent.told == 58);
    CHECK(memcmp(lent.out, derivation_k2, K2_BYTES) == 0);
    lent.told = kept.told;
    CHECK(same_but(lent.out, K2_BYTES));
}

/* K2's records: a row of one does not hold them, and what lies behind them stays. */
static void test_row(void)
{
    CHECK(sizeof(bobbinmarl_application) == 152);
    run_k2(K2_ITEMS);
    keep();
    CHECK(fill(K2_ITEMS, 0) == 12);
    CHECK(fill(K2_ITEMS, 1) == 12);
    CHECK(same());
    for (size_t room = 2; room < 5; room++) {
        run_k2(K2_ITEMS);
        keep();
        CHECK(fill(K2_ITEMS, room) == 0);
        CHECK(lent.told == 2);
        CHECK(memcmp(lent.rows, records_k2, sizeof records_k2) == 0);
        lent.told = kept.told;
        CHECK(same_but(lent.rows, sizeof records_k2));
    }
}

/* Do text and records of K2's chart, as it stands, have the same answer and, where they are written, the same derivation, and does all else stay? */
static int alike(uint64_t *number)
{
    enum { ROOM = 4 };
    lent.told = 77;
    uint64_t written = write_out(K2_ITEMS, OUT), told = lent.told;
    lent.told = 77;
    memset(lent.rows, 0xa5, ROOM * sizeof lent.rows[0]);
    keep();
    *number = fill(K2_ITEMS, ROOM);
    uint64_t count = lent.told;
    lent.told = kept.told;
    if (*number != written)
        return 0;
    if (*number != 0)
        return count == told && same();
    const char *text = text_of(lent.rows, count);
    return count <= ROOM && same_but(lent.rows, count * sizeof lent.rows[0]) && strlen(text) == told && memcmp(text, lent.out, told) == 0;
}

/* Every word of K2's finished chart, and then every field of its items, set to values in and out of their ranges. */
static void test_touched(void)
{
    static const uint64_t values[] = {0, 1, 3, 10, 64, UINT64_MAX};
    int seen[14] = {0};
    run_k2(K2_ITEMS);
    for (size_t at = 0; at < chart_words(K2_ITEMS); at++) {
        uint64_t former = lent.chart[at], number = 0;
        for (size_t v = 0; v < sizeof values / sizeof values[0]; v++) {
            lent.chart[at] = values[v];
            CHECK(alike(&number));
            seen[number % 14] = 1;
        }
        lent.chart[at] = former;
    }
    for (uint64_t i = 0; i < K2_ITEMS * FIELDS; i++) {
        uint64_t place = i / FIELDS, field = i % FIELDS, number = 0;
        CHECK(item(K2_ITEMS, place) == 0);
        uint64_t former = lent.fields[field];
        for (size_t v = 0; v < sizeof values / sizeof values[0]; v++) {
            put_field(place, (int)field, values[v] & most_of((int)field));
            CHECK(item(K2_ITEMS, place) == 0 && lent.fields[field] == (values[v] & most_of((int)field)));
            CHECK(alike(&number));
            seen[number % 14] = 1;
        }
        put_field(place, (int)field, former);
    }
    CHECK(seen[0] && seen[8] && seen[9] && seen[10] && seen[11] && !seen[12]);
}

/* The items of K2: the leaves of the two rules, and among the ten of the closure the goal. */
static void test_items(void)
{
    static const uint64_t goal[FIELDS] = {1, 1, 0, 3, 2, 1, 0, 2, 64, 64, 64, 64, 64, 64};
    int leaves = 0, goals = 0;
    run_k2(0);
    CHECK(bobbinmarl_items(lent.chart, chart_words(K2_ITEMS)) == 2);
    CHECK(item(K2_ITEMS, 0) == 0 && lent.fields[BOBBINMARL_HANDLED] == 0);
    CHECK(item(K2_ITEMS, 2) == 8);
    run_k2(K2_ITEMS);
    CHECK(bobbinmarl_items(lent.chart, chart_words(K2_ITEMS)) == K2_ITEMS);
    for (uint64_t place = 0; place < K2_ITEMS; place++) {
        keep();
        CHECK(item(K2_ITEMS, place) == 0);
        CHECK(same_but(lent.fields, sizeof(uint64_t) * FIELDS));
        leaves += lent.fields[BOBBINMARL_KIND] == 0 && lent.fields[BOBBINMARL_PLAN] == 0 && lent.fields[BOBBINMARL_NODES] == 64;
        goals += memcmp(lent.fields, goal, sizeof(uint64_t) * BOBBINMARL_FIRST) == 0;
    }
    CHECK(leaves == 2 && goals == 1);
}

/* No item is told where there is none, nor where there is no room; the place is asked first. */
static void test_untold_items(void)
{
    run_k2(K2_ITEMS);
    keep();
    CHECK(item(K2_ITEMS, K2_ITEMS) == 8);
    CHECK(item(K2_ITEMS, UINT64_MAX) == 8);
    for (size_t room = 0; room < FIELDS; room++) {
        CHECK(bobbinmarl_item(lent.chart, chart_words(K2_ITEMS), 0, lent.fields, room) == 12);
        CHECK(bobbinmarl_item(lent.chart, chart_words(K2_ITEMS), K2_ITEMS, lent.fields, room) == 8);
    }
    CHECK(same());
    CHECK(bobbinmarl_item(lent.chart, chart_words(K2_ITEMS), 0, lent.fields, FIELDS + GUARD) == 0);
    CHECK(same_but(lent.fields, sizeof(uint64_t) * FIELDS) && !same());
    keep();
    CHECK(bobbinmarl_items(lent.chart, 0) == 0 && bobbinmarl_item(lent.chart, 0, 0, lent.fields, FIELDS) == 8);
    CHECK(bobbinmarl_items(lent.chart, chart_words(0)) == 0 && item(0, 0) == 8);
    CHECK(same());
}

/* Runs in pieces leave the chart of one run. */
static void test_pieces(void)
{
    for (uint64_t first = 0; first <= K2_ITEMS; first++) {
        run_k2(K2_ITEMS);
        keep();
        CHECK(start(K2_ITEMS) == 0);
        CHECK(run(K2_ITEMS, first) == (first < K2_ITEMS ? 10 : 0));
        CHECK(run(K2_ITEMS, K2_ITEMS - first) == 0);
        CHECK(same());
    }
}

static void refused_grammar(uint64_t number, const char *text)
{
    paint();
    keep();
    CHECK(read_grammar(text) == number);
    CHECK(same());
}

static void refused_graph(uint64_t number, const char *text)
{
    paint();
    CHECK(read_grammar(grammar_a) == 0);
    keep();
    CHECK(read_graph(text) == number);
    CHECK(same());
}

static void test_texts(void)
{
    refused_grammar(1, GRAMMAR_A("G 2 2 1\n", "E   1   2   1\n", "P   1   1   1\n"));
    refused_grammar(1, GRAMMAR_A("G   2   2   1\n", "E   1   2   1\n", "P   1   1   1"));
    refused_grammar(2, GRAMMAR_A("G   2   2   1\n", "E   1   2   1\n", ""));
    refused_grammar(3, GRAMMAR_A("G   2   2   0\n", "E   1   2   1\n", "P   1   1   1\n"));
    refused_grammar(4, GRAMMAR_A("G   2   2   1   0\n", "E   1   2   1\n", "P   1   1   1\n"));
    refused_grammar(5, GRAMMAR_A("G   2   2   1\n", "E   1   2   2\n", "P   1   1   1\n"));
    refused_grammar(6, GRAMMAR_A("G   2   2   1\n", "E   1   0   2\n", "P   1   1   1\n"));
    refused_grammar(7, GRAMMAR_A("G   2   2   1\n", "E   1   2   1\n", "P   1   0   1\n"));
    refused_graph(1, "H   3   2   0   2\nE   0   0   1\nE   0   1   2");
    refused_graph(2, "H   3   2   0   2\nE   0   0   1\n");
    refused_graph(3, "H   3   2   0   2\nE   1   0   1\nE   0   1   2\n");
    refused_graph(4, "H   3   2   0\nE   0   0   1\nE   0   1   2\n");
    refused_graph(5, "H   3   2   0   2\nE   0   0   1\nE   0   1   3\n");
    refused_graph(6, "H   4   2   0   2\nE   0   0   1\nE   0   1   2\n");
}

/* A short table is refused, a longer one is taken, and words behind the table stay. */
static void test_table_lengths(void)
{
    const uint8_t *text = (const uint8_t *)grammar_a, *other = (const uint8_t *)k2;
    size_t length = strlen(grammar_a), other_length = strlen(k2);
    paint();
    keep();
    CHECK(bobbinmarl_read_grammar(text, length, lent.grammar, GRAMMAR - 1) == 8);
    CHECK(bobbinmarl_read_grammar(text, length, lent.grammar, 0) == 8);
    CHECK(same());
    CHECK(bobbinmarl_read_grammar(text, length, lent.grammar, GRAMMAR + GUARD) == 0);
    CHECK(same_but(lent.grammar, sizeof(uint64_t) * GRAMMAR) && !same());
    keep();
    CHECK(bobbinmarl_read_graph(lent.grammar, GRAMMAR, other, other_length, lent.graph, GRAPH - 1) == 8);
    CHECK(bobbinmarl_read_graph(lent.grammar, GRAMMAR, other, other_length, lent.graph, 0) == 8);
    CHECK(bobbinmarl_read_graph(lent.grammar, GRAMMAR - 1, other, other_length, lent.graph, GRAPH) == 8);
    CHECK(same());
    CHECK(bobbinmarl_read_graph(lent.grammar, GRAMMAR + GUARD, other, other_length, lent.graph, GRAPH + GUARD) == 0);
    CHECK(same_but(lent.graph, sizeof(uint64_t) * GRAPH) && !same());
}

/* A chart holds as many items as fit, and words behind the last one stay. */
static void test_chart_lengths(void)
{
    size_t rest = words_per_item() - 1, words = chart_words(K2_ITEMS) + rest;
    read_both(grammar_a, k2);
    keep();
    CHECK(bobbinmarl_start(TABLES, lent.chart, words) == 0);
    CHECK(bobbinmarl_run(TABLES, lent.chart, words, K2_ITEMS, &lent.told) == 0);
    CHECK(lent.told == K2_ITEMS);
    lent.told = kept.told;
    CHECK(same_but(lent.chart, sizeof(uint64_t) * chart_words(K2_ITEMS)));
    CHECK(bobbinmarl_start(TABLES, lent.chart, chart_words(9) + rest) == 0);
    CHECK(bobbinmarl_run(TABLES, lent.chart, chart_words(9) + rest, K2_ITEMS, &lent.told) == 9);
}

/* All that follows the readers says 8, and changes nothing; `told` stays too. */
static void refused_lent(size_t items)
{
    keep();
    CHECK(start(items) == 8);
    CHECK(run(items, 1) == 8);
    CHECK(write_out(items, OUT) == 8);
    CHECK(fill(items, ROWS) == 8);
    CHECK(same());
}

static void test_unfit(void)
{
    run_k2(10);
    refused_lent(0);
    refused_lent(4097);
    lent.grammar[0] += 9999;
    refused_lent(K2_ITEMS);
    CHECK(replay(derivation_k2) == 8);
    CHECK(read_graph(k2) == 8);
    CHECK(read_graph("x") == 8);
    CHECK(same());
    run_k2(10);
    lent.graph[0] += 9999;
    refused_lent(K2_ITEMS);
    CHECK(replay(derivation_k2) == 8);
    /* An item of a kind that is none, and more items than the chart holds. */
    run_k2(10);
    put_field(0, BOBBINMARL_KIND, 2);
    keep();
    CHECK(run(K2_ITEMS, 1) == 8);
    CHECK(write_out(K2_ITEMS, OUT) == 8);
    CHECK(fill(K2_ITEMS, ROWS) == 8);
    CHECK(same());
    run_k2(10);
    put_number(11);
    keep();
    CHECK(run(K2_ITEMS, 1) == 8);
    CHECK(write_out(K2_ITEMS, OUT) == 8);
    CHECK(fill(K2_ITEMS, ROWS) == 8);
    CHECK(same());
}

static void test_replay(void)
{
    read_both(grammar_a, k2);
    keep();
    CHECK(replay(derivation_k2) == 0);
    CHECK(replay("") == 13);
    CHECK(replay("D   2\nA   0   1   0   2   1   0   1\nA   1   0   1   2   0\n") == 13);
    CHECK(replay("D   2\nA   0   1   0   2   1   0   1\nA   1   0   1   2   1\nC  10\n") == 13);
    CHECK(same());
}

/* A derivation of n applications, each but the last one a renaming of the next, with 22 bytes for each. */
static void test_nested(void)
{
    static char text[6 + 22 * 4097 + 1];
    read_both(grammar_renaming, k1);
    for (int n = 4096; n <= 4097; n++) {
        int at = snprintf(text, sizeof text, "D%4d\n", n);
        for (int i = 0; i < n - 1; i++)
            at += snprintf(text + at, sizeof text - (size_t)at, "A%4d   1   0   1%4d\n", i, i + 1);
        snprintf(text + at, sizeof text - (size_t)at, "A%4d   0   0   1   0\n", n - 1);
        CHECK(replay(text) == (n == 4096 ? 0 : 13));
    }
}

static void put_item(uint64_t place, uint64_t kind, uint64_t of, uint64_t plan, uint64_t first, uint64_t second)
{
    const int leaf = kind == 0 && plan == 0; /* a leaf has no nodes */
    const uint64_t fields[FIELDS] = {kind, of, plan, 1, 1, 1, leaf ? 64 : 0, leaf ? 64 : 1, 64, 64, 64, 64, 64, 64, first, second};
    for (int field = 0; field < FIELDS; field++)
        put_field(place, field, fields[field]);
}

/* A chart of 4,096 items that spells the deepest derivation a chart can: leaves, rule 0 on the graph's edge, and above it each passive item by rule 1 for
 * the one below it. */
static void put_deepest_chart(void)
{
    memset(lent.chart, 0, sizeof(uint64_t) * chart_words(4096));
    put_number(4096);
    put_item(0, 0, 0, 0, 0, 0);
    put_item(1, 0, 1, 0, 0, 0);
    put_item(2, 0, 0, 1, 0, 0);
    put_item(3, 1, 1, 0, 2, 0);
    for (uint64_t i = 4; i < 4096; i += 2) {
        put_item(i, 0, 1, 1, 1, i - 1);
        put_item(i + 1, 1, 1, 0, i, 0);
    }
}

/* 2,047 nested applications: each but the last one is a renaming of the next. */
static void test_deepest(void)
{
    enum { DEEPEST = 2047 };
    read_both(grammar_renaming, k1);
    put_deepest_chart();
    keep();
    CHECK(fill(4096, DEEPEST - 1) == 12);
    CHECK(same());
    CHECK(fill(4096, ROWS) == 0);
    CHECK(lent.told == DEEPEST);
    lent.told = kept.told;
    CHECK(same_but(lent.rows, DEEPEST * sizeof lent.rows[0]));
    int right = 0;
    for (uint64_t i = 0; i < DEEPEST; i++) {
        int last = i == DEEPEST - 1;
        const bobbinmarl_application due = {!last, 2, 1, {0, 1}, {last ? 0 : i + 1}};
        right += memcmp(&lent.rows[i], &due, sizeof due) == 0;
    }
    CHECK(right == DEEPEST);
}

/* Where the length is 0, any pointer will do. */
static void test_length_zero(void)
{
    CHECK(bobbinmarl_read_grammar(NULL, 0, NULL, 0) == 2);
    CHECK(bobbinmarl_read_graph(NULL, 0, NULL, 0, NULL, 0) == 8);
    CHECK(bobbinmarl_start(NULL, 0, NULL, 0, NULL, 0) == 8);
    uint64_t told = 77;
    CHECK(bobbinmarl_run(NULL, 0, NULL, 0, NULL, 0, 1, &told) == 8);
    CHECK(bobbinmarl_write(NULL, 0, NULL, 0, NULL, 0, NULL, 0, &told) == 8);
    CHECK(bobbinmarl_fill(NULL, 0, NULL, 0, NULL, 0, NULL, 0, &told) == 8);
    CHECK(told == 77);
    CHECK(bobbinmarl_replay(NULL, 0, NULL, 0, NULL, 0) == 8);
    CHECK(bobbinmarl_items(NULL, 0) == 0);
    CHECK(bobbinmarl_item(NULL, 0, 0, NULL, 0) == 8);
    run_k2(10);
    keep();
    CHECK(bobbinmarl_read_grammar(NULL, 0, lent.grammar, GRAMMAR) == 2);
    CHECK(bobbinmarl_read_graph(lent.grammar, GRAMMAR, NULL, 0, lent.graph, GRAPH) == 2);
    CHECK(bobbinmarl_write(TABLES, lent.chart, chart_words(K2_ITEMS), NULL, 0, &lent.told) == 12);
    CHECK(bobbinmarl_fill(TABLES, lent.chart, chart_words(K2_ITEMS), NULL, 0, &lent.told) == 12);
    CHECK(bobbinmarl_replay(TABLES, NULL, 0) == 13);
    CHECK(same());
}

int main(void)
{
    learn();
    test_words();
    test_k1_to_k6();
    test_k7();
    test_k8();
    test_k9();
    test_k10();
    test_row();
    test_items();
    test_untold_items();
    test_touched();
    test_pieces();
    test_texts();
    test_table_lengths();
    test_chart_lengths();
    test_unfit();
    test_replay();
    test_nested();
    test_deepest();
    test_length_zero();
    printf("c checks %d, failures %d\n", checks, failures);
    return checks > 0 && failures == 0 ? 0 : 1;
}
