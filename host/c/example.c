/* Derives the graph of a folder with the folder's grammar, replays the derivation, and prints what the program `derive` prints; with --records it has
 * the derivation as records and prints these in words.
 * usage: example [--records] FOLDER
 * Exit status: 0 a derivation, 1 a refusal, whose words go to standard error, 2 trouble.
 * All that the library is lent is static here but for the chart, whose size the library tells; with 8 MiB of stack the main thread has enough. */
#include <inttypes.h>
#include <stdio.h>
#include <stdlib.h>
#include <string.h>

#include "bobbinmarl.h"

/* The words of the two tables; a shorter table is refused 8. */
enum { GRAMMAR_WORDS = 1665, GRAPH_WORDS = 65 };
enum { ITEMS = 2048 };
enum { FILE_BYTES = 32768, OUT_BYTES = 32768, PATH_BYTES = 4096 };
/* No derivation has more applications. */
enum { ROWS = 4096 };

static uint64_t grammar[GRAMMAR_WORDS];
static uint64_t graph[GRAPH_WORDS];
static uint64_t *chart;
static size_t chart_words;
static uint8_t out[OUT_BYTES];
static bobbinmarl_application rows[ROWS];
/* One byte more than a file may have, to see that it has more. */
static uint8_t text[FILE_BYTES + 1];

static const char *const words[] = {
    "done",
    "a line is not of the shape",
    "a line of this letter is not due here, or is missing, or is one too many",
    "a fixed field is missing or out of its range",
    "a line lists more or fewer nodes than are due, or has fields to spare",
    "a listed node is out of range, or listed twice",
    "a node is on no edge",
    "the plan breaks its rules, or is not whole",
    "the chart does not hold 1 to 4,096 items, no accepted texts could have filled the tables, or a record is not the image of an item that names what exists",
    "the chart does not hold the closure",
    "items wait: run on",
    "the goal is not in the closure: the grammar does not derive the graph",
    "the output does not hold the derivation",
    "the file is no derivation of this graph",
};

static _Noreturn void trouble(const char *what, const char *name)
{
    fprintf(stderr, "example: %s '%s'\n", what, name);
    exit(2);
}

static void end_output(void)
{
    if (fflush(stdout) != 0 || ferror(stdout))
        trouble("cannot write to", "standard output");
}

/* Goes on where the answer is 0. */
static void require(uint64_t answer, const char *what)
{
    if (answer == 0)
        return;
    if (answer >= sizeof words / sizeof words[0])
        trouble("unknown answer of", what);
    printf("N%4" PRIu64 "\n", answer);
    end_output();
    fprintf(stderr, "example: refusal %" PRIu64 " of the %s: %s\n", answer, what, words[answer]);
    exit(1);
}

/* Reads a file of the folder into `text`, and gives its length. A file that is too long is refused 1, as `derive` does. */
static size_t read_file(const char *folder, const char *name, const char *what)
{
    char path[PATH_BYTES];
    int length = snprintf(path, sizeof path, "%s/%s", folder, name);
    if (length < 0 || (size_t)length >= sizeof path)
        trouble("no path for", name);
    FILE *file = fopen(path, "rb");
    if (file == NULL)
        trouble("cannot open", path);
    size_t count = fread(text, 1, sizeof text, file);
    if (ferror(file))
        trouble("cannot read", path);
    fclose(file);
    require(count > FILE_BYTES ? 1 : 0, what);
    return count;
}

/* Reads the folder's files and fills the chart; gives the steps. */
static uint64_t derive(const char *folder)
{
    size_t length = read_file(folder, "grammar.txt", "grammar");
    require(bobbinmarl_read_grammar(text, length, grammar, GRAMMAR_WORDS), "grammar");
    length = read_file(folder, "graph.txt", "graph");
    require(bobbinmarl_read_graph(grammar, GRAMMAR_WORDS, text, length, graph, GRAPH_WORDS), "graph");

    chart_words = bobbinmarl_chart_words(ITEMS);
    chart = malloc(chart_words * sizeof *chart);
    if (chart == NULL)
        trouble("no memory for", "the chart");
    /* A chart of so many items is done after as many steps, or too small. */
    uint64_t steps = 0;
    require(bobbinmarl_start(grammar, GRAMMAR_WORDS, graph, GRAPH_WORDS, chart, chart_words), "start");
    require(bobbinmarl_run(grammar, GRAMMAR_WORDS, graph, GRAPH_WORDS, chart, chart_words, ITEMS, &steps), "run");
    return steps;
}

static void print_text(const char *folder, uint64_t steps)
{
    uint64_t written = 0;
    require(bobbinmarl_write(grammar, GRAMMAR_WORDS, graph, GRAPH_WORDS, chart, chart_words, out, OUT_BYTES, &written), "writing");
    if (bobbinmarl_replay(grammar, GRAMMAR_WORDS, graph, GRAPH_WORDS, out, (size_t)written) != 0)
        trouble("does not replay: the derivation of", folder);
    fwrite(out, 1, (size_t)written, stdout);
    printf("C%4" PRIu64 "\n", steps);
}

static void print_numbers(const char *what, const uint64_t *numbers, uint64_t count)
{
    printf(", %s", what);
    for (uint64_t i = 0; i < count; i++)
        printf(" %" PRIu64, numbers[i]);
}

/* One line for each record, such as `application 0: rule 1, nodes 0 2 1, parts 0 1`. */
static void print_records(void)
{
    uint64_t filled = 0;
    require(bobbinmarl_fill(grammar, GRAMMAR_WORDS, graph, GRAPH_WORDS, chart, chart_words, rows, ROWS, &filled), "filling");
    for (uint64_t i = 0; i < filled; i++) {
        printf("application %" PRIu64 ": rule %" PRIu64, i, rows[i].rule);
        print_numbers("nodes", rows[i].nodes, rows[i].node_count);
        print_numbers("parts", rows[i].parts, rows[i].part_count);
        putchar('\n');
    }
}

int main(int count, char **arguments)
{
    int records = count > 1 && strcmp(arguments[1], "--records") == 0;
    if (count != 2 + records)
        trouble("usage:", "example [--records] FOLDER");
    const char *folder = arguments[1 + records];

    uint64_t steps = derive(folder);
    if (records)
        print_records();
    else
        print_text(folder, steps);
    free(chart);
    end_output();
    return 0;
}
