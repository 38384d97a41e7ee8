/* Document 01's rows, and some of both editions, by the archive's C functions. Exit status 0 where all hold. */
#include "quanta.h"

#include <inttypes.h>
#include <stdio.h>
#include <stdlib.h>
#include <string.h>

typedef quanta_answer call(uint32_t, const uint8_t *, size_t, const uint8_t *, size_t, uint32_t *,
                           size_t, uint32_t *, size_t);

/* What buffers are full of before a call, and the words behind them that must stay so. */
#define RUBBISH UINT32_C(0xA5A55A5A)
#define FENCE 4

enum { MOST_WORDS = 4096 };

static uint32_t tokens[MOST_WORDS];
static uint32_t tree[MOST_WORDS];
static int failed = 0;

struct row {
    uint32_t edition;
    call *call;
    const char *text;
    /* number, start, end, wanted, found, need, tokens, records */
    uint32_t answer[8];
    /* the first tree records, or none */
    const char *records;
};

static const struct row ROWS[] = {
    {1, quanta_parse, "", {0, 0, 0, 0, 0, 0, 1, 1}, "1 0 0 0 0 0; "},
    {1, quanta_parse_stmt, "(a) = 1;", {0, 0, 0, 0, 0, 0, 7, 3},
     "27 0 1 1 2 0; 28 0 4 6 7 0; 25 0 3 1 8 2; "},
    {1, quanta_parse_expr, "0_1", {8, 0, 3, 0, 0, 0, 0, 0}, ""},
    {1, quanta_parse_expr, "00", {8, 0, 2, 0, 0, 0, 0, 0}, ""},
    {1, quanta_parse_expr, "0", {0, 0, 0, 0, 0, 0, 2, 1}, "28 0 0 0 1 0; "},
    {1, quanta_parse_expr, "1_", {0, 0, 0, 0, 0, 0, 2, 1}, "28 0 0 0 2 0; "},
    {1, quanta_parse_expr, "2024-01-01", {7, 0, 10, 0, 0, 0, 0, 0}, ""},
    {1, quanta_parse_expr, "@2024-99-99", {0, 0, 0, 0, 0, 0, 2, 1}, "29 0 0 0 11 0; "},
    {1, quanta_parse_expr, "2024-01-011", {8, 5, 7, 0, 0, 0, 0, 0}, ""},
    {1, quanta_parse_stmt, "a + b = 1;", {21, 0, 5, 0, 0, 0, 0, 0}, ""},
    {1, quanta_parse_type, "Map<A, Map<B, C>>", {12, 15, 17, 53, 61, 0, 0, 0}, ""},
    {1, quanta_parse_expr, "\xEF\xBB\xBF" "1", {10, 0, 1, 0, 0, 0, 0, 0}, ""},
    {1, quanta_parse_expr, "1\xEF\xBB\xBF", {5, 1, 2, 0, 0, 0, 0, 0}, ""},
    {1, quanta_parse_expr, ") #", {10, 2, 3, 0, 0, 0, 0, 0}, ""},
    {1, quanta_parse, "contract C{entry e() after 3 day {}}", {12, 29, 32, 36, 1, 0, 0, 0}, ""},
    {1, quanta_parse_expr, "\"\\\"", {0, 0, 0, 0, 0, 0, 2, 1}, "30 0 0 0 3 0; "},
    {1, quanta_parse, "contract C { }", {0, 0, 0, 0, 0, 0, 5, 3},
     "27 0 1 9 10 0; 3 0 0 0 14 1; 1 0 4 0 14 1; "},
    {1, quanta_parse_item, "asset A;", {0, 0, 0, 0, 0, 0, 4, 2}, "27 0 1 6 7 0; 4 0 0 0 8 1; "},
    {2, quanta_parse, "contract C { }", {0, 0, 0, 0, 0, 0, 5, 3},
     "27 0 1 9 10 0; 3 0 0 0 14 1; 1 0 4 0 14 1; "},
    {2, quanta_parse_type, "A<B<C>>", {0, 0, 0, 0, 0, 0, 7, 3},
     "20 0 4 4 5 0; 20 0 2 2 6 1; 20 0 0 0 7 1; "},
    {2, quanta_parse_item, "state{a:A<B>>;}", {12, 12, 13, 41, 53, 0, 0, 0}, ""},
    {2, quanta_parse_expr, "@2024-02-30", {28, 0, 11, 0, 0, 0, 0, 0}, ""},
    {2, quanta_parse_stmt, "a = @2024-02-29;", {0, 0, 0, 0, 0, 0, 5, 3},
     "27 0 0 0 1 0; 29 0 2 4 15 0; 25 0 1 0 16 2; "},
    {0, quanta_parse, "", {29, 0, 0, 0, 0, 0, 0, 0}, ""},
    {3, quanta_parse_type, "A<B<C>>", {29, 0, 0, 0, 0, 0, 0, 0}, ""},
    {UINT32_MAX, quanta_parse_expr, "00", {29, 0, 0, 0, 0, 0, 0, 0}, ""},
};

static void fail(const char *what, const char *text) {
    printf("%s: %s\n", what, text);
    failed = 1;
}

static void fill(void) {
    for (size_t i = 0; i < MOST_WORDS; i++) {
        tokens[i] = RUBBISH;
        tree[i] = RUBBISH;
    }
}

/* Whether a buffer's words from `used` to `length` are 0 and those behind are as they were. */
static int is_clean(const uint32_t *words, size_t used, size_t length) {
    for (size_t i = used; i < length; i++)
        if (words[i] != 0)
            return 0;
    for (size_t i = length; i < length + FENCE; i++)
        if (words[i] != RUBBISH)
            return 0;
    return 1;
}

static int is_answer(quanta_answer got, const uint32_t *wanted) {
    const uint32_t list[8] = {got.number, got.start,  got.end,    got.wanted,
                              got.found,  got.need,   got.tokens, got.records};
    return memcmp(list, wanted, sizeof list) == 0;
}

static void check(const struct row *row) {
    char shown[512] = "";
    size_t length = strlen(row->text);
    size_t tokens_len = QUANTA_TOKENS_LEN(length), tree_len = QUANTA_TREE_LEN(length);
    quanta_answer got;

    fill();
    got = row->call(row->edition, (const uint8_t *)row->text, length, NULL, 0, tokens, tokens_len, tree,
                    tree_len);
    if (!is_answer(got, row->answer))
        fail("another answer", row->text);
    for (size_t i = 0; i < got.records; i++) {
        const uint32_t *r = tree + QUANTA_TREE_WORDS * i;
        size_t at = strlen(shown);
        snprintf(shown + at, sizeof shown - at,
                 "%" PRIu32 " %" PRIu32 " %" PRIu32 " %" PRIu32 " %" PRIu32 " %" PRIu32 "; ", r[0],
                 r[1], r[2], r[3], r[4], r[5]);
    }
    if (strcmp(shown, row->records) != 0)
        fail("other records", row->text);
    if (!is_clean(tree, QUANTA_TREE_WORDS * got.records, tree_len))
        fail("the tree buffer's rest", row->text);
    /* After 12 to 23 the tokens stand in their buffer; after all else it is zero behind those that are counted. */
    if ((got.number < 12 || got.number > 23) &&
        !is_clean(tokens, QUANTA_TOKEN_WORDS * got.tokens, tokens_len))
        fail("the token buffer's rest", row->text);
}

/* A word table, no room at all (null pointers go with length 0), and a bad table in an unknown edition. */
static void check_edges(void) {
    static const uint8_t table[] = {'F', 'W', 2, 'o', 'f'};
    static const uint8_t source[] = "Q<1 of 2>";
    static const uint32_t barred[8] = {6, 4, 6, 0, 0, 0, 0, 0};
    static const uint32_t short_of_tokens[8] = {11, 0, 0, 0, 0, 7, 0, 0};
    static const uint32_t short_of_tree[8] = {23, 0, 0, 0, 0, 4, 0, 0};
    static const uint32_t empty[8] = {11, 0, 0, 0, 0, 1, 0, 0};
    static const uint32_t unknown[8] = {29, 0, 0, 0, 0, 0, 0, 0};

    fill();
    if (!is_answer(quanta_parse_type(1, source, 9, table, sizeof table, tokens, 30, tree, 60), barred))
        fail("another answer", "a barred word");
    if (!is_answer(quanta_parse_type(1, source, 9, NULL, 0, tokens, 20, tree, 60), short_of_tokens))
        fail("another answer", "too few token records");
    if (!is_answer(quanta_parse_type(1, source, 9, NULL, 0, tokens, 21, tree, 23), short_of_tree))
        fail("another answer", "too few tree records");
    if (!is_answer(quanta_parse(1, NULL, 0, NULL, 0, NULL, 0, NULL, 0), empty))
        fail("another answer", "nothing at all");
    fill();
    if (!is_answer(quanta_parse_type(3, source, 9, table, 1, tokens, 31, tree, 61), unknown))
        fail("another answer", "an unknown edition");
    if (!is_clean(tokens, 0, 31) || !is_clean(tree, 0, 61))
        fail("buffers that are not zero", "an unknown edition");
    if (!is_answer(quanta_parse(0, NULL, 0, NULL, 0, NULL, 0, NULL, 0), unknown))
        fail("another answer", "nothing at all in an unknown edition");
}

static void check_places(void) {
    static const uint8_t source[] = "a\nbc";
    static const uint64_t places[6][2] = {{1, 1}, {1, 2}, {2, 1}, {2, 2}, {2, 3}, {0, 0}};

    for (size_t offset = 0; offset < 6; offset++) {
        quanta_line_column got = quanta_place(source, 4, offset);
        if (got.line != places[offset][0] || got.column != places[offset][1])
            fail("another place", "a LF bc");
    }
}

/* Reads a contract from a file and prints document 01's lines. */
static int dump(const char *path) {
    static uint8_t source[1 << 16];
    FILE *file = fopen(path, "rb");
    size_t length;
    uint32_t *token_words, *tree_words;
    quanta_answer got;

    if (file == NULL)
        return 2;
    length = fread(source, 1, sizeof source, file);
    fclose(file);
    token_words = malloc(QUANTA_TOKENS_LEN(length) * sizeof *token_words);
    tree_words = malloc(QUANTA_TREE_LEN(length) * sizeof *tree_words);
    if (token_words == NULL || tree_words == NULL)
        return 2;
    got = quanta_parse(1, source, length, NULL, 0, token_words, QUANTA_TOKENS_LEN(length), tree_words,
                       QUANTA_TREE_LEN(length));
    if (got.number != QUANTA_ACCEPTED) {
        printf("R %" PRIu32 " %" PRIu32 " %" PRIu32 " %" PRIu32 " %" PRIu32 " %" PRIu32 "\n",
               got.number, got.start, got.end, got.wanted, got.found, got.need);
    } else {
        printf("A %" PRIu32 " %" PRIu32 "\n", got.tokens, got.records);
        for (size_t i = 0; i < got.records; i++) {
            const uint32_t *r = tree_words + QUANTA_TREE_WORDS * i;
            printf("N %" PRIu32 " %" PRIu32 " %" PRIu32 " %" PRIu32 " %" PRIu32 " %" PRIu32 "\n",
                   r[0], r[1], r[2], r[3], r[4], r[5]);
        }
    }
    free(token_words);
    free(tree_words);
    return 0;
}

int main(int argc, char **argv) {
    if (argc == 2)
        return dump(argv[1]);
    for (size_t i = 0; i < sizeof ROWS / sizeof *ROWS; i++)
        check(&ROWS[i]);
    check_edges();
    check_places();
    if (!failed)
        printf("%zu rows hold\n", sizeof ROWS / sizeof *ROWS);
    return failed;
}
