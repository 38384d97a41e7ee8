/*
 * The proved reader of Quanta contracts, by C calling convention.
 *
 * Link target/staticlib/libquanta.a, which `bash tools/staticlib quanta` writes, on x86-64; or, where there
 * is little stack, target/staticlib/libquanta_terminal.a, which `bash tools/terminal` writes: the same names
 * and the same answers. An archive needs nothing but memcpy, memset and their like, keeps nothing between
 * calls and allocates nothing, so that any number of threads may call it, each on buffers of its own.
 *
 * Stack that a call was seen to take at most (docs/PERFORMANCE.md): 107 KB of the desk's archive, 14 KB of the
 * terminal's; under a word table of more than 8,192 bytes 43 KB of either, if that is more.
 *
 * Document 01 (docs/01-scope.md) says what each answer is, and for edition 2 request R-6 of document 02.
 */
#ifndef QUANTA_H
#define QUANTA_H

#include <stddef.h>
#include <stdint.h>

#ifdef __cplusplus
extern "C" {
#endif

/* The longest source and the longest word table, in bytes. */
#define QUANTA_MAX_SOURCE 1048576
#define QUANTA_MAX_TABLE 65536

/* The u32 words of a token record: kind, start, end. */
#define QUANTA_TOKEN_WORDS 3
/* The u32 words of a tree record: kind, flag, own token, start, end, number of direct children. */
#define QUANTA_TREE_WORDS 6

/* Buffers of so many u32 words are long enough for every source of `source_len` bytes. */
#define QUANTA_TOKENS_LEN(source_len) (QUANTA_TOKEN_WORDS * ((size_t)(source_len) + 1))
#define QUANTA_TREE_LEN(source_len) (QUANTA_TREE_WORDS * ((size_t)(source_len) + 1))

/*
 * The answer of a call. Number 0 is acceptance, with the numbers of tokens and tree records; all else
 * is 0. All other numbers are refusals: start and end mark bytes of the source (of the word table for 1),
 * wanted and found are kinds of tokens, need is a number of records (11 and 23); fields that a refusal
 * does not name are 0, tokens and records among them.
 */
typedef struct quanta_answer {
    uint32_t number;
    uint32_t start;
    uint32_t end;
    uint32_t wanted;
    uint32_t found;
    uint32_t need;
    uint32_t tokens;
    uint32_t records;
} quanta_answer;

/* The numbers of an answer. */
enum quanta_number {
    QUANTA_ACCEPTED = 0,
    QUANTA_BAD_TABLE = 1,
    QUANTA_SOURCE_TOO_LONG = 2,
    QUANTA_NOT_UTF8 = 3,
    QUANTA_LONE_CR = 4,
    QUANTA_BARRED_CHARACTER = 5,
    QUANTA_BARRED_WORD = 6,
    QUANTA_BARE_DATE = 7,
    QUANTA_LEADING_ZERO = 8,
    QUANTA_OPEN_STRING = 9,
    QUANTA_STRAY_BYTE = 10,
    QUANTA_TOKEN_ROOM = 11,
    QUANTA_EXPECTED_TOKEN = 12,
    QUANTA_EXPECTED_IDENTIFIER = 13,
    QUANTA_EXPECTED_INTEGER = 14,
    QUANTA_EXPECTED_IMPORT_NAME = 15,
    QUANTA_EXPECTED_STRING = 16,
    QUANTA_EXPECTED_EXPRESSION = 17,
    QUANTA_EXPECTED_TYPE = 18,
    QUANTA_EXPECTED_ITEM = 19,
    QUANTA_TOO_DEEP = 20,
    QUANTA_BAD_TARGET = 21,
    QUANTA_TRAILING = 22,
    QUANTA_TREE_ROOM = 23,
    QUANTA_NO_DAY = 28,
    QUANTA_UNKNOWN_EDITION = 29
};

/*
 * The five calls. Each reads `source` by the rules of an edition and under the word table `words`, and writes
 * every word of `tokens` and of `tree`: on acceptance the records at the front and zeros behind; after 1 to
 * 11, 28 and 29 zeros in both; after 12 to 23 the tokens as on acceptance and a tree of zeros.
 *
 * The edition of the reading rules is 1 or 2; any other is refused by 29, before all other tests. In edition
 * 2 a `>>` where a type list must close counts as two closers of one byte each, though it stays one token;
 * and a date must be a day of the Gregorian calendar, year 0000 included: 28 marks the first that is none,
 * where no refusal of 6 to 10 comes before it in the source. Whatever both editions accept has the same
 * records.
 *
 * Lengths are in elements. The four areas may not overlap where one of them is written; what the buffers
 * held before does not matter. A pointer whose length is 0 is not followed, so it may be any pointer.
 * Nothing else is asked: every edition, every source, every table and every length has its answer.
 */
quanta_answer quanta_parse(uint32_t edition, const uint8_t *source, size_t source_len,
                           const uint8_t *words, size_t words_len, uint32_t *tokens,
                           size_t tokens_len, uint32_t *tree, size_t tree_len);
quanta_answer quanta_parse_item(uint32_t edition, const uint8_t *source, size_t source_len,
                                const uint8_t *words, size_t words_len, uint32_t *tokens,
                                size_t tokens_len, uint32_t *tree, size_t tree_len);
quanta_answer quanta_parse_stmt(uint32_t edition, const uint8_t *source, size_t source_len,
                                const uint8_t *words, size_t words_len, uint32_t *tokens,
                                size_t tokens_len, uint32_t *tree, size_t tree_len);
quanta_answer quanta_parse_expr(uint32_t edition, const uint8_t *source, size_t source_len,
                                const uint8_t *words, size_t words_len, uint32_t *tokens,
                                size_t tokens_len, uint32_t *tree, size_t tree_len);
quanta_answer quanta_parse_type(uint32_t edition, const uint8_t *source, size_t source_len,
                                const uint8_t *words, size_t words_len, uint32_t *tokens,
                                size_t tokens_len, uint32_t *tree, size_t tree_len);

/* Line and column, both from 1, a column in bytes. */
typedef struct quanta_line_column {
    uint64_t line;
    uint64_t column;
} quanta_line_column;

/* Line and column of an offset; 0 and 0 above the source's length. */
quanta_line_column quanta_place(const uint8_t *source, size_t source_len, size_t offset);

#ifdef __cplusplus
}
#endif

#endif
