/*
 * The stack of a program call at the deepest nesting, with what stands beside it.
 *   stack                 makes each call on a stack of its own: a line NAME ANSWER BYTES, the bytes from that stack's
 *                         top to the last one that the call wrote
 *   stack NAME            makes one call on the program's own stack; exit status: the answer's number
 *   stack NAME source     writes the source that it reads
 * Exit status 99 on bad usage.
 */
#include "quanta.h"
#include <stdio.h>
#include <string.h>
#include <ucontext.h>

#define ASSIGNED "contract C { entry e() { x = ", "; } }"
#define TYPED "contract C { state { a: ", "; } }"

/* What stands around so many times `open`, the middle, and as many times `close`; a word table's length in bytes; the edition;
 * how many words on in their order each word of the table is from the one before it. */
struct nested {
    const char *name, *front, *back, *open;
    int times;
    const char *middle, *close;
    size_t table;
    uint32_t edition, step;
};

static const struct nested all[] = {
    {"no-nesting", ASSIGNED, "", 0, "1", "", 0, 1, 1},
    {"63-parentheses", ASSIGNED, "(", 63, "1", ")", 0, 1, 1},
    {"64-parentheses", ASSIGNED, "(", 64, "1", ")", 0, 1, 1},
    {"63-prefixes", ASSIGNED, "-", 63, "1", "", 0, 1, 1},
    {"63-call-links", ASSIGNED, "", 63, "f", "()", 0, 1, 1},
    {"31-calls-in-arguments", ASSIGNED, "f(", 31, "1", ")", 0, 1, 1},
    {"63-checked", ASSIGNED, "checked(", 63, "1", ")", 0, 1, 1},
    {"63-operators", ASSIGNED, "", 63, "1", "+1", 0, 1, 1},
    {"31-operators-in-parentheses", ASSIGNED, "1+(", 31, "1", ")", 0, 1, 1},
    {"64-types", TYPED, "A<", 64, "A", " >", 0, 1, 1},
    {"65-types", TYPED, "A<", 65, "A", " >", 0, 1, 1},
    {"table-of-8192-bytes", ASSIGNED, "", 0, "1", "", 8192, 1, 1},
    {"table-of-8200-bytes", ASSIGNED, "", 0, "1", "", 8200, 1, 1},
    {"table-of-65536-bytes", ASSIGNED, "", 0, "1", "", 65536, 1, 1},
    {"64-types-by-two-closers", TYPED, "A<A<", 32, "A", ">>", 0, 2, 1},
    {"66-types-by-two-closers", TYPED, "A<A<", 33, "A", ">>", 0, 2, 1},
    {"63-parentheses-in-edition-2", ASSIGNED, "(", 63, "@2024-02-29", ")", 0, 2, 1},
    {"table-of-8192-bytes-in-no-order", ASSIGNED, "", 0, "1", "", 8192, 1, 619},
    {"table-of-65536-bytes-in-no-order", ASSIGNED, "", 0, "1", "", 65536, 1, 5021},
};
static const size_t count = sizeof all / sizeof all[0];

static char source[2048];
static uint8_t words[QUANTA_MAX_TABLE];
static uint32_t tokens[QUANTA_TOKENS_LEN(2048)];
static uint32_t tree[QUANTA_TREE_LEN(2048)];
static size_t words_len;
static uint32_t edition, number;

/* The source; and the table, of words of five letters that count from `aaaaa` on, each once: the records are a power of two or
 * the step is 1. */
static void make(const struct nested *nested)
{
    edition = nested->edition;
    strcpy(source, nested->front);
    for (int i = 0; i < nested->times; i++)
        strcat(source, nested->open);
    strcat(source, nested->middle);
    for (int i = 0; i < nested->times; i++)
        strcat(source, nested->close);
    strcat(source, nested->back);
    words_len = 0;
    uint32_t records = (uint32_t)(nested->table / 8);
    for (uint32_t n = 0; n < records; n++, words_len += 8) {
        uint32_t rest = n * nested->step % records;
        memcpy(words + words_len, "FW\005", 3);
        for (int i = 7; i >= 3; i--, rest /= 26)
            words[words_len + i] = (uint8_t)('a' + rest % 26);
    }
}

static void call(void)
{
    number = quanta_parse(edition, (const uint8_t *)source, strlen(source), words, words_len, tokens,
                          sizeof tokens / sizeof tokens[0], tree, sizeof tree / sizeof tree[0])
                 .number;
}

/* The call on a stack of paint: the bytes of it that are no longer painted. */
static size_t painted(void)
{
    static unsigned char stack[262144];
    static ucontext_t here, there;
    memset(stack, 0xA5, sizeof stack);
    getcontext(&there);
    there.uc_stack.ss_sp = stack;
    there.uc_stack.ss_size = sizeof stack;
    there.uc_link = &here;
    makecontext(&there, call, 0);
    swapcontext(&here, &there);
    size_t left = 0;
    while (left < sizeof stack && stack[left] == 0xA5)
        left++;
    return sizeof stack - left;
}

int main(int argc, char **argv)
{
    for (size_t i = 0; i < count; i++) {
        if (argc > 1 && strcmp(argv[1], all[i].name) != 0)
            continue;
        make(&all[i]);
        if (argc == 1) {
            size_t bytes = painted();
            printf("%s %u %zu\n", all[i].name, (unsigned)number, bytes);
        } else if (argc == 2) {
            call();
            return (int)number;
        } else {
            fputs(source, stdout);
            return 0;
        }
    }
    return argc == 1 ? 0 : 99;
}
