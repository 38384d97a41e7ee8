// The header in C++: its types have the sizes that the archive gives them.
#include "quanta.h"

static_assert(sizeof(quanta_answer) == 32, "eight u32");
static_assert(sizeof(quanta_line_column) == 16, "two u64");

int main() {
    quanta_answer answer = quanta_parse_expr(1, nullptr, 0, nullptr, 0, nullptr, 0, nullptr, 0);
    return answer.number == QUANTA_TOKEN_ROOM && answer.need == 1 ? 0 : 1;
}
