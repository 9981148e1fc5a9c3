/* Runs formulas as token arrays over two columns of cells: a line a formula, with its name, the nanoseconds of all
 * runs of the fastest round, and a checksum of the results. */
#include "../decimals/decimals.h"

#include <stdio.h>
#include <stdlib.h>
#include <string.h>
#include <time.h>

enum { ROWS = 1024, RUNS = 1000448, ROUNDS = 5, STACK = 16 };

enum kind { BLANK, NUMBER, TEXT, FAULT, MADE };

enum node { CONSTANT, WORDS, CELL, ADD, MUL, CAT, LESS, EQUAL };

struct text {
    char *bytes;
    size_t length;
};

struct value {
    enum kind kind;
    union {
        i128 number;
        struct text text;
        enum fault fault;
    };
};

struct token {
    enum node node;
    unsigned column;
    i128 number;
    struct text text;
};

static struct value columns[2][ROWS];

/* The operands. */

static struct value of_number(i128 number) {
    return (struct value){.kind = NUMBER, .number = number};
}

static struct value of_outcome(struct outcome outcome) {
    if (outcome.fault != FINE)
        return (struct value){.kind = FAULT, .fault = outcome.fault};
    return of_number(outcome.raw);
}

static int as_number(struct value value, i128 *number) {
    *number = value.kind == NUMBER ? value.number : 0;
    return value.kind == NUMBER || value.kind == BLANK;
}

static struct value not_number(struct value value) {
    return value.kind == FAULT ? value : (struct value){.kind = FAULT, .fault = NOT_NUMBER};
}

static struct value arithmetic(enum node node, struct value left, struct value right) {
    i128 n, m;
    if (!as_number(left, &n))
        return not_number(left);
    if (!as_number(right, &m))
        return not_number(right);
    return of_outcome(node == ADD ? add(n, m) : mul(n, m));
}

static size_t put_text(char *out, struct value value) {
    if (value.kind == NUMBER) {
        struct written written;
        write(value.number, &written);
        memcpy(out, written.bytes + written.start, written.end - written.start);
        return written.end - written.start;
    }
    if (value.kind == BLANK)
        return 0;
    memcpy(out, value.text.bytes, value.text.length);
    return value.text.length;
}

static size_t most_bytes(struct value value) {
    return value.kind == NUMBER ? 29 : value.kind == BLANK ? 0 : value.text.length;
}

static struct value join(struct value left, struct value right) {
    if (left.kind == FAULT)
        return left;
    if (right.kind == FAULT)
        return right;
    struct value joined = {.kind = MADE};
    joined.text.bytes = malloc(most_bytes(left) + most_bytes(right) + 1);
    joined.text.length = put_text(joined.text.bytes, left);
    joined.text.length += put_text(joined.text.bytes + joined.text.length, right);
    if (left.kind == MADE)
        free(left.text.bytes);
    if (right.kind == MADE)
        free(right.text.bytes);
    if (joined.text.length <= 65535)
        return joined;
    free(joined.text.bytes);
    return (struct value){.kind = FAULT, .fault = OVER};
}

static int order(struct value left, struct value right) {
    if (left.kind == BLANK && right.kind == TEXT)
        return right.text.length > 0 ? -1 : 0;
    if (right.kind == BLANK && left.kind == TEXT)
        return left.text.length > 0;
    int words = (left.kind >= TEXT) - (right.kind >= TEXT);
    if (words != 0)
        return words;
    if (left.kind >= TEXT) {
        size_t shorter = left.text.length < right.text.length ? left.text.length : right.text.length;
        int first = memcmp(left.text.bytes, right.text.bytes, shorter);
        return first != 0 ? first : (left.text.length > right.text.length) - (left.text.length < right.text.length);
    }
    i128 n, m;
    as_number(left, &n);
    as_number(right, &m);
    return (n > m) - (n < m);
}

static struct value compare(enum node node, struct value left, struct value right) {
    if (left.kind == FAULT)
        return left;
    if (right.kind == FAULT)
        return right;
    int found = order(left, right);
    return of_number((node == LESS ? found < 0 : found == 0) ? (i128)ONE : 0);
}

static struct value run(const struct token *tokens, size_t count, size_t row) {
    struct value stack[STACK];
    size_t top = 0;
    for (size_t at = 0; at < count; at++) {
        const struct token *token = &tokens[at];
        switch (token->node) {
        case CONSTANT:
            stack[top++] = of_number(token->number);
            break;
        case WORDS:
            stack[top++] = (struct value){.kind = TEXT, .text = token->text};
            break;
        case CELL:
            stack[top++] = columns[token->column][row];
            break;
        case ADD:
        case MUL:
            top--;
            stack[top - 1] = arithmetic(token->node, stack[top - 1], stack[top]);
            break;
        case CAT:
            top--;
            stack[top - 1] = join(stack[top - 1], stack[top]);
            break;
        default:
            top--;
            stack[top - 1] = compare(token->node, stack[top - 1], stack[top]);
        }
    }
    return stack[0];
}

/* The formulas. */

static void time_formula(const char *name, const struct token *tokens, size_t count) {
    uint64_t least = UINT64_MAX, sum = 0;
    for (int round = 0; round < ROUNDS; round++) {
        struct timespec start, end;
        sum = 0;
        clock_gettime(CLOCK_MONOTONIC, &start);
        for (size_t at = 0; at < RUNS; at++) {
            struct value result = run(tokens, count, at % ROWS);
            if (result.kind == MADE) {
                sum = sum * 31 + result.text.length + (unsigned char)result.text.bytes[0];
                free(result.text.bytes);
            } else {
                sum = sum * 31 + (uint64_t)result.number;
            }
        }
        clock_gettime(CLOCK_MONOTONIC, &end);
        uint64_t nanos = (uint64_t)(end.tv_sec - start.tv_sec) * 1000000000 + (uint64_t)end.tv_nsec - (uint64_t)start.tv_nsec;
        least = nanos < least ? nanos : least;
    }
    printf("%s %llu %llu\n", name, (unsigned long long)least, (unsigned long long)sum);
}

int main(void) {
    for (int row = 0; row < ROWS; row++) {
        columns[0][row] = of_number((i128)(1 + row * 7 % 1000) * 1250000000);
        columns[1][row] = row % 8 == 0 ? columns[0][row] : of_number((i128)(1 + row * 11 % 900) * 750000000);
    }
    const struct token sum[] = {
        {.node = CELL, .column = 0}, {.node = CELL, .column = 1}, {.node = CONSTANT, .number = 2 * (i128)ONE},
        {.node = MUL}, {.node = ADD}};
    const struct token joined[] = {{.node = CELL, .column = 0}, {.node = WORDS, .text = {"x", 1}}, {.node = CAT}};
    const struct token less[] = {{.node = CELL, .column = 0}, {.node = CELL, .column = 1}, {.node = LESS}};
    const struct token equal[] = {{.node = CELL, .column = 0}, {.node = CELL, .column = 1}, {.node = EQUAL}};
    time_formula("sum", sum, 5);
    time_formula("joined", joined, 3);
    time_formula("less", less, 3);
    time_formula("equal", equal, 3);
    return 0;
}
