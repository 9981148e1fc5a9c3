/* Reads the lines of files as formulas into trees, with malloc for each node, text and list. The grammar and the limits are
   those of the fields of a book. Prints a line a file: its name, the nanoseconds, how many lines are formulas, and a checksum
   of their trees. */
#define _POSIX_C_SOURCE 199309L
#include <stdint.h>
#include <stdio.h>
#include <stdlib.h>
#include <string.h>
#include <strings.h>
#include <time.h>

typedef unsigned char byte;
typedef unsigned __int128 u128;

enum { MOST_FORMULA_BYTES = 8192, MOST_TOKENS = 1024, MOST_OPEN = 64, MOST_PARAMETERS = 30, MOST_NAME = 255 };
enum { LAST_COL = 1024, LAST_ROW = 1048576, SHEETS = 16, COMPARISON = 6 };
enum kind { NUMBER = 1, WORDS, BAD, REF, NAME, CALL, PAREN, PLUS, MINUS, PERCENT, BINARY };
enum op { POW, MUL, DIV, ADD, SUB, CAT, EQ, NE, LT, LE, GT, GE, NONE, PER };
enum span { ONE, CELLS, COLUMNS, ROWS };

static const byte level_of[] = { 2, 3, 3, 4, 4, 5, 6, 6, 6, 6, 6, 6, 255, 1 };
static const char *const faults[] = { "#N/A", "#DIV/0!", "#VALUE!", "#REF!", "#NAME?", "#NUM!", "#NULL!", "#OVER!" };

struct text {
    byte *bytes;
    size_t length;
};

struct ref {
    uint32_t first_row, last_row;
    uint16_t first_col, last_col;
    byte sheet, span, marks_sheet, marks[4];
};

struct node {
    byte kind, op, fault;
    union {
        u128 number;
        struct ref ref;
        struct { struct node *left, *right; };
        struct { struct text text; struct node **args; size_t count; };
    };
};

struct cursor {
    const byte *at, *end;
    unsigned tokens;
};

static uint64_t nanos(void) {
    struct timespec now;
    clock_gettime(CLOCK_MONOTONIC, &now);
    return (uint64_t)now.tv_sec * 1000000000u + (uint64_t)now.tv_nsec;
}

static void *take(size_t size) {
    void *memory = malloc(size);
    if (!memory) exit(3);
    return memory;
}

static struct node *node(enum kind kind) {
    struct node *made = take(sizeof *made);
    made->kind = (byte)kind;
    return made;
}

static int is_digit(byte b) { return b >= '0' && b <= '9'; }
static int is_letter(byte b) { return (byte)((b | 32) - 'a') < 26; }
static int begins_word(byte b) { return is_letter(b) || b == '_' || b > 127; }
static int is_in_word(byte b) { return begins_word(b) || is_digit(b) || b == '.'; }

/* A token is taken that ends here, and the blanks behind it. */
static int past(struct cursor *cursor, const byte *at) {
    if (cursor->tokens == 0) return 0;
    cursor->tokens--;
    while (at < cursor->end && (*at == ' ' || *at == '\t' || *at == '\n' || *at == '\r')) at++;
    cursor->at = at;
    return 1;
}

static int next_is(const struct cursor *cursor, byte b) { return cursor->at < cursor->end && *cursor->at == b; }
static int token(struct cursor *cursor, byte b) { return next_is(cursor, b) && past(cursor, cursor->at + 1); }

/* A number in billionths, to the nearest. */
static struct node *read_number(struct cursor *cursor) {
    const byte *at = cursor->at, *end = cursor->end;
    u128 size = 0;
    int digits = 0, places = 0, exponent = 0, up = 0;
    for (; at < end && is_digit(*at); at++, digits++) size = size * 10 + (*at - '0');
    if (at < end && *at == '.') {
        for (at++; at < end && is_digit(*at); at++, digits++, places++) {
            if (places < 9) size = size * 10 + (*at - '0');
            if (places == 9) up = *at >= '5';
        }
    }
    if (digits == 0 || digits > 30) return NULL;
    if (at < end && (*at == 'e' || *at == 'E')) {
        int minus = at + 1 < end && at[1] == '-';
        at += at + 1 < end && (at[1] == '-' || at[1] == '+') ? 2 : 1;
        if (at == end || !is_digit(*at)) return NULL;
        for (; at < end && is_digit(*at); at++) exponent = exponent * 10 + (*at - '0');
        if (minus) exponent = -exponent;
    }
    for (; places < 9; places++) size *= 10;
    size += (u128)up;
    for (; exponent > 0; exponent--) size *= 10;
    for (; exponent < 0; exponent++) size = exponent == -1 ? (size + 5) / 10 : size / 10;
    if (!past(cursor, at)) return NULL;
    struct node *made = node(NUMBER);
    made->number = size;
    return made;
}

static struct node *read_string(struct cursor *cursor) {
    const byte *at = cursor->at + 1, *from = at;
    size_t doubled = 0;
    for (;; at++) {
        at = memchr(at, '"', (size_t)(cursor->end - at));
        if (!at) return NULL;
        if (at + 1 == cursor->end || at[1] != '"') break;
        doubled++;
        at++;
    }
    struct node *made = node(WORDS);
    made->text.length = (size_t)(at - from) - doubled;
    made->text.bytes = take(made->text.length);
    byte *to = made->text.bytes;
    for (; from < at; from++) {
        *to++ = *from;
        if (*from == '"') from++;
    }
    return past(cursor, at + 1) ? made : NULL;
}

static struct node *read_fault(struct cursor *cursor) {
    for (byte k = 0; k < 8; k++) {
        size_t length = strlen(faults[k]);
        if ((size_t)(cursor->end - cursor->at) < length || memcmp(cursor->at, faults[k], length)) continue;
        if (!past(cursor, cursor->at + length)) return NULL;
        struct node *made = node(BAD);
        made->fault = k;
        return made;
    }
    return NULL;
}

/* A column's letters or nothing, and then a row's digits or nothing, each behind a dollar sign. */
static const byte *read_corner(const byte *at, const byte *end, uint32_t *col, uint32_t *row, byte *marks) {
    const byte *from = at;
    int dollar = at < end && *at == '$';
    uint64_t number = 0;
    *col = *row = marks[0] = marks[1] = 0;
    at += dollar;
    for (; at < end && is_letter(*at); at++) number = number < LAST_COL ? number * 26 + ((*at | 32) - 'a' + 1u) : LAST_COL + 1;
    if (number > LAST_COL) return NULL;
    if (number) {
        *col = (uint32_t)number;
        marks[0] = (byte)dollar;
        from = at;
        dollar = at < end && *at == '$';
        at += dollar;
    }
    if (at == end || !is_digit(*at)) return *col ? from : NULL;
    if (*at == '0') return NULL;
    for (number = 0; at < end && is_digit(*at); at++) number = number <= LAST_ROW ? number * 10 + (*at - '0') : LAST_ROW + 1;
    if (number > LAST_ROW) return NULL;
    *row = (uint32_t)number;
    marks[1] = (byte)dollar;
    return at;
}

/* A sheet up to the point, as Sheet2 or $'Sheet2'. */
static const byte *read_sheet(const byte *at, const byte *end, struct ref *ref) {
    int quoted;
    unsigned number = 0;
    at += at < end && *at == '$';
    quoted = at < end && *at == '\'';
    at += quoted;
    if (end - at < 6 || strncasecmp((const char *)at, "sheet", 5) || at[5] == '0') return NULL;
    for (at += 5; at < end && is_digit(*at); at++) number = number <= SHEETS ? number * 10 + (*at - '0') : SHEETS + 1;
    if (number < 1 || number > SHEETS || (quoted && (at == end || *at++ != '\''))) return NULL;
    ref->sheet = (byte)(number - 1);
    ref->marks_sheet = 1;
    return at;
}

static void in_order(uint32_t *first, uint32_t *last, byte *first_mark, byte *last_mark) {
    if (*first <= *last) return;
    uint32_t at = *first;
    byte mark = *first_mark;
    *first = *last;
    *first_mark = *last_mark;
    *last = at;
    *last_mark = mark;
}

static struct node *read_ref(struct cursor *cursor) {
    const byte *at = cursor->at + 1, *end = memchr(at, ']', (size_t)(cursor->end - at));
    if (!end) return NULL;
    uint32_t first_col, first_row, last_col, last_row;
    byte first[2], last[2];
    struct ref ref = { .sheet = 0 };
    if (at < end && *at != '.') at = read_sheet(at, end, &ref);
    if (!at || at == end || *at != '.') return NULL;
    at = read_corner(at + 1, end, &first_col, &first_row, first);
    if (!at) return NULL;
    if (at == end) {
        if (!first_col || !first_row) return NULL;
        ref.span = ONE;
        last_col = first_col;
        last_row = first_row;
        memcpy(last, first, 2);
    } else {
        if (*at != ':' || at + 1 == end || at[1] != '.') return NULL;
        at = read_corner(at + 2, end, &last_col, &last_row, last);
        if (at != end || !first_col != !last_col || !first_row != !last_row) return NULL;
        ref.span = first_col ? first_row ? CELLS : COLUMNS : ROWS;
        if (!first_row) first_row = 1, last_row = LAST_ROW;
        if (!first_col) first_col = 1, last_col = LAST_COL;
        in_order(&first_col, &last_col, &first[0], &last[0]);
        in_order(&first_row, &last_row, &first[1], &last[1]);
    }
    if (!past(cursor, end + 1)) return NULL;
    ref.first_col = (uint16_t)first_col;
    ref.last_col = (uint16_t)last_col;
    ref.first_row = first_row;
    ref.last_row = last_row;
    memcpy(ref.marks, first, 2);
    memcpy(ref.marks + 2, last, 2);
    struct node *made = node(REF);
    made->ref = ref;
    return made;
}

static struct node *operands(struct cursor *cursor, unsigned depth, unsigned level);

static struct node *comparison(struct cursor *cursor, unsigned depth) {
    return depth ? operands(cursor, depth - 1, COMPARISON) : NULL;
}

static int arguments(struct cursor *cursor, unsigned depth, struct node *call) {
    struct node *args[MOST_PARAMETERS];
    size_t count = 0;
    if (!next_is(cursor, ')')) {
        do {
            if (count == MOST_PARAMETERS || !(args[count++] = comparison(cursor, depth))) return 0;
        } while (token(cursor, ';'));
    }
    call->args = take(count * sizeof *args);
    call->count = count;
    memcpy(call->args, args, count * sizeof *args);
    return token(cursor, ')');
}

/* Whether a word is the address of a cell in the sheet. */
static int is_address(const byte *at, const byte *end) {
    uint32_t col, row;
    byte marks[2];
    return read_corner(at, end, &col, &row, marks) == end && col && row;
}

static struct node *read_word(struct cursor *cursor, unsigned depth) {
    const byte *from = cursor->at, *at = from;
    while (at < cursor->end && is_in_word(*at)) at++;
    size_t length = (size_t)(at - from);
    if (length > MOST_NAME || !past(cursor, at)) return NULL;
    int is_call = next_is(cursor, '(');
    if (!is_call && is_address(from, at)) return NULL;
    struct node *made = node(is_call ? CALL : NAME);
    made->text.length = length;
    made->text.bytes = take(length);
    if (!is_call) {
        memcpy(made->text.bytes, from, length);
        return made;
    }
    for (byte *to = made->text.bytes; from < at; from++) *to++ = *from >= 'a' && *from <= 'z' ? *from - 32 : *from;
    return depth && token(cursor, '(') && arguments(cursor, depth, made) ? made : NULL;
}

static struct node *primary(struct cursor *cursor, unsigned depth) {
    if (cursor->at == cursor->end) return NULL;
    byte first = *cursor->at;
    if (first == '[') return read_ref(cursor);
    if (begins_word(first)) return read_word(cursor, depth);
    if (is_digit(first) || first == '.') return read_number(cursor);
    if (first == '"') return read_string(cursor);
    if (first == '#') return read_fault(cursor);
    if (first != '(' || !token(cursor, '(')) return NULL;
    struct node *inside = comparison(cursor, depth), *made;
    if (!inside || !token(cursor, ')')) return NULL;
    made = node(PAREN);
    made->left = inside;
    return made;
}

/* Prefix operators, of which the last binds first, and the primary behind them. */
static struct node *prefixed(struct cursor *cursor, unsigned depth) {
    struct node *first = NULL, **hole = &first;
    while (cursor->at < cursor->end && (*cursor->at == '+' || *cursor->at == '-')) {
        struct node *made = node(*cursor->at == '+' ? PLUS : MINUS);
        if (!past(cursor, cursor->at + 1)) return NULL;
        *hole = made;
        hole = &made->left;
    }
    return (*hole = primary(cursor, depth)) ? first : NULL;
}

static enum op operator_at(const struct cursor *cursor, const byte **behind) {
    const byte *at = *behind = cursor->at;
    if (at == cursor->end) return NONE;
    byte next = at + 1 < cursor->end ? at[1] : 0;
    *behind = at + 1;
    switch (*at) {
        case '%': return PER;
        case '^': return POW;
        case '*': return MUL;
        case '/': return DIV;
        case '+': return ADD;
        case '-': return SUB;
        case '&': return CAT;
        case '=': return EQ;
        case '<':
            *behind += next == '>' || next == '=';
            return next == '>' ? NE : next == '=' ? LE : LT;
        case '>':
            *behind += next == '=';
            return next == '=' ? GE : GT;
        default: return NONE;
    }
}

static struct node *operands(struct cursor *cursor, unsigned depth, unsigned level) {
    struct node *tree = prefixed(cursor, depth);
    while (tree) {
        const byte *behind;
        enum op op = operator_at(cursor, &behind);
        if (level_of[op] > level) return tree;
        if (!past(cursor, behind)) return NULL;
        struct node *made = node(op == PER ? PERCENT : BINARY);
        made->op = (byte)op;
        made->left = tree;
        if (op != PER && !(made->right = operands(cursor, depth, level_of[op] - 1u))) return NULL;
        tree = made;
    }
    return NULL;
}

static struct node *read_formula(const byte *text, size_t length) {
    struct cursor cursor = { text, text + length, MOST_TOKENS + 1 };
    if (length > MOST_FORMULA_BYTES) return NULL;
    if (length >= 3 && !memcmp(text, "of:", 3)) cursor.at += 3;
    if (!token(&cursor, '=')) return NULL;
    if (cursor.at[-1] == '=' && next_is(&cursor, '=')) {
        cursor.tokens++;
        token(&cursor, '=');
    }
    struct node *tree = operands(&cursor, MOST_OPEN, COMPARISON);
    return tree && cursor.at == cursor.end ? tree : NULL;
}

/* Apart, for those who count its instructions. */
static __attribute__((noinline)) void read_all(const struct text *fields, size_t count, struct node **trees) {
    for (size_t at = 0; at < count; at++) trees[at] = read_formula(fields[at].bytes, fields[at].length);
}

static uint64_t joined(uint64_t sum, uint64_t more) {
    sum = (sum ^ more) * 1099511628211u;
    return sum << 7 | sum >> 57;
}

static uint64_t text_sum(const byte *bytes, size_t length) {
    uint64_t sum = 0;
    for (size_t k = 0; k < length; k++) sum = joined(sum, bytes[k]);
    return sum;
}

static uint64_t ref_sum(const struct ref *ref) {
    uint64_t sum = joined(joined(ref->sheet, ref->first_col), ref->last_col);
    sum = joined(joined(joined(sum, ref->first_row), ref->last_row), ref->span);
    uint64_t marks = joined(joined(ref->marks_sheet, ref->marks[0]), ref->marks[1]);
    return joined(sum, joined(joined(marks, ref->marks[2]), ref->marks[3]));
}

static uint64_t tree_sum(const struct node *tree) {
    const char *fault;
    uint64_t sum;
    switch (tree->kind) {
        case NUMBER: return joined(1, joined((uint64_t)(tree->number >> 64), (uint64_t)tree->number));
        case WORDS:
        case NAME: return joined(tree->kind, text_sum(tree->text.bytes, tree->text.length));
        case BAD:
            fault = faults[tree->fault];
            return joined(3, text_sum((const byte *)fault, strlen(fault)));
        case REF: return joined(4, ref_sum(&tree->ref));
        case CALL:
            sum = joined(6, text_sum(tree->text.bytes, tree->text.length));
            for (size_t k = 0; k < tree->count; k++) sum = joined(sum, tree_sum(tree->args[k]));
            return sum;
        case BINARY: return joined(joined(joined(11, tree->op), tree_sum(tree->left)), tree_sum(tree->right));
        default: return joined(tree->kind, tree_sum(tree->left));
    }
}

int main(int count, char **names) {
    for (int k = 1; k < count; k++) {
        FILE *file = fopen(names[k], "rb");
        if (!file) return 1;
        fseek(file, 0, SEEK_END);
        size_t size = (size_t)ftell(file), lines = 0, line = 0;
        rewind(file);
        byte *bytes = take(size + 1);
        if (fread(bytes, 1, size, file) != size) return 1;
        fclose(file);
        for (size_t at = 0; at < size; at++) lines += bytes[at] == '\n';
        struct text *fields = take(lines * sizeof *fields);
        for (size_t at = 0, from = 0; at < size; at++) {
            if (bytes[at] != '\n') continue;
            fields[line++] = (struct text){ bytes + from, at - from };
            from = at + 1;
        }
        struct node **trees = take(lines * sizeof *trees);
        uint64_t start = nanos();
        read_all(fields, lines, trees);
        uint64_t time = nanos() - start, formulas = 0, sum = 0;
        for (line = 0; line < lines; line++) {
            if (!trees[line]) continue;
            formulas++;
            sum = joined(sum, tree_sum(trees[line]));
        }
        printf("%s %llu %llu %llu\n", names[k], (unsigned long long)time, (unsigned long long)formulas, (unsigned long long)sum);
    }
    return 0;
}
