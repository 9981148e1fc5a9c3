/* Decimals of nine places in plain C: a raw number n stands for n / 10^9, and its size is below 10^27.
 * What 64 bits hold is computed in 64 bits, and products and sizes are split so that no call of the
 * 128-bit division is left but in quotients and remainders of wide numbers. */
#ifndef DECIMALS_H
#define DECIMALS_H

#include <stddef.h>
#include <stdint.h>

typedef __int128 i128;
typedef unsigned __int128 u128;

enum fault { FINE, DIV_ZERO, OVER, NOT_NUMBER };

enum way { NEAREST, AWAY, TOWARD, FLOOR };

struct outcome {
    i128 raw;
    enum fault fault;
};

struct written {
    char bytes[29];
    unsigned start, end;
};

#define ONE UINT64_C(1000000000)
#define LIMIT ((u128)ONE * ONE * ONE)

static inline struct outcome fine(i128 raw) {
    return (struct outcome){raw, FINE};
}

static inline struct outcome fail(enum fault fault) {
    return (struct outcome){0, fault};
}

static inline u128 size_of(i128 raw) {
    return raw < 0 ? -(u128)raw : (u128)raw;
}

static inline i128 signed_raw(int negative, u128 size) {
    return negative ? -(i128)size : (i128)size;
}

static inline struct outcome from_size(int negative, u128 size) {
    return size < LIMIT ? fine(signed_raw(negative, size)) : fail(OVER);
}

static inline struct outcome in_range(i128 raw) {
    return (u128)raw + (LIMIT - 1) <= 2 * (LIMIT - 1) ? fine(raw) : fail(OVER);
}

/* A size and a divisor of at most 32 bits: quotient and remainder by 64-bit divisions alone. */
static inline u128 split(u128 size, uint64_t divisor, uint64_t *rest) {
    if (size >> 64 == 0) {
        *rest = (uint64_t)size % divisor;
        return (uint64_t)size / divisor;
    }
    uint64_t front = (uint64_t)(size >> 32), last = (uint32_t)size;
    uint64_t middle = front % divisor << 32 | last;
    *rest = middle % divisor;
    return ((u128)(front / divisor) << 32) + middle / divisor;
}

/* A quotient in 64 bits where both numbers fit. */
static inline u128 divided(u128 size, u128 divisor, u128 *rest) {
    if ((size | divisor) >> 64 == 0) {
        *rest = (uint64_t)size % (uint64_t)divisor;
        return (uint64_t)size / (uint64_t)divisor;
    }
    if (size < divisor) {
        *rest = size;
        return 0;
    }
    u128 quotient = size / divisor;
    *rest = size - quotient * divisor;
    return quotient;
}

static inline struct outcome add(i128 left, i128 right) {
    return in_range(left + right);
}

static inline struct outcome sub(i128 left, i128 right) {
    return in_range(left - right);
}

static inline struct outcome neg(i128 raw) {
    return fine(-raw);
}

static inline struct outcome mul(i128 left, i128 right) {
    u128 a = size_of(left), b = size_of(right);
    int negative = (left < 0) != (right < 0);
    if ((a | b) >> 63 == 0) {
        uint64_t whole = (uint64_t)a / ONE, rest = (uint64_t)a % ONE;
        uint64_t other_whole = (uint64_t)b / ONE, other_rest = (uint64_t)b % ONE;
        rest = rest * other_whole + (rest * other_rest + ONE / 2) / ONE;
        return from_size(negative, (u128)whole * (uint64_t)b + rest);
    }
    uint64_t a_rest, b_rest;
    uint64_t a_whole = (uint64_t)split(a, ONE, &a_rest), b_whole = (uint64_t)split(b, ONE, &b_rest);
    u128 wholes = (u128)a_whole * b_whole;
    if (wholes >= LIMIT / ONE)
        return fail(OVER);
    u128 crossed = (u128)a_whole * b_rest + (u128)a_rest * b_whole;
    return from_size(negative, wholes * ONE + crossed + (a_rest * b_rest + ONE / 2) / ONE);
}

static inline struct outcome divide(i128 left, i128 right) {
    u128 a = size_of(left), b = size_of(right);
    int negative = (left < 0) != (right < 0);
    if (b == 0)
        return fail(DIV_ZERO);
    if (a <= 900000 * ONE && b >> 63 == 0 && (uint64_t)b % 100000 == 0) {
        uint64_t ticks = (uint64_t)b / 100000;
        return fine(signed_raw(negative, (2 * ((uint64_t)a * 10000) + ticks) / (2 * ticks)));
    }
    return from_size(negative, (2 * (a * ONE) + b) / (2 * b));
}

static inline struct outcome percent(i128 raw) {
    uint64_t rest;
    return fine(signed_raw(raw < 0, split(size_of(raw) + 50, 100, &rest)));
}

static inline struct outcome power(i128 base, i128 exponent) {
    uint64_t rest, count = (uint64_t)split(size_of(exponent), ONE, &rest);
    if (rest != 0 || count > 1024)
        return fail(NOT_NUMBER);
    struct outcome product = fine(ONE);
    for (; count > 0; count--) {
        struct outcome next = mul(product.raw, base);
        if (next.fault != FINE)
            return next;
        if (next.raw == product.raw)
            break;
        product = next;
    }
    return exponent < 0 ? divide(ONE, product.raw) : product;
}

static const uint64_t powers[20] = {
    UINT64_C(1),
    UINT64_C(10),
    UINT64_C(100),
    UINT64_C(1000),
    UINT64_C(10000),
    UINT64_C(100000),
    UINT64_C(1000000),
    UINT64_C(10000000),
    UINT64_C(100000000),
    UINT64_C(1000000000),
    UINT64_C(10000000000),
    UINT64_C(100000000000),
    UINT64_C(1000000000000),
    UINT64_C(10000000000000),
    UINT64_C(100000000000000),
    UINT64_C(1000000000000000),
    UINT64_C(10000000000000000),
    UINT64_C(100000000000000000),
    UINT64_C(1000000000000000000),
    UINT64_C(10000000000000000000),
};

static inline u128 power_of_ten(unsigned places) {
    return places < 20 ? powers[places] : (u128)powers[19] * powers[places - 19];
}

/* The size is what stays of it in whole units, and one unit more where the way asks for it. */
static inline struct outcome round_to(i128 raw, int64_t digits, enum way way) {
    if (digits >= 9)
        return fine(raw);
    unsigned places = digits < -19 ? 28 : (unsigned)(9 - digits);
    u128 size = size_of(raw), unit = power_of_ten(places), rest;
    u128 count = divided(size, unit, &rest);
    int up = way == NEAREST  ? 2 * rest >= unit
             : way == AWAY   ? rest != 0
             : way == TOWARD ? 0
                             : rest != 0 && raw < 0;
    return from_size(raw < 0, (count + (unsigned)up) * unit);
}

static inline struct outcome floor_mod(i128 left, i128 right) {
    u128 divisor = size_of(right), rest;
    if (divisor == 0)
        return fail(DIV_ZERO);
    divided(size_of(left), divisor, &rest);
    if (rest != 0 && (left < 0) != (right < 0))
        rest = divisor - rest;
    return fine(signed_raw(right < 0, rest));
}

static inline struct outcome quotient(i128 left, i128 right) {
    u128 divisor = size_of(right), rest;
    if (divisor == 0)
        return fail(DIV_ZERO);
    u128 whole = divided(size_of(left), divisor, &rest);
    return from_size((left < 0) != (right < 0), whole * ONE);
}

static inline double as_double(u128 number) {
    return (double)(int64_t)(number >> 63) * 0x1p63 + (double)(int64_t)((uint64_t)number & INT64_MAX);
}

/* The processor's root of a float, for large squares with a step of Newton's, mended by one at most. */
static inline struct outcome root(i128 raw) {
    if (raw < 0)
        return fail(NOT_NUMBER);
    u128 square = (u128)raw * ONE;
    double near = __builtin_sqrt(as_double(square));
    uint64_t size = (uint64_t)(int64_t)(near + 0.5);
    if (square >> 102 != 0) {
        i128 rest = (i128)(square - (u128)size * size);
        size += (uint64_t)(int64_t)((double)(int64_t)(rest >> 16) * 0x1p16 / (2 * near));
    }
    while (size > 0 && (u128)size * size >= square + size)
        size--;
    while ((u128)size * (size + 1) < square)
        size++;
    return fine((i128)size);
}

struct digits {
    const char *end;
    uint64_t number;
    size_t count;
};

/* The digits from here on with the number that they write, which counts where there are at most 19. */
static inline struct digits digits_at(const char *at, const char *end) {
    const char *start = at;
    uint64_t number = 0;
    for (; at < end && (unsigned char)(*at - '0') < 10; at++)
        number = 10 * number + (unsigned char)(*at - '0');
    return (struct digits){at, number, (size_t)(at - start)};
}

static inline struct outcome lengthened(int negative, u128 number, unsigned zeros) {
    u128 size;
    if (__builtin_mul_overflow(number, power_of_ten(zeros), &size))
        return fail(OVER);
    return from_size(negative, size);
}

static inline struct outcome shortened(int negative, u128 number, unsigned digits) {
    u128 unit = power_of_ten(digits), rest, size = divided(number, unit, &rest);
    return from_size(negative, size + (2 * rest >= unit));
}

/* A size with a shift by powers of ten, for numbers of any length: past 28 digits only the shift counts. */
static struct outcome read_long(int negative, const char *at, const char *end, long shift) {
    u128 size = 0;
    int point = 0;
    for (; at < end; at++) {
        if (*at == '.') {
            point = 1;
        } else {
            int room = size < 10 * LIMIT;
            if (room)
                size = 10 * size + (unsigned char)(*at - '0');
            shift += !room - point;
        }
    }
    for (; shift > 0 && size < LIMIT && size > 0; shift--)
        size *= 10;
    if (shift > 0)
        return from_size(negative, size == 0 ? 0 : LIMIT);
    if (shift < -30)
        return fine(0);
    if (shift == 0)
        return from_size(negative, size);
    u128 divisor = power_of_ten((unsigned)-shift > 28 ? 28 : (unsigned)-shift);
    if (shift < -28)
        divisor *= power_of_ten((unsigned)-shift - 28);
    return from_size(negative, (size + divisor / 2) / divisor);
}

static inline struct outcome read(const char *text, size_t length) {
    const char *at = text, *end = text + length;
    int negative = at < end && *at == '-';
    if (at < end && (*at == '-' || *at == '+'))
        at++;
    const char *start = at;
    struct digits whole = digits_at(at, end), fraction = {whole.end, 0, 0};
    if (whole.end < end && *whole.end == '.')
        fraction = digits_at(whole.end + 1, end);
    if (whole.count + fraction.count == 0)
        return fail(NOT_NUMBER);
    long exponent = 0;
    at = fraction.end;
    if (at < end) {
        if (*at != 'e' && *at != 'E')
            return fail(NOT_NUMBER);
        at++;
        int below = at < end && *at == '-';
        if (at < end && (*at == '-' || *at == '+'))
            at++;
        if (at == end)
            return fail(NOT_NUMBER);
        for (; at < end; at++) {
            if ((unsigned char)(*at - '0') >= 10)
                return fail(NOT_NUMBER);
            if (exponent < 100000000)
                exponent = 10 * exponent + (*at - '0');
        }
        exponent = below ? -exponent : exponent;
    }
    long before = 9 + exponent, behind = before - (long)fraction.count;
    if (whole.count < 19 && fraction.count < 19 && before <= 18 && behind >= 0) {
        u128 size = (u128)whole.number * powers[before] + (u128)fraction.number * powers[behind];
        return from_size(negative, size);
    }
    if (whole.count < 19 && fraction.count < 19 && -28 <= behind && behind <= 28) {
        u128 number = (u128)whole.number * powers[fraction.count] + fraction.number;
        return behind < 0 ? shortened(negative, number, (unsigned)-behind)
                          : lengthened(negative, number, (unsigned)behind);
    }
    return read_long(negative, start, fraction.end, 9 + exponent);
}

static const char pairs[201] =
    "00010203040506070809101112131415161718192021222324252627282930313233343536373839"
    "40414243444546474849505152535455565758596061626364656667686970717273747576777879"
    "8081828384858687888990919293949596979899";

static inline void put_pair(char *at, uint64_t pair) {
    at[0] = pairs[2 * pair];
    at[1] = pairs[2 * pair + 1];
}

/* The whole part ends and the fraction starts at 19. */
static inline void write(i128 raw, struct written *text) {
    uint64_t fraction, whole = (uint64_t)split(size_of(raw), ONE, &fraction);
    text->start = 19;
    text->end = 19;
    if (fraction != 0) {
        uint32_t rest = (uint32_t)fraction;
        text->bytes[19] = '.';
        text->end = 29;
        for (int at = 27; at > 20; at -= 2, rest /= 100)
            put_pair(text->bytes + at, rest % 100);
        text->bytes[20] = (char)('0' + rest);
        while (text->bytes[text->end - 1] == '0')
            text->end--;
    }
    for (; whole >= 100; whole /= 100) {
        text->start -= 2;
        put_pair(text->bytes + text->start, whole % 100);
    }
    if (whole >= 10) {
        text->start -= 2;
        put_pair(text->bytes + text->start, whole);
    } else {
        text->bytes[--text->start] = (char)('0' + whole);
    }
    if (raw < 0)
        text->bytes[--text->start] = '-';
}

#endif
