/*
 * calculator: evaluates expressions, one per line.
 *
 *     $ ./calculator '2 + 3 * 4' 'x = 0x1F' 'x << 2' 'sqrt(x + 5) / 4'
 *     14
 *     x = 31
 *     124
 *     1.5
 *
 * Lines come from the arguments, or from standard input if there are none. A line that starts with a colon is a
 * command; ":help" lists them. The exit status is 0 if every line was fine, 1 if some line was not, and 2 for a bad
 * option.
 *
 * A value is a 64-bit integer or a double. An integer operation whose result does not fit is an error; it never wraps
 * around silently. No -lm is needed:
 *
 *     cc -std=c11 -Wall -Wextra -O2 -o calculator calculator.c
 */

#include <ctype.h>
#include <errno.h>
#include <float.h>
#include <inttypes.h>
#include <stdarg.h>
#include <stdbool.h>
#include <stdint.h>
#include <stdio.h>
#include <stdlib.h>
#include <string.h>

#define VERSION_MAJOR 1
#define VERSION_MINOR 4
#define TEXT_OF(tokens) #tokens
#define TEXT(macro) TEXT_OF(macro)
#define VERSION TEXT(VERSION_MAJOR) "." TEXT(VERSION_MINOR)

#define LENGTH(array) (sizeof(array) / sizeof((array)[0]))
#define MAX(a, b) ((a) > (b) ? (a) : (b))
#define UNUSED(parameter) ((void)(parameter))

#define MAX_ARGUMENTS 8
#define MAX_NAME 31
#define MAX_DEPTH 500   /* of nested expressions */
#define MESSAGE_SIZE 96 /* of an error message, in bytes */
#define RESULT_SIZE 128 /* of what is printed for a line, in bytes */
#define BUCKETS 64u

#if defined(__GNUC__) || defined(__clang__)
#define LIKE_PRINTF(string, first) __attribute__((format(printf, string, first)))
#else
#define LIKE_PRINTF(string, first)
#endif

_Static_assert((BUCKETS & (BUCKETS - 1)) == 0, "the number of buckets is a power of two");
_Static_assert(sizeof(double) == sizeof(uint64_t) && DBL_MANT_DIG == 53, "doubles are IEEE 754's");

/* ------------------------------------------------------------------------------------------------------------------
 * Errors
 */

struct error {
    bool failed;
    size_t at; /* in bytes from the start of the line */
    char message[MESSAGE_SIZE];
};

/* Records an error and returns false, so that callers can write `return fail(...);`. */
LIKE_PRINTF(3, 4)
static bool fail(struct error *error, size_t at, const char *format, ...)
{
    va_list arguments;

    if (error->failed) {
        return false; // the first error is the one to report
    }
    error->failed = true;
    error->at = at;
    va_start(arguments, format);
    vsnprintf(error->message, sizeof error->message, format, arguments);
    va_end(arguments);
    return false;
}

/* ------------------------------------------------------------------------------------------------------------------
 * Values
 */

enum value_kind { VALUE_INTEGER, VALUE_REAL };

struct value {
    enum value_kind kind;
    union {
        int64_t integer;
        double real;
    };
};

static inline struct value of_integer(int64_t integer)
{
    return (struct value){.kind = VALUE_INTEGER, .integer = integer};
}

static inline struct value of_real(double real)
{
    return (struct value){.kind = VALUE_REAL, .real = real};
}

#define VALUE(number) _Generic((number), float: of_real, double: of_real, default: of_integer)(number)

static inline bool is_integer(struct value value)
{
    return value.kind == VALUE_INTEGER;
}

static inline double as_real(struct value value)
{
    return is_integer(value) ? (double)value.integer : value.real;
}

static inline bool is_true(struct value value)
{
    return is_integer(value) ? value.integer != 0 : value.real != 0;
}

/* False for infinities and NaN, which are errors and never values. */
static inline bool is_finite(double x)
{
    return x - x == 0;
}

/* ------------------------------------------------------------------------------------------------------------------
 * Integer arithmetic: false if the result does not fit
 */

static bool add(int64_t a, int64_t b, int64_t *sum)
{
    if (b > 0 ? a > INT64_MAX - b : a < INT64_MIN - b) {
        return false;
    }
    *sum = a + b;
    return true;
}

static bool subtract(int64_t a, int64_t b, int64_t *difference)
{
    if (b > 0 ? a < INT64_MIN + b : a > INT64_MAX + b) {
        return false;
    }
    *difference = a - b;
    return true;
}

static bool multiply(int64_t a, int64_t b, int64_t *product)
{
    bool fits = true;

    if (a > 0) {
        fits = b > 0 ? a <= INT64_MAX / b : b >= INT64_MIN / a;
    } else if (a < 0) {
        fits = b > 0 ? a >= INT64_MIN / b : b >= INT64_MAX / a;
    }
    if (fits) {
        *product = a * b;
    }
    return fits;
}

/* Rounds down, so the remainder has the sign of the divisor: 7 // -2 is -4, and 7 % -2 is -1. */
static bool divide(int64_t a, int64_t b, int64_t *quotient, int64_t *remainder)
{
    if (b == 0 || (a == INT64_MIN && b == -1)) {
        return false;
    }
    *quotient = a / b;
    *remainder = a % b;
    if (*remainder != 0 && (*remainder < 0) != (b < 0)) {
        --*quotient;
        *remainder += b;
    }
    return true;
}

static bool raise_integer(int64_t base, int64_t exponent, int64_t *power)
{
    *power = 1;
    while (exponent > 0) {
        if ((exponent & 1) != 0 && !multiply(*power, base, power)) {
            return false;
        }
        exponent >>= 1;
        if (exponent > 0 && !multiply(base, base, &base)) {
            return false;
        }
    }
    return true;
}

static bool shift_left(int64_t a, int64_t places, int64_t *shifted)
{
    return places >= 0 && places < 63 && multiply(a, INT64_C(1) << places, shifted);
}

/* Rounds down. What >> does to a negative number is up to the compiler, hence the complements. */
static bool shift_right(int64_t a, int64_t places, int64_t *shifted)
{
    if (places < 0 || places > 63) {
        return false;
    }
    *shifted = a >= 0 ? a >> places : ~(~a >> places);
    return true;
}

/* ------------------------------------------------------------------------------------------------------------------
 * Floating-point arithmetic
 */

/* Hexadecimal, so that every bit is right. */
static const double PI = 0x1.921fb54442d18p+1, E = 0X1.5BF0A8B145769P+1;

union bits {
    double real;
    uint64_t word;
};

enum { BIAS = 1023, FRACTION_BITS = DBL_MANT_DIG - 1 };

/* 2 to the n, for -1022 <= n <= 1023 */
static double power_of_two(int n)
{
    return (union bits){.word = (uint64_t)(n + BIAS) << FRACTION_BITS}.real;
}

/* x = fraction * 2 ** exponent, with 1 <= fraction < 2, for a finite x > 0 */
static double split(double x, int *exponent)
{
    const uint64_t fraction = (UINT64_C(1) << FRACTION_BITS) - 1;
    union bits bits = {.real = x};
    int scale = 0;

    if (x < DBL_MIN) {
        bits.real = x * 0x1p54;
        scale = 54;
    }
    *exponent = (int)(bits.word >> FRACTION_BITS) - BIAS - scale;
    bits.word = (bits.word & fraction) | (uint64_t)BIAS << FRACTION_BITS;
    return bits.real;
}

static double rounded_down(double x)
{
    double whole;

    if (x >= 0x1p52 || x <= -0x1p52) {
        return x; // too large to have a fraction
    }
    whole = (double)(int64_t)x;
    return whole > x ? whole - 1 : whole;
}

/* Newton's method. Halving the exponent gives a guess within a factor of two; each step doubles its correct digits. */
static double square_root(double x)
{
    double guess;
    int exponent, steps = 7;

    if (x == 0.) {
        return x;
    }
    guess = split(x, &exponent);
    guess *= power_of_two(exponent / 2);
    do {
        guess = .5 * (guess + x / guess);
    } while (--steps > 0);
    return guess;
}

/* base ** exponent by squaring, for an exponent without a fraction */
static double raise_real(double base, double exponent)
{
    uint64_t count = (uint64_t)(exponent < 0 ? -exponent : exponent);
    double power = 1.;

    for (; count != 0; count >>= 1, base *= base) {
        power *= count & 1 ? base : 1.;
    }
    return exponent < 0 ? 1. / power : power;
}

/* ------------------------------------------------------------------------------------------------------------------
 * Lexer
 */

enum token_kind {
    TOKEN_END, TOKEN_NUMBER, TOKEN_NAME, TOKEN_OPEN, TOKEN_CLOSE, TOKEN_COMMA, TOKEN_ASSIGN, TOKEN_QUESTION,
    TOKEN_COLON, TOKEN_NOT, TOKEN_COMPLEMENT, TOKEN_OR, TOKEN_AND, TOKEN_BIT_OR, TOKEN_BIT_XOR, TOKEN_BIT_AND,
    TOKEN_EQUAL, TOKEN_UNEQUAL, TOKEN_LESS, TOKEN_LESS_EQUAL, TOKEN_GREATER, TOKEN_GREATER_EQUAL, TOKEN_SHIFT_LEFT,
    TOKEN_SHIFT_RIGHT, TOKEN_PLUS, TOKEN_MINUS, TOKEN_TIMES, TOKEN_DIVIDE, TOKEN_QUOTIENT, TOKEN_REMAINDER,
    TOKEN_POWER
};

enum { BINDING_UNARY = 11, BINDING_POWER = 12 };

/* The first spelling that fits is taken, so longer ones come first. */
static const struct spelling {
    const char *text;
    enum token_kind kind;
    int binding; /* how tightly it binds its two operands; 0 if it is not a binary operator */
} SPELLINGS[] = {
    {"**", TOKEN_POWER, BINDING_POWER}, {"//", TOKEN_QUOTIENT, 10},     {"<<", TOKEN_SHIFT_LEFT, 8},
    {">>", TOKEN_SHIFT_RIGHT, 8},       {"<=", TOKEN_LESS_EQUAL, 7},    {">=", TOKEN_GREATER_EQUAL, 7},
    {"==", TOKEN_EQUAL, 6},             {"!=", TOKEN_UNEQUAL, 6},       {"&&", TOKEN_AND, 2},
    {"||", TOKEN_OR, 1},                {"*", TOKEN_TIMES, 10},         {"/", TOKEN_DIVIDE, 10},
    {"%", TOKEN_REMAINDER, 10},         {"+", TOKEN_PLUS, 9},           {"-", TOKEN_MINUS, 9},
    {"<", TOKEN_LESS, 7},               {">", TOKEN_GREATER, 7},        {"&", TOKEN_BIT_AND, 5},
    {"^", TOKEN_BIT_XOR, 4},            {"|", TOKEN_BIT_OR, 3},         {"=", TOKEN_ASSIGN, 0},
    {"?", TOKEN_QUESTION, 0},           {":", TOKEN_COLON, 0},          {"!", TOKEN_NOT, 0},
    {"~", TOKEN_COMPLEMENT, 0},         {"(", TOKEN_OPEN, 0},           {")", TOKEN_CLOSE, 0},
    {",", TOKEN_COMMA, 0},
};

struct token {
    enum token_kind kind;
    size_t at;
    size_t length;
    int binding;
    struct value value; /* of a number */
};

struct lexer {
    const char *line;
    struct token token; /* the current one */
    struct error *error;
};

static int digit_of(char c)
{
    if (c >= '0' && c <= '9') {
        return c - '0';
    }
    if (isalpha((unsigned char)c)) {
        return tolower((unsigned char)c) - 'a' + 10;
    }
    return 99;
}

/* The digits after 0x, 0o or 0b. All 64 bits may be used: 0xFFFFFFFFFFFFFFFF is -1. */
static bool lex_digits(struct lexer *lexer, int base)
{
    const char *start = lexer->line + lexer->token.at, *at = start + 2;
    uint64_t word = 0;

    if (digit_of(*at) >= base) {
        return fail(lexer->error, lexer->token.at, "'0%c' needs digits of base %d", start[1], base);
    }
    for (; digit_of(*at) < base || *at == '_'; ++at) {
        if (*at == '_') {
            continue;
        }
        if (word > (UINT64_MAX - (unsigned)digit_of(*at)) / (unsigned)base) {
            return fail(lexer->error, lexer->token.at, "the number does not fit in 64 bits");
        }
        word = word * (unsigned)base + (unsigned)digit_of(*at);
    }
    lexer->token.length = (size_t)(at - start);
    lexer->token.value = VALUE(word <= INT64_MAX ? (int64_t)word : -(int64_t)~word - 1);
    return true;
}

static bool lex_decimal(struct lexer *lexer)
{
    const char *start = lexer->line + lexer->token.at;
    char *end, *end_of_integer;
    double real;
    intmax_t integer;

    errno = 0;
    integer = strtoimax(start, &end_of_integer, 10);
    if (errno == ERANGE) {
        integer = -1;
    }
    errno = 0;
    real = strtod(start, &end);
    if (!is_finite(real)) {
        return fail(lexer->error, lexer->token.at, "the number is too large");
    }
    if (end != end_of_integer) {
        lexer->token.value = VALUE(real);
    } else if (integer >= 0 && integer <= INT64_MAX) {
        lexer->token.value = VALUE((int64_t)integer);
    } else {
        return fail(lexer->error, lexer->token.at, "the integer does not fit in 64 bits; try %.*s.0",
                    (int)(end - start), start);
    }
    lexer->token.length = (size_t)(end - start);
    return true;
}

static bool lex_number(struct lexer *lexer)
{
    const char *start = lexer->line + lexer->token.at;

    lexer->token.kind = TOKEN_NUMBER;
    if (*start == '0') {
        switch (start[1]) {
        case 'x': case 'X':
            return lex_digits(lexer, 16);
        case 'o':
            return lex_digits(lexer, 8);
        case 'b': case 'B':
            return lex_digits(lexer, 2);
        default:
            break;
        }
    }
    return lex_decimal(lexer);
}

/* A character in single quotes is its code: 'A' is 65 and '\n' is 10. */
static bool lex_character(struct lexer *lexer)
{
    static const char escapes[] = "abfnrtv0\\'\"", codes[] = "\a\b\f\n\r\t\v\0\\'\"";
    const char *start = lexer->line + lexer->token.at, *at = start + 1;
    int code = (unsigned char)*at;

    if (*at == '\\') {
        const char *found = *++at == '\0' ? NULL : strchr(escapes, *at);

        if (found == NULL) {
            return fail(lexer->error, lexer->token.at, "unknown escape");
        }
        code = codes[found - escapes];
    } else if (*at == '\'' || *at == '\0') {
        return fail(lexer->error, lexer->token.at, "a character is missing after the quote");
    }
    if (*++at != '\'') {
        return fail(lexer->error, lexer->token.at, "the closing quote is missing");
    }
    lexer->token.kind = TOKEN_NUMBER;
    lexer->token.length = (size_t)(at + 1 - start);
    lexer->token.value = VALUE(code);
    return true;
}

static bool lex_operator(struct lexer *lexer)
{
    const char *start = lexer->line + lexer->token.at;

    for (const struct spelling *it = SPELLINGS; it != SPELLINGS + LENGTH(SPELLINGS); ++it) {
        size_t length = strlen(it->text);

        if (strncmp(start, it->text, length) == 0) {
            lexer->token.kind = it->kind;
            lexer->token.length = length;
            lexer->token.binding = it->binding;
            return true;
        }
    }
    if (isprint((unsigned char)*start)) {
        return fail(lexer->error, lexer->token.at, "unexpected character '%c'", *start);
    }
    return fail(lexer->error, lexer->token.at, "unexpected byte \\x%02X", (unsigned char)*start);
}

static inline bool begins_name(char c)
{
    return isalpha((unsigned char)c) || c == '_';
}

/* Moves to the next token. A '#' starts a comment that runs to the end of the line. */
static bool advance(struct lexer *lexer)
{
    size_t at = lexer->token.at + lexer->token.length;
    const char *start;

    at += strspn(lexer->line + at, " \t\r\n\f\v");
    start = lexer->line + at;
    lexer->token = (struct token){.kind = TOKEN_END, .at = at};
    if (*start == '\0' || *start == '#') {
        return true;
    }
    if (isdigit((unsigned char)*start) || (*start == '.' && isdigit((unsigned char)start[1]))) {
        return lex_number(lexer);
    }
    if (*start == '\'') {
        return lex_character(lexer);
    }
    if (begins_name(*start)) {
        lexer->token.kind = TOKEN_NAME;
        do {
            ++lexer->token.length;
        } while (begins_name(start[lexer->token.length]) || isdigit((unsigned char)start[lexer->token.length]));
        return lexer->token.length <= MAX_NAME
            || fail(lexer->error, at, "a name can have at most %d characters", MAX_NAME);
    }
    return lex_operator(lexer);
}

/* ------------------------------------------------------------------------------------------------------------------
 * Symbols
 */

struct builtin {
    const char *name;
    size_t least, most; /* number of arguments */
    bool (*call)(size_t count, const struct value *arguments, struct value *result);
    const char *help;
};

enum symbol_kind { SYMBOL_CONSTANT, SYMBOL_VARIABLE, SYMBOL_BUILTIN };

struct symbol {
    struct symbol *next; /* in the same bucket */
    char name[MAX_NAME + 1];
    enum symbol_kind kind;
    union {
        struct value value;
        const struct builtin *builtin;
    };
};

struct session {
    struct symbol *buckets[BUCKETS];
    int base; /* for printing integers */
    bool done;
    struct error error;
};

/* The FNV-1a hash. */
static uint32_t hash(const char *name)
{
    register uint32_t hash = 0x811c9dc5u;

    while (*name != '\0') {
        hash = (hash ^ (unsigned char)*name++) * 16777619ul;
    }
    return hash;
}

/* The link to the symbol with this name, or the null link where it would be inserted. */
static struct symbol **find(struct session *session, const char *name)
{
    struct symbol **link = &session->buckets[hash(name) & (BUCKETS - 1)];

    while (*link != NULL && strcmp((*link)->name, name) != 0) {
        link = &(*link)->next;
    }
    return link;
}

static void copy_name(char target[static MAX_NAME + 1], const char *restrict source, size_t length)
{
    memcpy(target, source, length);
    target[length] = '\0';
}

/* Finds or adds a variable. NULL if the name belongs to a constant or a function, or memory has run out. */
static struct symbol *define(struct session *session, const char *name, size_t at)
{
    struct symbol **link = find(session, name), *symbol = *link;

    if (symbol == NULL) {
        symbol = calloc(1, sizeof *symbol);
        if (symbol == NULL) {
            fail(&session->error, at, "out of memory");
            return NULL;
        }
        copy_name(symbol->name, name, strlen(name));
        symbol->kind = SYMBOL_VARIABLE;
        *link = symbol;
    } else if (symbol->kind != SYMBOL_VARIABLE) {
        fail(&session->error, at, "'%s' can't be redefined", name);
        return NULL;
    }
    return symbol;
}

/* ------------------------------------------------------------------------------------------------------------------
 * Built-in functions
 */

static bool call_abs(size_t count, const struct value *arguments, struct value *result)
{
    UNUSED(count);
    if (is_integer(*arguments)) {
        *result = *arguments;
        return result->integer >= 0 || subtract(0, result->integer, &result->integer);
    }
    *result = VALUE(arguments->real < 0 ? -arguments->real : arguments->real);
    return true;
}

static bool call_floor(size_t count, const struct value *arguments, struct value *result)
{
    double down = rounded_down(as_real(*arguments));

    UNUSED(count);
    if (is_integer(*arguments)) {
        *result = *arguments;
    } else if (down >= -0x1p63 && down < 0x1p63) {
        *result = VALUE((int64_t)down);
    } else {
        *result = VALUE(down);
    }
    return true;
}

static bool call_sqrt(size_t count, const struct value *arguments, struct value *result)
{
    double x = as_real(*arguments);

    UNUSED(count);
    if (x < 0) {
        return false;
    }
    *result = VALUE(square_root(x));
    return true;
}

static bool call_max(size_t count, const struct value *arguments, struct value *result)
{
    *result = arguments[0];
    for (size_t i = 1; i < count; i++) {
        if (as_real(arguments[i]) > as_real(*result)) {
            *result = arguments[i];
        }
    }
    return true;
}

static bool call_bits(size_t count, const struct value *arguments, struct value *result)
{
    uint64_t word = (uint64_t)arguments->integer;
    int64_t ones = 0;

    UNUSED(count);
    for (; word != 0; word &= word - 1) {
        ++ones;
    }
    *result = VALUE(ones);
    return is_integer(*arguments);
}

static const struct builtin BUILTINS[] = {
    {"abs", 1, 1, call_abs, "the absolute value"},
    {"bits", 1, 1, call_bits, "the number of 1 bits in an integer"},
    {"floor", 1, 1, call_floor, "the greatest integer not above the value"},
    {"max", 1, MAX_ARGUMENTS, call_max, "the largest of up to " TEXT(MAX_ARGUMENTS) " values"},
    {"sqrt", 1, 1, call_sqrt, "the square root"},
};

/* ------------------------------------------------------------------------------------------------------------------
 * Operators
 */

static bool out_of_range(struct error *error, size_t at)
{
    return fail(error, at, "the result is out of range");
}

static bool division_by_zero(struct error *error, size_t at)
{
    return fail(error, at, "division by zero");
}

static bool needs_integers(struct error *error, size_t at)
{
    return fail(error, at, "the operator needs integers");
}

static bool on_integers(struct error *error, const struct token *operator, int64_t a, int64_t b, struct value *result)
{
    int64_t *c = &result->integer, other;
    bool fits = true;

    *result = VALUE(0);
    switch (operator->kind) {
    case TOKEN_PLUS: fits = add(a, b, c); break;
    case TOKEN_MINUS: fits = subtract(a, b, c); break;
    case TOKEN_TIMES: fits = multiply(a, b, c); break;
    case TOKEN_POWER: fits = raise_integer(a, b, c); break;
    case TOKEN_SHIFT_LEFT: fits = shift_left(a, b, c); break;
    case TOKEN_SHIFT_RIGHT: fits = shift_right(a, b, c); break;
    case TOKEN_BIT_AND: *c = a & b; break;
    case TOKEN_BIT_OR: *c = a | b; break;
    case TOKEN_BIT_XOR: *c = a ^ b; break;
    case TOKEN_QUOTIENT:
        if (b == 0) {
            return division_by_zero(error, operator->at);
        }
        fits = divide(a, b, c, &other);
        break;
    case TOKEN_REMAINDER:
        if (b == 0) {
            return division_by_zero(error, operator->at);
        }
        fits = b == -1 || divide(a, b, &other, c);
        break;
    default:
        return fail(error, operator->at, "not a binary operator");
    }
    return fits || out_of_range(error, operator->at);
}

static bool on_reals(struct error *error, const struct token *operator, double a, double b, struct value *result)
{
    double c;

    switch (operator->kind) {
    case TOKEN_PLUS: c = a + b; break;
    case TOKEN_MINUS: c = a - b; break;
    case TOKEN_TIMES: c = a * b; break;
    case TOKEN_DIVIDE:
    case TOKEN_QUOTIENT:
        if (b == 0) {
            return division_by_zero(error, operator->at);
        }
        c = operator->kind == TOKEN_DIVIDE ? a / b : rounded_down(a / b);
        break;
    case TOKEN_POWER:
        if (b != rounded_down(b) || b <= -0x1p63 || b >= 0x1p63 || (a == 0 && b < 0)) {
            return fail(error, operator->at, "the exponent must be an integer, and not negative if the base is 0");
        }
        c = raise_real(a, b);
        break;
    default:
        return needs_integers(error, operator->at);
    }
    *result = VALUE(c);
    return is_finite(c) || out_of_range(error, operator->at);
}

static int64_t compared(struct value a, struct value b)
{
    if (is_integer(a) && is_integer(b)) {
        return (a.integer > b.integer) - (a.integer < b.integer);
    }
    return (as_real(a) > as_real(b)) - (as_real(a) < as_real(b));
}

/* Applies a binary operator. The result of two integers is an integer if it can be. */
static bool apply(struct error *error, const struct token *operator, struct value a, struct value b,
                  struct value *result)
{
    bool integers = is_integer(a) && is_integer(b);
    int64_t quotient, rest;

    switch (operator->kind) {
    case TOKEN_OR: *result = VALUE(is_true(a) || is_true(b)); return true;
    case TOKEN_AND: *result = VALUE(is_true(a) && is_true(b)); return true;
    case TOKEN_EQUAL: *result = VALUE(compared(a, b) == 0); return true;
    case TOKEN_UNEQUAL: *result = VALUE(compared(a, b) != 0); return true;
    case TOKEN_LESS: *result = VALUE(compared(a, b) < 0); return true;
    case TOKEN_LESS_EQUAL: *result = VALUE(compared(a, b) <= 0); return true;
    case TOKEN_GREATER: *result = VALUE(compared(a, b) > 0); return true;
    case TOKEN_GREATER_EQUAL: *result = VALUE(compared(a, b) >= 0); return true;
    case TOKEN_DIVIDE:
        if (integers && divide(a.integer, b.integer, &quotient, &rest) && rest == 0) {
            *result = VALUE(quotient);
            return true;
        }
        integers = false;
        break;
    case TOKEN_POWER:
        integers = integers && b.integer >= 0;
        break;
    default:
        break;
    }
    return integers ? on_integers(error, operator, a.integer, b.integer, result)
                    : on_reals(error, operator, as_real(a), as_real(b), result);
}

static bool apply_unary(struct error *error, const struct token *operator, struct value *value)
{
    switch (operator->kind) {
    case TOKEN_NOT:
        *value = VALUE(!is_true(*value));
        return true;
    case TOKEN_COMPLEMENT:
        value->integer = ~value->integer;
        return is_integer(*value) || needs_integers(error, operator->at);
    case TOKEN_MINUS:
        if (is_integer(*value)) {
            return subtract(0, value->integer, &value->integer) || out_of_range(error, operator->at);
        }
        value->real = -value->real;
        return true;
    default:
        return true;
    }
}

/* ------------------------------------------------------------------------------------------------------------------
 * Parser: evaluates an expression while reading it
 */

struct parser {
    struct lexer lexer;
    struct session *session;
    int depth;
    int skipping; /* how many of the enclosing expressions are read without being evaluated */
};

static bool parse_expression(struct parser *parser, struct value *result);
static bool parse_binary(struct parser *parser, int least, struct value *result);

static bool syntax_error(struct parser *parser, const char *expected)
{
    const struct token *token = &parser->lexer.token;

    if (token->kind == TOKEN_END) {
        return fail(parser->lexer.error, token->at, "expected %s at the end of the line", expected);
    }
    return fail(parser->lexer.error, token->at, "expected %s, found '%.*s'", expected, (int)token->length,
                parser->lexer.line + token->at);
}

/* Moves past a token of this kind. It is an error if the current token is of another kind. */
static bool expect(struct parser *parser, enum token_kind kind, const char *expected)
{
    return parser->lexer.token.kind == kind ? advance(&parser->lexer) : syntax_error(parser, expected);
}

static bool at_end(struct parser *parser)
{
    return parser->lexer.token.kind == TOKEN_END || syntax_error(parser, "an operator");
}

/* The arguments of a call, in parentheses. */
static bool parse_call(struct parser *parser, const struct builtin *builtin, size_t at, struct value *result)
{
    struct value arguments[MAX_ARGUMENTS];
    size_t count = 0;

    do {
        if (count == builtin->most) {
            return fail(parser->lexer.error, parser->lexer.token.at, "%s takes at most %zu arguments",
                        builtin->name, builtin->most);
        }
        if (!advance(&parser->lexer) || !parse_expression(parser, &arguments[count++])) {
            return false;
        }
    } while (parser->lexer.token.kind == TOKEN_COMMA);
    if (!expect(parser, TOKEN_CLOSE, "',' or ')'")) {
        return false;
    }
    if (count < builtin->least) {
        return fail(parser->lexer.error, at, "%s takes at least %zu arguments", builtin->name, builtin->least);
    }
    return parser->skipping > 0 || builtin->call(count, arguments, result)
        || fail(parser->lexer.error, at, "%s is undefined for this value", builtin->name);
}

/* A variable, a constant or a call. */
static bool parse_name(struct parser *parser, struct value *result)
{
    const struct token token = parser->lexer.token;
    const struct symbol *symbol;
    char name[MAX_NAME + 1];

    copy_name(name, parser->lexer.line + token.at, token.length);
    symbol = *find(parser->session, name);
    if (symbol == NULL && parser->skipping == 0) {
        return fail(parser->lexer.error, token.at, "unknown name '%s'", name);
    }
    if (!advance(&parser->lexer)) {
        return false;
    }
    if (symbol == NULL || symbol->kind != SYMBOL_BUILTIN) {
        *result = symbol != NULL ? symbol->value : VALUE(0);
        return true;
    }
    return parser->lexer.token.kind == TOKEN_OPEN ? parse_call(parser, symbol->builtin, token.at, result)
                                                  : syntax_error(parser, "'('");
}

static bool parse_operand(struct parser *parser, struct value *result)
{
    const struct token token = parser->lexer.token;

    switch (token.kind) {
    case TOKEN_NUMBER:
        *result = token.value;
        return advance(&parser->lexer);
    case TOKEN_NAME:
        return parse_name(parser, result);
    case TOKEN_OPEN:
        return advance(&parser->lexer) && parse_expression(parser, result) && expect(parser, TOKEN_CLOSE, "')'");
    case TOKEN_MINUS:
    case TOKEN_PLUS:
    case TOKEN_NOT:
    case TOKEN_COMPLEMENT:
        return advance(&parser->lexer) && parse_binary(parser, BINDING_UNARY, result)
            && (parser->skipping > 0 || apply_unary(parser->lexer.error, &token, result));
    default:
        return syntax_error(parser, "an operand");
    }
}

/* Operands with operators between them that bind at least this tightly. `**` groups from the right. The right side of
 * `||` and `&&` is evaluated only if it matters. */
static bool parse_binary(struct parser *parser, int least, struct value *result)
{
    struct value right = VALUE(0);

    if (++parser->depth > MAX_DEPTH) {
        return fail(parser->lexer.error, parser->lexer.token.at, "nested more than %d levels deep", MAX_DEPTH);
    }
    if (!parse_operand(parser, result)) {
        return false;
    }
    while (parser->lexer.token.binding >= least) {
        const struct token token = parser->lexer.token;
        const bool decided = token.kind == TOKEN_OR ? is_true(*result) : token.kind == TOKEN_AND && !is_true(*result);

        parser->skipping += decided;
        if (!advance(&parser->lexer)
            || !parse_binary(parser, token.kind == TOKEN_POWER ? token.binding : token.binding + 1, &right)) {
            return false;
        }
        parser->skipping -= decided;
        if (parser->skipping == 0 && !apply(parser->lexer.error, &token, *result, right, result)) {
            return false;
        }
    }
    --parser->depth;
    return true;
}

/* A binary expression, or `condition ? this : that`. */
static bool parse_expression(struct parser *parser, struct value *result)
{
    struct value condition, choices[2] = {{0}, {0}};

    if (!parse_binary(parser, 1, &condition)) {
        return false;
    }
    *result = condition;
    if (parser->lexer.token.kind != TOKEN_QUESTION) {
        return true;
    }
    parser->depth++;
    for (int i = 0; i < 2; i++) {
        const bool skipped = is_true(condition) == (i == 1);

        parser->skipping += skipped;
        if (!expect(parser, i == 0 ? TOKEN_QUESTION : TOKEN_COLON, "':'") || !parse_expression(parser, &choices[i])) {
            return false;
        }
        parser->skipping -= skipped;
    }
    parser->depth--;
    *result = choices[is_true(condition) ? 0 : 1];
    return true;
}

/* ------------------------------------------------------------------------------------------------------------------
 * Lines
 */

static void show_integer(char *text, int64_t integer, int base)
{
    static const char *const prefixes[] = {[2] = "0b", [8] = "0o", [10] = "", [16] = "0x"};
    uint64_t rest = integer < 0 ? -(uint64_t)integer : (uint64_t)integer;
    char digits[64 + 1], *at = digits + sizeof digits - 1;

    *at = '\0';
    do {
        *--at = "0123456789abcdef"[rest % (unsigned)base];
        rest /= (unsigned)base;
    } while (rest != 0);
    snprintf(text, RESULT_SIZE, "%s%s%s", integer < 0 ? "-" : "", prefixes[base], at);
}

/* Shows a real with as few digits as read back to it, and always with a point or an exponent. */
static void show_value(char *text, struct value value, int base)
{
    if (is_integer(value)) {
        show_integer(text, value.integer, base);
        return;
    }
    for (int digits = 15; digits <= DBL_DECIMAL_DIG; ++digits) {
        snprintf(text, RESULT_SIZE, "%.*g", digits, value.real);
        if (strtod(text, NULL) == value.real) {
            break;
        }
    }
    if (text[strspn(text, "-0123456789")] == '\0') {
        strcat(text, ".0");
    }
}

/* Whether the line starts with `name =`. Looks ahead in a copy of the lexer, and ignores errors: they come up again. */
static bool is_assignment(struct lexer lexer)
{
    struct error ignored = {.failed = false};

    lexer.error = &ignored;
    return lexer.token.kind == TOKEN_NAME && advance(&lexer) && lexer.token.kind == TOKEN_ASSIGN;
}

/* `name = expression`, or just an expression, whose value is assigned to `ans`. */
static bool run_expression(struct session *session, struct parser *parser, char *shown)
{
    const size_t at = parser->lexer.token.at;
    char name[MAX_NAME + 1] = "ans";
    struct symbol *symbol;
    struct value value;

    if (is_assignment(parser->lexer)) {
        copy_name(name, parser->lexer.line + at, parser->lexer.token.length);
        shown += sprintf(shown, "%s = ", name);
        if (!advance(&parser->lexer) || !advance(&parser->lexer)) {
            return false;
        }
    }
    if (!parse_expression(parser, &value) || !at_end(parser)) {
        return false;
    }
    symbol = define(session, name, at);
    if (symbol == NULL) {
        return false;
    }
    symbol->value = value;
    show_value(shown, value, session->base);
    return true;
}

static void print_help(void)
{
    puts(":base N  print integers in base 2, 8, 10 or 16");
    puts(":help    print this text");
    puts(":quit    exit\n\nFunctions:");
    for (size_t i = 0; i < LENGTH(BUILTINS); i++) {
        printf("    %-8s %s\n", BUILTINS[i].name, BUILTINS[i].help);
    }
    printf("Constants: pi (π ≈ %.5f), e (≈ %.5f)\n", PI, E);
}

static bool run_command(struct session *session, const char *line)
{
    char name[16] = "";
    int base = 10;
    const int words = sscanf(line, " :%15s %d", name, &base);

    if (words == 1 && strcmp(name, "help") == 0) {
        print_help();
        return true;
    }
    if (words == 1 && strcmp(name, "quit") == 0) {
        return session->done = true;
    }
    if (words == 2 && strcmp(name, "base") == 0 && (base == 2 || base == 8 || base == 10 || base == 16)) {
        session->base = base;
        return true;
    }
    return fail(&session->error, 0, "unknown command; \":help\" lists them");
}

/* Runs a line and writes its result to `shown`. If it returns false, the session has the error. */
static bool run_line(struct session *session, const char *line, char shown[static 2 * RESULT_SIZE])
{
    struct parser parser = {.lexer = {.line = line, .error = &session->error}, .session = session};

    session->error.failed = false;
    shown[0] = '\0';
    if (line[strspn(line, " \t")] == ':') {
        return run_command(session, line);
    }
    if (!advance(&parser.lexer)) {
        return false;
    }
    return parser.lexer.token.kind == TOKEN_END || run_expression(session, &parser, shown);
}

static bool open_session(struct session *session)
{
    static const struct { const char *name; const double *value; } constants[] = {{"pi", &PI}, {"e", &E}};
    struct symbol *symbol;

    *session = (struct session){.base = 10};
    for (size_t i = 0; i < LENGTH(BUILTINS); i++) {
        symbol = define(session, BUILTINS[i].name, 0);
        if (symbol == NULL) {
            return false;
        }
        symbol->kind = SYMBOL_BUILTIN;
        symbol->builtin = &BUILTINS[i];
    }
    for (size_t i = 0; i < LENGTH(constants); i++) {
        symbol = define(session, constants[i].name, 0);
        if (symbol == NULL) {
            return false;
        }
        symbol->kind = SYMBOL_CONSTANT;
        symbol->value = VALUE(*constants[i].value);
    }
    return true;
}

static void close_session(struct session *session)
{
    for (size_t i = 0; i < LENGTH(session->buckets); i++) {
        struct symbol *symbol = session->buckets[i], *next;

        for (; symbol != NULL; symbol = next) {
            next = symbol->next;
            free(symbol);
        }
    }
}

/* ------------------------------------------------------------------------------------------------------------------
 * Tests: lines, each with its result or its error message
 */

static const struct test {
    const char *line, *wanted;
} TESTS[] = {
    {"2 + 3 * 4", "14"},
    {"(2 + 3) * 4 # a comment", "20"},
    {"-2 ** 2", "-4"},
    {"2 ** 3 ** 2", "512"},
    {"2 ** -1", "0.5"},
    {"7 / 2", "3.5"}, {"8 / 2", "4"}, {"7 // -2", "-4"}, {"7 % -2", "-1"},
    {"0x7FFFFFFFFFFFFFFF + 1", "the result is out of range"},
    {"0xFFFF_FFFF_FFFF_FFFF", "-1"},
    {"-17 >> 1", "-9"},
    {"1 << 62", "4611686018427387904"},
    {"6 & 3 | 8 ^ 1", "11"},
    {"1 < 2 && 2 < 1 || !0", "1"},
    {"0 && 1 / 0", "0"},
    {"1 / 0", "division by zero"},
    {"1 == 1.0 ? 'y' : 'n'", "121"},
    {"'\\n' + '\\'' + '\"'", "83"},
    {"x = 0b1010", "x = 10"},
    {"y", "unknown name 'y'"},
    {"x < 0 ? y : sqrt(x * x - 6 * 6)", "8.0"},
    {"sqrt(-1)", "sqrt is undefined for this value"},
    {"max()", "expected an operand, found ')'"},
    {"max(1, 2", "expected ',' or ')' at the end of the line"},
    {"sqrt(2)", "1.414213562373095"}, /* √2 */ {"pi * 2", "6.283185307179586"}, /* 2π */
    {"sqrt(1e-300) == 1e-150", "1"},
    {"pi = 3", "'pi' can't be redefined"},
    {"max(1, 2.5, x)", "10"},
    {"abs(-3) + floor(-2.5) + bits(0xF0)", "4"},
    {"1e400", "the number is too large"},
    {"3 $ 4", "unexpected character '$'"},
    {"(1", "expected ')' at the end of the line"},
    {"1 2", "expected an operator, found '2'"},
    {":base 16", ""},
    {"-255", "-0xff"},
};

static int run_tests(void)
{
    struct session session;
    char shown[2 * RESULT_SIZE];
    int failed = 0;

    if (!open_session(&session)) {
        return EXIT_FAILURE; // out of memory
    }
    for (const struct test *it = TESTS; it < TESTS + LENGTH(TESTS); it++) {
        const char *found = run_line(&session, it->line, shown) ? shown : session.error.message;

        if (strcmp(found, it->wanted) != 0) {
            printf("%s\n\twanted \"%s\"\n\tfound  \"%s\"\n", it->line, it->wanted, found);
            failed++;
        }
    }
    close_session(&session);
    printf("%zu passed, %d failed\n", LENGTH(TESTS) - (size_t)failed, failed);
    return failed == 0 ? EXIT_SUCCESS : EXIT_FAILURE;
}

/* ------------------------------------------------------------------------------------------------------------------
 * Main program
 */

static _Noreturn void out_of_memory(void)
{
    fputs("calculator: out of memory\n", stderr);
    exit(EXIT_FAILURE);
}

/* The next line of the file without its line feed, or NULL at the end. The caller frees it. */
static char *read_line(FILE *file)
{
    size_t length = 0, size = 0;
    char *line = NULL;
    int c;

    while ((c = getc(file)) != EOF || length > 0) {
        if (length == size) {
            size = size == 0 ? 80 : size * 2;
            line = realloc(line, size);
            if (line == NULL) {
                out_of_memory();
            }
        }
        if (c == EOF || c == '\n') {
            line[length] = '\0';
            return line;
        }
        line[length++] = (char)c;
    }
    return NULL;
}

/* Runs a line and prints its result, or its error with a caret under the place. */
static bool run_and_print(struct session *session, const char *line)
{
    char shown[2 * RESULT_SIZE];
    const bool fine = run_line(session, line, shown);

    if (!fine) {
        fprintf(stderr, "error: %s\n    %s\n    %*s^\n", session->error.message, line, (int)session->error.at, "");
    } else if (shown[0] != '\0') {
        puts(shown);
    }
    return fine;
}

static _Noreturn void usage(FILE *file, int status)
{
    fputs("usage: calculator [--test | --version | --help] [LINE ...]\n"
          "Evaluates each LINE, or each line of standard input.\n", file);
    exit(status);
}

int main(int argc, char *argv[])
{
    struct session session;
    bool fine = true;
    char *line;

    if (argc == 2 && strcmp(argv[1], "--test") == 0) {
        return run_tests();
    }
    if (argc == 2 && strcmp(argv[1], "--version") == 0) {
        puts("calculator " VERSION);
        return EXIT_SUCCESS;
    }
    if (argc > 1 && strncmp(argv[1], "--", 2) == 0) {
        usage(strcmp(argv[1], "--help") == 0 ? stdout : stderr, strcmp(argv[1], "--help") == 0 ? 0 : 2);
    }
    if (!open_session(&session)) {
        out_of_memory();
    }
    for (int i = 1; i < argc && !session.done; i++) {
        fine &= run_and_print(&session, argv[i]);
    }
    while (argc == 1 && !session.done && (line = read_line(stdin)) != NULL) {
        fine &= run_and_print(&session, line);
        free(line);
    }
    close_session(&session);
    return fine ? EXIT_SUCCESS : EXIT_FAILURE;
}
