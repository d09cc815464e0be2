/* cut RULES TEXT [RULES TEXT ..]: cuts each text by its file of rules. A token is a line LINE:COLUMN NAME "SLICE"; a fault has the name
   `!`, and skipped tokens have no line. With several texts each line begins with `TEXT:`. The status is 0, 1 after a fault, 2 or 3 if
   there is no lexer, 4, 5 or 6 if arguments, memory or a file are missing; of several the greatest. */
#include <stdio.h>
#include <string.h>
#include "bajofeki.h"

enum { ROOM = 256 };

typedef struct {
    char *bytes; /* with a 0 after them */
    size_t length;
} file;

static file read_file(const char *path) {
    file content = {malloc(1), 0};
    FILE *stream = fopen(path, "rb");
    size_t room = 1, count = 1;
    while (stream != NULL && content.bytes != NULL && count > 0) {
        if (content.length + 1 == room) {
            content.bytes = realloc(content.bytes, room = 2 * room + 4096);
        }
        if (content.bytes != NULL) {
            count = fread(content.bytes + content.length, 1, room - 1 - content.length, stream);
            content.length += count;
        }
    }
    if (content.bytes == NULL || stream == NULL || ferror(stream)) {
        perror(path);
        exit(6);
    }
    fclose(stream);
    content.bytes[content.length] = 0;
    return content;
}

static void write_quoted(const char *bytes, size_t length) {
    static const char escaped[] = "\"\\\n\r\t", letters[] = "\"\\nrt";
    putchar('"');
    for (size_t i = 0; i < length; i++) {
        unsigned char c = (unsigned char)bytes[i];
        const char *escape = memchr(escaped, c, sizeof escaped - 1);
        if (escape != NULL) {
            printf("\\%c", letters[escape - escaped]);
        } else {
            printf(c < 0x20 || c == 0x7F ? "\\u{%x}" : "%c", c);
        }
    }
    putchar('"');
}

static void write_name(FILE *out, const bajofeki_lexer *lexer, size_t rule) {
    char name[ROOM];
    size_t length = bajofeki_lexer_name(lexer, rule, name, ROOM);
    fwrite(name, 1, length < ROOM ? length : ROOM, out);
}

static void say_word(const bajofeki_lexer *lexer) {
    uint32_t word[ROOM];
    size_t length = bajofeki_lexer_word(lexer, word, ROOM);
    fputs(" clash: both match \"", stderr);
    for (size_t i = 0; i < length && i < ROOM; i++) {
        bool is_plain = word[i] >= 0x20 && word[i] < 0x7F && word[i] != '"' && word[i] != '\\';
        fprintf(stderr, is_plain ? "%c" : "\\u{%x}", word[i]);
    }
    fputs("\", and neither wins\n", stderr);
}

/* Says why there is no lexer, and gives the status. */
static int say_report(const char *path, const bajofeki_lexer *lexer) {
    static const char *const reasons[] = {"", "this is no line of a file of rules", "the text of this rule doesn't parse",
        "the end of this rule is empty or has more than 64 characters", "this rule can't be compiled", "",
        "there are no rules, or too many, or they are too large for a table", "out of memory", "", "out of memory", "",
        "the library and its header have two versions"};
    static const int statuses[] = {0, 3, 3, 3, 2, 2, 2, 5, 5, 5, 5, 5};
    bajofeki_report_t report = bajofeki_lexer_report(lexer);
    fprintf(stderr, "cut: %s: ", path);
    if (report.line > 0) {
        fprintf(stderr, "line %zu, column %zu: ", report.line, report.column);
    }
    if (report.code >= BAJOFEKI_NOT_PARSED && report.code <= BAJOFEKI_CLASH) {
        write_name(stderr, lexer, report.rule);
        fputs(report.code == BAJOFEKI_CLASH ? " and " : ": ", stderr);
    }
    if (report.code == BAJOFEKI_CLASH) {
        write_name(stderr, lexer, report.other);
        fprintf(stderr, " (line %zu, column %zu)", report.other_line, report.other_column);
        say_word(lexer);
    } else if (report.code == BAJOFEKI_NOT_PARSED) {
        fprintf(stderr, "%s from byte %zu on\n", reasons[report.code], report.position);
    } else {
        fprintf(stderr, "%s\n", reasons[report.code]);
    }
    return statuses[report.code];
}

static void write_piece(const char *front, bajofeki_text *text, const bajofeki_piece_t *piece) {
    bajofeki_place_t place = bajofeki_text_place(text, piece->start);
    printf("%s%zu:%zu ", front, place.line, place.column);
    if (piece->kind == BAJOFEKI_FAULT) {
        putchar('!');
    } else {
        write_name(stdout, text->lexer, piece->rule);
    }
    putchar(' ');
    write_quoted(text->bytes + piece->start, piece->length);
    putchar('\n');
}

/* Cuts a text, and gives the status. */
static int cut_text(const char *path, const char *front, const file *bytes, const bajofeki_lexer *lexer) {
    bajofeki_piece_t pieces[ROOM];
    bajofeki_text text = bajofeki_text_begin(lexer, bytes->bytes, bytes->length);
    bajofeki_cut_t cut;
    int status = 0;
    do {
        cut = bajofeki_text_next(&text, pieces, ROOM);
        for (size_t i = 0; i < cut.count; i++) {
            if (pieces[i].kind != BAJOFEKI_SKIPPED) {
                write_piece(front, &text, &pieces[i]);
            }
            status = pieces[i].kind == BAJOFEKI_FAULT ? 1 : status;
        }
    } while (cut.code == BAJOFEKI_FULL);
    if (cut.code != BAJOFEKI_DONE) {
        bajofeki_place_t place = bajofeki_text_place(&text, cut.end);
        const char *reason = cut.code == BAJOFEKI_TOO_DEEP ? "more than 1024 modes lie below the top" : "out of memory";
        fprintf(stderr, "cut: %s:%zu:%zu: %s\n", path, place.line, place.column, reason);
        status = cut.code == BAJOFEKI_TOO_DEEP ? 1 : 5;
    }
    bajofeki_text_end(&text);
    return status;
}

int main(int count, char **words) {
    int greatest = 0;
    if (count < 3 || count % 2 == 0) {
        fputs("cut: usage: cut RULES TEXT [RULES TEXT ..]\n", stderr);
        return 4;
    }
    for (int i = 1; i < count; i += 2) {
        char front[4096] = "";
        file rules = read_file(words[i]), bytes = read_file(words[i + 1]);
        bajofeki_lexer *lexer = bajofeki_lexer_new(rules.bytes, rules.length);
        int status;
        if (count > 3) {
            snprintf(front, sizeof front, "%s:", words[i + 1]);
        }
        if (bajofeki_lexer_report(lexer).code == BAJOFEKI_BUILT) {
            status = cut_text(words[i + 1], front, &bytes, lexer);
        } else {
            status = say_report(words[i], lexer);
        }
        greatest = status > greatest ? status : greatest;
        bajofeki_lexer_delete(lexer);
        free(rules.bytes);
        free(bytes.bytes);
    }
    return greatest;
}
