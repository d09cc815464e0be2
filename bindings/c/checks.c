/* checks RULES TEXT [RULES TEXT ..]: calls each function of the header, with null pointers, arrays that are too short, the texts whole and
   with bytes spoilt, and memory refused, and stops at the first wrong answer. Run under sanitizers it shows that no access goes astray. C and
   C++, to be linked with the archive and -Wl,--wrap=malloc,--wrap=realloc,--wrap=free. */
#include <stdio.h>
#include <string.h>
/* The header asks for the version here. */
#define bajofeki_version version_found
#include "bajofeki.h"
#undef bajofeki_version

#define CHECK(fact) ((fact) ? (void)0 : fail(__LINE__, #fact))

static void fail(int line, const char *fact) {
    fprintf(stderr, "checks: line %d: %s\n", line, fact);
    exit(1);
}

uint32_t bajofeki_version(void);
static uint32_t newer = 0; /* how much newer the library seems */

uint32_t version_found(void) {
    return bajofeki_version() + newer;
}

static size_t granted = SIZE_MAX; /* how many further requests for memory are granted */
/* How many blocks of memory were given and not freed. Compilers take it that free changes no variable here. */
static volatile size_t blocks = 0;

void *__real_malloc(size_t size);
void *__wrap_malloc(size_t size);
void *__real_realloc(void *old, size_t size);
void *__wrap_realloc(void *old, size_t size);
void __real_free(void *at);
void __wrap_free(void *at);

static bool is_granted(void) {
    return granted == SIZE_MAX || (granted > 0 && granted-- > 0);
}

void *__wrap_malloc(size_t size) {
    void *at = is_granted() ? __real_malloc(size) : NULL;
    blocks += (size_t)(at != NULL);
    return at;
}

void *__wrap_realloc(void *old, size_t size) {
    void *at = is_granted() ? __real_realloc(old, size) : NULL;
    blocks += (size_t)(at != NULL && old == NULL);
    return at;
}

void __wrap_free(void *at) {
    blocks -= (size_t)(at != NULL);
    __real_free(at);
}

static void check_no_lexer(void) {
    bajofeki_piece_t piece;
    bajofeki_text text = bajofeki_text_begin(NULL, "a", 1);
    CHECK(bajofeki_lexer_new(NULL, 1) == NULL && bajofeki_lexer_new("", SIZE_MAX) == NULL);
    CHECK(bajofeki_lexer_report(NULL).code == BAJOFEKI_NO_LEXER);
    CHECK(bajofeki_lexer_word(NULL, NULL, 0) == 0 && bajofeki_lexer_rules(NULL) == 0);
    CHECK(bajofeki_lexer_name(NULL, 0, NULL, 0) == 0 && !bajofeki_lexer_skips(NULL, 0));
    CHECK(bajofeki_lexer_modes(NULL) == 0 && bajofeki_lexer_lookahead(NULL, 0).code == BAJOFEKI_NO_LEXER);
    CHECK(bajofeki_lexer_mode_name(NULL, 0, NULL, 0) == 0 && bajofeki_lexer_action(NULL, 0, 0).kind == BAJOFEKI_NO_ACTION);
    CHECK(bajofeki_lexer_html(NULL, "a", 1, NULL, 0).code == BAJOFEKI_NO_LEXER);
    CHECK(bajofeki_lexer_ansi(NULL, NULL, 0, NULL, 0).code == BAJOFEKI_NO_LEXER);
    CHECK(bajofeki_lexer_c_source(NULL, "lex", 3, NULL, 0).code == BAJOFEKI_NO_LEXER);
    CHECK(bajofeki_lexer_rust_source(NULL, NULL, 0).code == BAJOFEKI_NO_LEXER);
    CHECK(text.code == BAJOFEKI_NO_LEXER && bajofeki_text_next(&text, &piece, 1).code == BAJOFEKI_NO_LEXER);
    CHECK(bajofeki_text_place(&text, 1).line == 0 && bajofeki_text_place(NULL, 1).line == 0);
    CHECK(bajofeki_text_next(NULL, &piece, 1).code == BAJOFEKI_BAD_ARGUMENT);
    bajofeki_text_begin_again(&text, NULL, "a", 1);
    CHECK(text.code == BAJOFEKI_NO_LEXER && text.cutter == NULL);
    bajofeki_text_end(&text);
    bajofeki_text_end(NULL);
    bajofeki_lexer_delete(NULL);
    CHECK(bajofeki_document_new(NULL) == NULL && bajofeki_document_edit(NULL, 0, 0, "a", 1).code == BAJOFEKI_NO_LEXER);
    CHECK(bajofeki_document_pieces(NULL, 0, 1, &piece, 1).code == BAJOFEKI_NO_LEXER && bajofeki_document_text(NULL, 0, NULL, 0) == 0);
    CHECK(bajofeki_document_place(NULL, 0).line == 0 && bajofeki_document_offset(NULL, 1, 1).line == 0);
    CHECK(bajofeki_stream_new(NULL) == NULL && bajofeki_stream_feed(NULL, "a", 1, true) == BAJOFEKI_NO_LEXER);
    CHECK(bajofeki_stream_next(NULL, &piece, 1).code == BAJOFEKI_NO_LEXER);
    bajofeki_document_delete(NULL);
    bajofeki_stream_delete(NULL);
}

static void check_rules(void) {
    static const char clash[] = "ABC = /ab|c/\nDEF = /[b-d]+/\nGHI skip = /ab/\n", rule[] = "ABC skip = 'a'";
    bajofeki_lexer *lexer = bajofeki_lexer_new(clash, strlen(clash)), *empty = bajofeki_lexer_new(NULL, 0);
    bajofeki_report_t report = bajofeki_lexer_report(lexer);
    uint32_t word[2] = {7, 7};
    char name[4] = "???";
    CHECK(report.code == BAJOFEKI_CLASH && report.line == 2 && report.column == 8 && report.rule == 1);
    CHECK(report.other == 0 && report.other_line == 1 && report.other_column == 8);
    CHECK(bajofeki_lexer_word(lexer, NULL, 5) == 1 && bajofeki_lexer_word(lexer, word, 0) == 1 && word[0] == 7);
    CHECK(bajofeki_lexer_word(lexer, word, 2) == 1 && word[0] == 'c' && word[1] == 7);
    CHECK(bajofeki_lexer_rules(lexer) == 3 && !bajofeki_lexer_skips(lexer, 2) && bajofeki_lexer_name(lexer, 3, name, 2) == 0);
    CHECK(bajofeki_lexer_name(lexer, 2, name, 2) == 3 && strcmp(name, "GH?") == 0);
    CHECK(bajofeki_lexer_report(empty).code == BAJOFEKI_TOO_LARGE && bajofeki_lexer_rules(empty) == 0);
    bajofeki_lexer_delete(lexer);
    bajofeki_lexer_delete(empty);
    lexer = (bajofeki_lexer *)malloc(bajofeki_lexer_size());
    bajofeki_build(lexer, rule, strlen(rule));
    CHECK(bajofeki_lexer_report(lexer).code == BAJOFEKI_BUILT && bajofeki_lexer_word(lexer, word, 2) == 0);
    CHECK(bajofeki_lexer_rules(lexer) == 1 && bajofeki_lexer_skips(lexer, 0) && !bajofeki_lexer_skips(lexer, 1));
    CHECK(bajofeki_lexer_name(lexer, 0, name, 2) == 3 && strcmp(name, "AB?") == 0 && bajofeki_lexer_name(lexer, 1, name, 2) == 0);
    bajofeki_free(lexer);
    CHECK(bajofeki_report(lexer).code == BAJOFEKI_FREED && bajofeki_rules(lexer) == 0);
    free(lexer);
    CHECK(bajofeki_version() == BAJOFEKI_VERSION);
}

/* A library of another version answers nothing about rules. */
static void check_version(void) {
    newer = 1;
    CHECK(bajofeki_lexer_new("A = 'a'", 7) == NULL && bajofeki_lexer_report(NULL).code == BAJOFEKI_OTHER_VERSION);
    CHECK(bajofeki_rules_check(NULL, "", 0, false, NULL, 0).code == BAJOFEKI_OTHER_VERSION);
    CHECK(bajofeki_rules_diff(NULL, "", 0, NULL, "", 0, NULL, 0).code == BAJOFEKI_OTHER_VERSION);
    CHECK(bajofeki_rules_dot(NULL, "", 0, NULL, NULL, 0).code == BAJOFEKI_OTHER_VERSION);
    newer = 0;
}

/* Both pages of a text with an array of just their size, and of one byte less. */
static void check_pages(const bajofeki_lexer *lexer, const char *text, size_t length) {
    for (int i = 0; i < 2; i++) {
        bajofeki_page_t (*shows)(const bajofeki_lexer *, const char *, size_t, char *, size_t) = i ? bajofeki_lexer_ansi : bajofeki_lexer_html;
        bajofeki_page_t page = shows(lexer, text, length, NULL, 0);
        char *all = (char *)malloc(page.length + 1), *part = (char *)malloc(page.length + 1);
        memset(part, '?', page.length + 1);
        CHECK(page.code == BAJOFEKI_SHOWN || (page.code == BAJOFEKI_NOT_UTF8 && page.length == 0));
        CHECK(shows(lexer, text, length, all, page.length).length == page.length);
        CHECK(shows(lexer, text, length, part, page.length / 2).length == page.length);
        CHECK(memcmp(all, part, page.length / 2) == 0 && part[page.length / 2] == '?');
        free(all);
        free(part);
    }
    CHECK(bajofeki_lexer_html(lexer, NULL, 1, NULL, 0).code == BAJOFEKI_BAD_ARGUMENT);
    CHECK(bajofeki_lexer_lookahead(lexer, bajofeki_lexer_modes(lexer)).code == BAJOFEKI_NO_LEXER);
    CHECK(bajofeki_lexer_modes(lexer) > 0 && bajofeki_lexer_lookahead(lexer, 0).code <= BAJOFEKI_UNBOUNDED);
}

/* The names of the modes, with an array that is too small too, and what the rules do to the stack. */
static void check_modes(const bajofeki_lexer *lexer) {
    size_t modes = bajofeki_lexer_modes(lexer), length;
    for (size_t mode = 0; mode <= modes; mode++) {
        char all[64] = {0}, part[64] = {0};
        length = bajofeki_lexer_mode_name(lexer, mode, all, sizeof all);
        CHECK((length > 0) == (mode < modes) && length < sizeof all && strlen(all) == length);
        CHECK(bajofeki_lexer_mode_name(lexer, mode, part, length / 2) == length);
        CHECK(strlen(part) == length / 2 && memcmp(all, part, length / 2) == 0);
    }
    for (size_t rule = 0; rule <= bajofeki_lexer_rules(lexer); rule++) {
        bajofeki_action_t action = bajofeki_lexer_action(lexer, rule, 0);
        for (size_t place = 1; action.kind != BAJOFEKI_NO_ACTION; place++) {
            CHECK(rule < bajofeki_lexer_rules(lexer) && action.mode < modes);
            CHECK(action.kind <= BAJOFEKI_PUSH || (action.kind == BAJOFEKI_POP && action.mode == 0));
            action = bajofeki_lexer_action(lexer, rule, place);
        }
    }
}

static bajofeki_page_t rust_source(const bajofeki_lexer *lexer, const char *prefix, size_t length, char *out, size_t room) {
    CHECK(length == strlen(prefix));
    return bajofeki_lexer_rust_source(lexer, out, room);
}

/* A source file in either language, into an array of just its size and into the half of one, and names that can't stand in it. */
static void check_sources(void) {
    static const char rules[] = "LET = 'let'\n", bad[] = "self = 'a'\n";
    bajofeki_lexer *lexer = bajofeki_lexer_new(rules, strlen(rules)), *self = bajofeki_lexer_new(bad, strlen(bad));
    for (int i = 0; i < 2; i++) {
        bajofeki_page_t (*writes)(const bajofeki_lexer *, const char *, size_t, char *, size_t) = i ? rust_source : bajofeki_lexer_c_source;
        bajofeki_page_t page = writes(lexer, "lex", 3, NULL, 0);
        char *all = (char *)malloc(page.length), *part = (char *)malloc(page.length);
        memset(part, '?', page.length);
        CHECK(page.code == BAJOFEKI_SHOWN && writes(lexer, "lex", 3, all, page.length).length == page.length);
        CHECK(writes(lexer, "lex", 3, part, page.length / 2).length == page.length);
        CHECK(memcmp(all, part, page.length / 2) == 0 && part[page.length / 2] == '?');
        CHECK(memcmp(all, i ? "// A lexer in Rust" : "/* lex: a lexer in C", 18) == 0);
        free(all);
        free(part);
    }
    CHECK(bajofeki_lexer_c_source(lexer, "1ex", 3, NULL, 0).code == BAJOFEKI_BAD_NAME);
    CHECK(bajofeki_lexer_c_source(lexer, NULL, 0, NULL, 0).code == BAJOFEKI_BAD_NAME);
    CHECK(bajofeki_lexer_c_source(lexer, "\xFF", 1, NULL, 0).code == BAJOFEKI_BAD_NAME);
    CHECK(bajofeki_lexer_c_source(lexer, NULL, 1, NULL, 0).code == BAJOFEKI_BAD_ARGUMENT);
    CHECK(bajofeki_lexer_rust_source(self, NULL, 0).code == BAJOFEKI_BAD_NAME);
    bajofeki_lexer_delete(lexer);
    bajofeki_lexer_delete(self);
}

/* A check of rules that are clean, that clash, and that have a bad line, into an array of just its size and into the half of one. */
static void check_checks(void) {
    static const char *const files[] = {"A = 'a'\n", "A = 'a'\nB = 'a'\n", "A\n"};
    static const uint32_t codes[] = {BAJOFEKI_CLEAN, BAJOFEKI_REFUSED, BAJOFEKI_UNREAD};
    for (size_t i = 0; i < 3; i++) {
        size_t length = strlen(files[i]);
        bajofeki_checked_t checked = bajofeki_rules_check("f", files[i], length, true, NULL, 0);
        char *all = (char *)malloc(checked.length + 1), *part = (char *)malloc(checked.length + 1);
        memset(part, '?', checked.length + 1);
        CHECK(checked.code == codes[i] && (checked.found > 0) == (i < 2) && (checked.length > checked.found) == (i == 2));
        CHECK(bajofeki_rules_check("f", files[i], length, true, all, checked.length).length == checked.length);
        CHECK(bajofeki_rules_check("f", files[i], length, true, part, checked.length / 2).length == checked.length);
        CHECK(memcmp(all, part, checked.length / 2) == 0 && part[checked.length / 2] == '?');
        CHECK(i != 1 || memcmp(all, "{\"file\":\"f\",\"line\":2,", 21) == 0);
        CHECK(i != 2 || memcmp(all, "tokens: f:1:", 12) == 0);
        free(all);
        free(part);
    }
    CHECK(bajofeki_rules_check(NULL, NULL, 0, false, NULL, 0).code == BAJOFEKI_FOUND);
    CHECK(bajofeki_rules_check(NULL, NULL, 1, false, NULL, 0).code == BAJOFEKI_BAD_ARGUMENT);
    CHECK(bajofeki_rules_check("\xFF", "", 0, true, NULL, 0).code == BAJOFEKI_BAD_ARGUMENT);
}

static bajofeki_checked_t differ(const char *rules, char *out, size_t room) {
    static const char other[] = "A = 'a'\n";
    return bajofeki_rules_diff("f", rules, strlen(rules), "g", other, sizeof other - 1, out, room);
}

static bajofeki_checked_t draw(const char *rules, char *out, size_t room) {
    return bajofeki_rules_dot("f", rules, strlen(rules), "A", out, room);
}

/* Differences and pictures, of which there are none, some, or which are refused, into an array of just their size and into the half of one. */
static void check_comparisons(void) {
    static const struct {
        bajofeki_checked_t (*call)(const char *, char *, size_t);
        const char *rules;
        uint32_t code;
        const char *front;
    } cases[] = {{differ, "A = 'a'\n", BAJOFEKI_CLEAN, ""},
                 {differ, "B = 'a'\n", BAJOFEKI_FOUND, "\"a\" is B in f, and A in g\n"},
                 {differ, "A\n", BAJOFEKI_UNREAD, "tokens: f:1:"},
                 {draw, "A = 'a'\n", BAJOFEKI_CLEAN, "digraph"},
                 {draw, "B = 'a'\n", BAJOFEKI_NO_RULE, "tokens: f: no rule has the name \"A\""},
                 {draw, "A = 'a'\nB = 'a'\n", BAJOFEKI_REFUSED, "tokens: f:2:"}};
    for (size_t i = 0; i < sizeof cases / sizeof *cases; i++) {
        bajofeki_checked_t checked = cases[i].call(cases[i].rules, NULL, 0);
        char *all = (char *)malloc(checked.length + 1), *part = (char *)malloc(checked.length + 1);
        memset(part, '?', checked.length + 1);
        CHECK(checked.code == cases[i].code && checked.found == (checked.code > BAJOFEKI_FOUND ? 0 : checked.length));
        CHECK(cases[i].call(cases[i].rules, all, checked.length).length == checked.length);
        CHECK(cases[i].call(cases[i].rules, part, checked.length / 2).length == checked.length);
        CHECK(memcmp(all, part, checked.length / 2) == 0 && part[checked.length / 2] == '?');
        CHECK(strlen(cases[i].front) <= checked.length && memcmp(all, cases[i].front, strlen(cases[i].front)) == 0);
        free(all);
        free(part);
    }
    CHECK(bajofeki_rules_diff(NULL, NULL, 0, NULL, NULL, 0, NULL, 0).code == BAJOFEKI_CLEAN);
    CHECK(bajofeki_rules_diff(NULL, NULL, 0, NULL, NULL, 1, NULL, 0).code == BAJOFEKI_BAD_ARGUMENT);
    CHECK(bajofeki_rules_diff(NULL, NULL, 1, NULL, NULL, 0, NULL, 0).code == BAJOFEKI_BAD_ARGUMENT);
    CHECK(bajofeki_rules_diff("f", "", 0, "\xFF", "", 0, NULL, 0).code == BAJOFEKI_BAD_ARGUMENT);
    CHECK(bajofeki_rules_diff("\xFF", "", 0, "g", "", 0, NULL, 0).code == BAJOFEKI_BAD_ARGUMENT);
    CHECK(bajofeki_rules_dot(NULL, "A = 'a'\n", 8, NULL, NULL, 0).code == BAJOFEKI_CLEAN);
    CHECK(bajofeki_rules_dot(NULL, NULL, 1, NULL, NULL, 0).code == BAJOFEKI_BAD_ARGUMENT);
    CHECK(bajofeki_rules_dot("\xFF", "", 0, NULL, NULL, 0).code == BAJOFEKI_BAD_ARGUMENT);
    CHECK(bajofeki_rules_dot(NULL, "", 0, "\xFF", NULL, 0).code == BAJOFEKI_BAD_ARGUMENT);
}

static bool is_place(bajofeki_place_t place, size_t at, size_t line, size_t column) {
    return place.at == at && place.line == line && place.column == column;
}

/* Columns in a text whose characters have one to four bytes, and where two bytes are none, asked for one after another and at once. */
static void check_columns(void) {
    static const char text[] = "ab\n\xC3\xA9\xE6\xBC\xA2\xF0\x9F\x98\x80x\xFF\x80y";
    static const size_t offsets[] = {0, 2, 3, 5, 8, 12, 13, 14, 15, 16}, length = sizeof text - 1;
    static const size_t columns[3][10] = {{1, 3, 1, 3, 6, 10, 11, 12, 13, 14}, {1, 3, 1, 2, 3, 4, 5, 6, 6, 7}, {1, 3, 1, 2, 3, 5, 6, 7, 7, 8}};
    const bajofeki_place_t first = {0, 1, 1}, last = {16, 2, 1};
    for (uint32_t of = 0; of < 3; of++) {
        bajofeki_place_t place = first;
        for (size_t i = 0; i < 10; i++) {
            place = bajofeki_place_from(place, text, length, offsets[i], of);
            CHECK(is_place(place, offsets[i], offsets[i] < 3 ? 1 : 2, columns[of][i]));
            CHECK(is_place(bajofeki_place_from(first, text, length, offsets[i], of), place.at, place.line, place.column));
        }
        CHECK(bajofeki_place_from(first, text, length, 99, of).at == length && bajofeki_place_from(first, NULL, 0, 1, of).column == 1);
    }
    CHECK(is_place(bajofeki_place_from(last, text, length, 15, BAJOFEKI_BYTES), 0, 0, 0));
    CHECK(is_place(bajofeki_place_from(last, text, 15, 17, BAJOFEKI_BYTES), 0, 0, 0));
    CHECK(is_place(bajofeki_place_from(first, NULL, 1, 0, BAJOFEKI_UTF16), 0, 0, 0));
    CHECK(is_place(bajofeki_place_from(first, text, length, 0, 3), 0, 0, 0));
}

static void check_arguments(const bajofeki_lexer *lexer) {
    bajofeki_piece_t piece;
    bajofeki_text none = bajofeki_text_begin(lexer, NULL, 1), empty = bajofeki_text_begin(lexer, NULL, 0);
    bajofeki_text text = bajofeki_text_begin(lexer, "a", 1);
    CHECK(none.code == BAJOFEKI_BAD_ARGUMENT && bajofeki_text_begin(lexer, "a", SIZE_MAX).code == BAJOFEKI_BAD_ARGUMENT);
    CHECK(bajofeki_text_next(&empty, NULL, 0).code == BAJOFEKI_DONE && bajofeki_text_place(&empty, 5).at == 0);
    CHECK(bajofeki_text_next(&text, NULL, 0).code == BAJOFEKI_FULL && bajofeki_text_next(&text, NULL, 1).code == BAJOFEKI_BAD_ARGUMENT);
    CHECK(bajofeki_text_next(&text, &piece, SIZE_MAX / 2).code == BAJOFEKI_BAD_ARGUMENT);
    bajofeki_text_end(&none);
    bajofeki_text_end(&empty);
    bajofeki_text_end(&text);
    CHECK(bajofeki_text_next(&text, &piece, 1).code == BAJOFEKI_NO_LEXER && bajofeki_text_place(&text, 1).line == 0);
    bajofeki_text_end(&text);
}

static bool is_piece(bajofeki_piece_t piece, uint32_t kind, size_t rule, size_t start, size_t length) {
    return piece.kind == kind && piece.rule == rule && piece.start == start && piece.length == length;
}

static const char three[] = "LET = 'let'\nNAME = /[a-z]+/\nSPACE skip = /\\s+/\n";

/* A document, edited to "let é\nxy", and what it refuses. */
static void check_document(void) {
    bajofeki_lexer *lexer = bajofeki_lexer_new(three, strlen(three)), *clash = bajofeki_lexer_new("A = /a/\nB = /a/", 15);
    bajofeki_document *document = bajofeki_document_new(lexer), *none = bajofeki_document_new(clash);
    bajofeki_piece_t pieces[8];
    bajofeki_edit_t edit = bajofeki_document_edit(document, 0, 0, "letter\nx", 8);
    char text[8] = "???????";
    CHECK(edit.code == BAJOFEKI_DONE && edit.first == 0 && edit.removed == 0 && edit.inserted == 3 && edit.new_end == 8);
    edit = bajofeki_document_edit(document, 8, 8, "y", 1);
    CHECK(edit.code == BAJOFEKI_DONE && edit.first == 2 && edit.removed == 1 && edit.inserted == 1);
    CHECK(edit.start == 7 && edit.old_end == 8 && edit.new_end == 9);
    CHECK(bajofeki_document_edit(document, 3, 6, " \xC3\xA9", 3).code == BAJOFEKI_DONE);
    CHECK(bajofeki_document_text(document, 0, NULL, 5) == 9 && bajofeki_document_text(document, 4, text, 3) == 5);
    CHECK(strcmp(text, "\xC3\xA9\n????") == 0 && bajofeki_document_text(document, 99, text, 3) == 0);
    CHECK(bajofeki_document_pieces(document, 0, SIZE_MAX, NULL, 5).count == 5);
    CHECK(bajofeki_document_pieces(document, 0, SIZE_MAX, pieces, 8).count == 5 && is_piece(pieces[0], BAJOFEKI_TOKEN, 0, 0, 3));
    CHECK(is_piece(pieces[1], BAJOFEKI_SKIPPED, 2, 3, 1) && is_piece(pieces[2], BAJOFEKI_FAULT, 0, 4, 2));
    CHECK(is_piece(pieces[4], BAJOFEKI_TOKEN, 1, 7, 2));
    CHECK(bajofeki_document_pieces(document, 8, 9, pieces, 1).count == 1 && is_piece(pieces[0], BAJOFEKI_TOKEN, 1, 7, 2));
    CHECK(bajofeki_document_pieces(document, 2, 7, pieces, 1).count == 4 && is_piece(pieces[0], BAJOFEKI_TOKEN, 0, 0, 3));
    CHECK(is_piece(pieces[1], BAJOFEKI_SKIPPED, 2, 3, 1) && bajofeki_document_pieces(document, 9, 99, pieces, 8).count == 0);
    CHECK(bajofeki_document_place(document, 8).line == 2 && bajofeki_document_place(document, 8).column == 2);
    CHECK(bajofeki_document_place(document, 6).column == 6 && bajofeki_document_place(document, 5).line == 0);
    CHECK(bajofeki_document_place(document, 10).line == 0 && bajofeki_document_place(document, 9).column == 3);
    CHECK(bajofeki_document_offset(document, 2, 2).at == 8 && bajofeki_document_offset(document, 2, 9).line == 0);
    CHECK(bajofeki_document_edit(document, 5, 6, "", 0).code == BAJOFEKI_BAD_RANGE && bajofeki_document_edit(document, 3, 2, "", 0).code == BAJOFEKI_BAD_RANGE);
    CHECK(bajofeki_document_edit(document, 0, 10, NULL, 0).code == BAJOFEKI_BAD_RANGE);
    CHECK(bajofeki_document_edit(document, 0, 0, "\xFF", 1).code == BAJOFEKI_NOT_UTF8);
    CHECK(bajofeki_document_edit(document, 0, 0, NULL, 1).code == BAJOFEKI_BAD_ARGUMENT);
    CHECK(bajofeki_document_edit(document, 0, 0, "a", SIZE_MAX).code == BAJOFEKI_BAD_ARGUMENT && bajofeki_document_text(document, 0, NULL, 0) == 9);
    CHECK(bajofeki_document_edit(document, 0, 9, NULL, 0).removed == 5 && bajofeki_document_pieces(document, 0, 9, pieces, 8).count == 0);
    CHECK(bajofeki_document_edit(none, 0, 0, "a", 1).code == BAJOFEKI_NO_LEXER && bajofeki_document_text(none, 0, text, 8) == 0);
    CHECK(bajofeki_document_pieces(none, 0, 1, pieces, 8).code == BAJOFEKI_NO_LEXER && bajofeki_document_place(none, 0).line == 0);
    bajofeki_document_delete(none);
    bajofeki_document_delete(document);
    bajofeki_lexer_delete(clash);
    bajofeki_lexer_delete(lexer);
}

/* A stream of "let é" in three chunks, and what it refuses. */
static void check_stream(void) {
    bajofeki_lexer *lexer = bajofeki_lexer_new(three, strlen(three)), *clash = bajofeki_lexer_new("A = /a/\nB = /a/", 15);
    bajofeki_stream *stream = bajofeki_stream_new(lexer), *broken = bajofeki_stream_new(lexer), *none = bajofeki_stream_new(clash);
    bajofeki_piece_t pieces[8];
    bajofeki_count_t count;
    CHECK(bajofeki_stream_feed(stream, "le", 2, false) == BAJOFEKI_DONE);
    count = bajofeki_stream_next(stream, pieces, 8);
    CHECK(count.code == BAJOFEKI_DONE && count.count == 0);
    CHECK(bajofeki_stream_feed(stream, "t \xC3", 3, false) == BAJOFEKI_DONE && bajofeki_stream_feed(stream, NULL, 0, false) == BAJOFEKI_DONE);
    count = bajofeki_stream_next(stream, pieces, 1);
    CHECK(count.code == BAJOFEKI_FULL && count.count == 1 && is_piece(pieces[0], BAJOFEKI_TOKEN, 0, 0, 3));
    CHECK(bajofeki_stream_next(stream, pieces, 8).count == 0 && bajofeki_stream_feed(stream, "\xA9", 1, true) == BAJOFEKI_DONE);
    CHECK(bajofeki_stream_next(stream, NULL, 0).code == BAJOFEKI_FULL && bajofeki_stream_next(stream, NULL, 1).code == BAJOFEKI_BAD_ARGUMENT);
    count = bajofeki_stream_next(stream, pieces, 8);
    CHECK(count.code == BAJOFEKI_DONE && count.count == 2 && is_piece(pieces[0], BAJOFEKI_SKIPPED, 2, 3, 1));
    CHECK(is_piece(pieces[1], BAJOFEKI_FAULT, 0, 4, 2) && bajofeki_stream_feed(stream, "a", 1, false) == BAJOFEKI_ENDED);
    CHECK(bajofeki_stream_feed(broken, NULL, 1, false) == BAJOFEKI_BAD_ARGUMENT && bajofeki_stream_feed(broken, "a", SIZE_MAX, false) == BAJOFEKI_BAD_ARGUMENT);
    CHECK(bajofeki_stream_feed(broken, "a\xFF" "b", 3, false) == BAJOFEKI_DONE && bajofeki_stream_feed(broken, "\xC3", 1, true) == BAJOFEKI_DONE);
    CHECK(bajofeki_stream_next(broken, pieces, 8).count == 4 && is_piece(pieces[0], BAJOFEKI_TOKEN, 1, 0, 1));
    CHECK(is_piece(pieces[1], BAJOFEKI_FAULT, 0, 1, 1) && is_piece(pieces[2], BAJOFEKI_TOKEN, 1, 2, 1) && is_piece(pieces[3], BAJOFEKI_FAULT, 0, 3, 1));
    CHECK(bajofeki_stream_feed(none, "a", 1, true) == BAJOFEKI_NO_LEXER && bajofeki_stream_next(none, pieces, 8).code == BAJOFEKI_NO_LEXER);
    bajofeki_stream_delete(none);
    bajofeki_stream_delete(broken);
    bajofeki_stream_delete(stream);
    bajofeki_lexer_delete(clash);
    bajofeki_lexer_delete(lexer);
}

/* Bytes in a block of their own, which is lent to one call. */
static char *lent(const char *bytes, size_t length) {
    char *block = (char *)malloc(length);
    memcpy(block, bytes, length);
    return block;
}

/* Once the call has ended the block has other bytes, and is gone. */
static void take_back(char *block, size_t length) {
    static void *(*volatile const fill)(void *, int, size_t) = memset;
    fill(block, '?', length);
    free(block);
}

/* A lexer, the cut of a text, a document and a stream keep no pointer after a call to what it was lent: rules, text or an array. */
static void check_lent(void) {
    static const char text[] = "let ab\nx?";
    static const size_t size = sizeof text - 1, starts[] = {0, 3, 4, 6, 7, 8, 9};
    char *rules = lent(three, strlen(three));
    bajofeki_lexer *lexer = bajofeki_lexer_new(rules, strlen(three));
    bajofeki_cutter *cutter = (bajofeki_cutter *)malloc(bajofeki_cutter_size());
    bajofeki_document *document = bajofeki_document_new(lexer);
    bajofeki_stream *stream = bajofeki_stream_new(lexer);
    take_back(rules, strlen(three));
    CHECK(bajofeki_begin(lexer, cutter, size) == BAJOFEKI_DONE);
    for (size_t i = 0; i < size; i++) {
        char *part = lent(text + i, 1);
        CHECK(bajofeki_document_edit(document, i, i, part, 1).code == BAJOFEKI_DONE);
        CHECK(bajofeki_stream_feed(stream, part, 1, i == size - 1) == BAJOFEKI_DONE);
        take_back(part, 1);
    }
    for (size_t i = 0; i < 6; i++) {
        char *copy = lent(text, size);
        bajofeki_piece_t *found = (bajofeki_piece_t *)malloc(3 * sizeof *found);
        CHECK(bajofeki_cut(lexer, cutter, copy, size, found, 1).count == 1);
        CHECK(bajofeki_document_pieces(document, starts[i], starts[i] + 1, found + 1, 1).count == 1);
        CHECK(bajofeki_stream_next(stream, found + 2, 1).count == 1);
        for (int of = 0; of < 3; of++) {
            CHECK(found[of].start == starts[i] && found[of].length == starts[i + 1] - starts[i]);
        }
        take_back(copy, size);
        take_back((char *)found, 3 * sizeof *found);
    }
    bajofeki_stream_delete(stream);
    bajofeki_document_delete(document);
    bajofeki_end(cutter);
    free(cutter);
    bajofeki_lexer_delete(lexer);
}

/* Whatever is begun gives its memory back at its end, and once: as many blocks are freed as were given. Its room stays the caller's. */
static void check_freed(void) {
    size_t before = blocks, built;
    bajofeki_lexer *lexer = bajofeki_lexer_new(three, strlen(three)), *clash;
    bajofeki_text text = bajofeki_text_begin(lexer, "let", 3);
    bajofeki_document *document = bajofeki_document_new(lexer);
    bajofeki_stream *stream = bajofeki_stream_new(lexer);
    bajofeki_piece_t piece;
    CHECK(bajofeki_text_next(&text, &piece, 1).count == 1);
    bajofeki_text_begin_again(&text, lexer, three, strlen(three));
    CHECK(bajofeki_text_next(&text, &piece, 1).count == 1);
    bajofeki_text_end(&text);
    built = blocks;
    CHECK(bajofeki_document_edit(document, 0, 0, "let x", 5).code == BAJOFEKI_DONE && blocks > built);
    bajofeki_document_end(document);
    CHECK(blocks == built);
    CHECK(bajofeki_stream_feed(stream, "let x", 5, false) == BAJOFEKI_DONE && blocks > built);
    CHECK(bajofeki_stream_next(stream, &piece, 1).count == 1);
    bajofeki_stream_end(stream);
    CHECK(blocks == built);
    free(document);
    free(stream);
    built = blocks;
    clash = bajofeki_lexer_new("A = /a/\nB = /a/", 15);
    CHECK(bajofeki_lexer_report(clash).code == BAJOFEKI_CLASH && blocks > built + 1);
    bajofeki_free(clash);
    CHECK(blocks == built + 1);
    free(clash);
    bajofeki_lexer_html(lexer, "let", 3, NULL, 0);
    bajofeki_lexer_c_source(lexer, "lex", 3, NULL, 0);
    bajofeki_lexer_rust_source(lexer, NULL, 0);
    bajofeki_rules_check(NULL, three, strlen(three), false, NULL, 0);
    bajofeki_rules_diff(NULL, three, strlen(three), NULL, three, strlen(three), NULL, 0);
    bajofeki_rules_dot(NULL, three, strlen(three), NULL, NULL, 0);
    CHECK(blocks == built);
    bajofeki_free(lexer);
    CHECK(blocks == before + 1);
    free(lexer);
}

/* Whether memory was refused for a call, after which all is granted again. */
static bool is_refused(uint32_t code) {
    granted = SIZE_MAX;
    CHECK(code == BAJOFEKI_DONE || code == BAJOFEKI_OUT_OF_MEMORY);
    return code == BAJOFEKI_OUT_OF_MEMORY;
}

/* The request after `n` others is refused in each call. Gives whether there was one. */
static bool check_refused(const bajofeki_lexer *lexer, size_t n) {
    bajofeki_document *document = bajofeki_document_new(lexer);
    bajofeki_stream *stream = bajofeki_stream_new(lexer);
    bajofeki_piece_t pieces[8];
    bajofeki_count_t count;
    bool is_cut, is_found, is_fed, is_next = false;
    CHECK(bajofeki_document_edit(document, 0, 0, "let", 3).code == BAJOFEKI_DONE);
    granted = n;
    is_cut = is_refused(bajofeki_document_edit(document, 3, 3, " x", 2).code);
    CHECK(bajofeki_document_text(document, 0, NULL, 0) == (is_cut ? 3 : 5));
    granted = n;
    count = bajofeki_document_pieces(document, 0, 9, pieces, 8);
    is_found = is_refused(count.code);
    CHECK(count.count == (is_found ? 0 : is_cut ? 1 : 3));
    granted = n;
    is_fed = is_refused(bajofeki_stream_feed(stream, "let x ", 6, false));
    if (!is_fed) {
        granted = n;
        is_next = is_refused(bajofeki_stream_next(stream, pieces, 8).code);
    }
    /* What was refused is had again. */
    CHECK(!is_fed || bajofeki_stream_feed(stream, "let x ", 6, false) == BAJOFEKI_DONE);
    count = bajofeki_stream_next(stream, pieces, 8);
    CHECK(count.code == BAJOFEKI_DONE && count.count == (is_fed || is_next ? 3 : 0) && bajofeki_stream_feed(stream, "y", 1, true) == BAJOFEKI_DONE);
    bajofeki_stream_delete(stream);
    bajofeki_document_delete(document);
    return is_cut || is_found || is_fed || is_next;
}

static bool is_source_refused(const bajofeki_lexer *lexer, size_t n) {
    granted = n;
    return is_refused(bajofeki_lexer_c_source(lexer, "lex", 3, NULL, 0).code);
}

static bool is_check_refused(size_t n) {
    granted = n;
    return is_refused(bajofeki_rules_check(NULL, three, strlen(three), false, NULL, 0).code);
}

static void check_memory(void) {
    bajofeki_lexer *lexer = NULL;
    size_t refused = 0;
    while (is_check_refused(refused)) {
        refused += 1 + refused / 16;
    }
    CHECK(refused > 0);
    refused = 0;
    for (size_t n = 0; bajofeki_lexer_report(lexer).code != BAJOFEKI_BUILT; n++) {
        CHECK(lexer == NULL || bajofeki_lexer_report(lexer).code == BAJOFEKI_OUT_OF_MEMORY);
        bajofeki_lexer_delete(lexer);
        granted = n;
        lexer = bajofeki_lexer_new(three, strlen(three));
        granted = SIZE_MAX;
    }
    while (is_source_refused(lexer, refused)) {
        refused++;
    }
    CHECK(refused > 0);
    CHECK(check_refused(lexer, 0));
    for (size_t n = 1; check_refused(lexer, n); n++) {
    }
    bajofeki_lexer_delete(lexer);
}

static uint64_t sum_more(uint64_t sum, bajofeki_piece_t piece) {
    return sum * 1000003 + piece.kind + 3 * piece.rule + 977 * (piece.start + piece.length);
}

/* Cuts bytes by arrays of `room` places. Gives a sum over their pieces, and how many bytes are left where modes lie too deep. */
static uint64_t sum_of(const bajofeki_lexer *lexer, const char *bytes, size_t length, size_t room, size_t *left) {
    bajofeki_piece_t *pieces = (bajofeki_piece_t *)malloc(room * sizeof *pieces);
    bajofeki_text text = bajofeki_text_begin(lexer, bytes, length);
    bajofeki_cut_t cut;
    size_t end = 0;
    uint64_t sum = 0;
    do {
        cut = bajofeki_text_next(&text, pieces, room);
        CHECK(cut.code == BAJOFEKI_DONE || cut.code == BAJOFEKI_TOO_DEEP || (cut.code == BAJOFEKI_FULL && cut.count == room));
        for (size_t i = 0; i < cut.count; i++) {
            CHECK(pieces[i].start == end && pieces[i].length > 0 && pieces[i].length <= length - end);
            CHECK(pieces[i].kind == BAJOFEKI_FAULT ? pieces[i].rule == 0 : pieces[i].rule < bajofeki_lexer_rules(lexer));
            CHECK(pieces[i].kind == BAJOFEKI_FAULT || pieces[i].kind == (uint32_t)bajofeki_lexer_skips(lexer, pieces[i].rule));
            end += pieces[i].length;
            sum = sum_more(sum, pieces[i]);
        }
        CHECK(cut.end == end);
    } while (cut.code == BAJOFEKI_FULL);
    CHECK(cut.code == BAJOFEKI_TOO_DEEP || end == length);
    *left = length - end;
    bajofeki_text_end(&text);
    free(pieces);
    return sum;
}

/* The same sum over the pieces of a document that is put together from its end, 0 if the bytes aren't UTF-8; and of a stream that is fed
   `most` bytes at a time. */
static uint64_t sum_of_document(const bajofeki_lexer *lexer, const char *bytes, size_t length, size_t most) {
    bajofeki_document *document = bajofeki_document_new(lexer);
    bajofeki_piece_t *pieces = NULL;
    uint64_t sum = 0;
    uint32_t code = bajofeki_document_edit(document, 0, 0, bytes, length).code;
    for (size_t at = 0; at < length && code == BAJOFEKI_DONE; at += 1 + at / 3 + most) {
        size_t end = at + 1;
        while (end < length && ((unsigned char)bytes[end] & 0xC0) == 0x80) {
            end++;
        }
        code = bajofeki_document_edit(document, at, end, "(", 1).code;
        CHECK(code == BAJOFEKI_DONE || code == BAJOFEKI_BAD_RANGE);
        code = code == BAJOFEKI_DONE ? bajofeki_document_edit(document, at, at + 1, bytes + at, end - at).code : (uint32_t)BAJOFEKI_DONE;
    }
    if (code == BAJOFEKI_DONE) {
        size_t count = bajofeki_document_pieces(document, 0, length, NULL, 0).count;
        pieces = (bajofeki_piece_t *)malloc((count + 1) * sizeof *pieces);
        CHECK(bajofeki_document_pieces(document, 0, length, pieces, count).count == count);
        for (size_t i = 0; i < count; i++) {
            sum = sum_more(sum, pieces[i]);
        }
        free(pieces);
    }
    bajofeki_document_delete(document);
    return sum;
}

static uint64_t sum_of_stream(const bajofeki_lexer *lexer, const char *bytes, size_t length, size_t most) {
    bajofeki_stream *stream = bajofeki_stream_new(lexer);
    bajofeki_piece_t pieces[3];
    bajofeki_count_t count;
    uint64_t sum = 0;
    for (size_t at = 0; at <= length; at += most) {
        size_t size = length - at < most ? length - at : most;
        CHECK(bajofeki_stream_feed(stream, bytes + at, size, at + most > length) == BAJOFEKI_DONE);
        do {
            count = bajofeki_stream_next(stream, pieces, 3);
            for (size_t i = 0; i < count.count; i++) {
                sum = sum_more(sum, pieces[i]);
            }
        } while (count.code == BAJOFEKI_FULL);
        CHECK(count.code == BAJOFEKI_DONE);
    }
    bajofeki_stream_delete(stream);
    return sum;
}

/* Arrays of all sizes get the same pieces, and a document and a stream have those of a cut, unless it goes too deep. */
static void check_sums(const bajofeki_lexer *lexer, const char *bytes, size_t length, size_t most) {
    bool is_utf8 = bajofeki_lexer_html(lexer, bytes, length, NULL, 0).code == BAJOFEKI_SHOWN;
    uint64_t wanted = sum_of_stream(lexer, bytes, length, length + 1), sum;
    size_t left;
    CHECK(sum_of_document(lexer, bytes, length, most) == (is_utf8 ? wanted : 0) && sum_of_stream(lexer, bytes, length, most) == wanted);
    sum = sum_of(lexer, bytes, length, most, &left);
    CHECK(sum_of(lexer, bytes, length, 1000, &left) == sum && (left > 0 || sum == wanted));
}

/* A sum over the pieces of a text, and the code after them. */
static uint64_t sum_of_text(bajofeki_text *text) {
    bajofeki_piece_t pieces[64];
    bajofeki_cut_t cut;
    uint64_t sum = 0;
    do {
        cut = bajofeki_text_next(text, pieces, 64);
        for (size_t i = 0; i < cut.count; i++) {
            sum = sum_more(sum, pieces[i]);
        }
    } while (cut.code == BAJOFEKI_FULL);
    return sum * 31 + cut.code;
}

/* 1000 lines in the memory of one text, by two lexers in turn, have the pieces of texts of their own, also once memory was refused. */
static void check_again(void) {
    static const char nested[] = "OPEN push INITIAL = '('\nNAME = /[a-z]+x/\n", bytes[] = "let  abx(\xFF";
    bajofeki_lexer *lexers[] = {bajofeki_lexer_new(three, strlen(three)), bajofeki_lexer_new(nested, strlen(nested))};
    bajofeki_text again = bajofeki_text_begin(lexers[0], NULL, 0);
    char line[2000];
    size_t refused = 0;
    uint32_t seed = 1;
    for (size_t n = 0; n < 1000; n++) {
        size_t length = n % 50 == 49 ? sizeof line : n % 47;
        bajofeki_text fresh;
        for (size_t i = 0; i < length; i++) {
            seed = seed * 1664525 + 1013904223;
            line[i] = bytes[(seed >> 16) % (sizeof bytes - 1)];
        }
        granted = n % 7 > 0 ? SIZE_MAX : 0;
        bajofeki_text_begin_again(&again, lexers[n % 2], line, length);
        if (is_refused(again.code)) {
            CHECK(bajofeki_text_next(&again, NULL, 0).code == BAJOFEKI_OUT_OF_MEMORY);
            bajofeki_text_begin_again(&again, lexers[n % 2], line, length);
            refused++;
        }
        fresh = bajofeki_text_begin(lexers[n % 2], line, length);
        CHECK(sum_of_text(&again) == sum_of_text(&fresh));
        bajofeki_text_end(&fresh);
    }
    CHECK(refused > 0);
    bajofeki_text_begin_again(&again, lexers[0], NULL, 1);
    CHECK(again.code == BAJOFEKI_BAD_ARGUMENT && bajofeki_text_next(&again, NULL, 0).code == BAJOFEKI_BAD_ARGUMENT);
    bajofeki_text_begin_again(&again, lexers[0], "let", 3);
    CHECK(bajofeki_text_next(&again, NULL, 0).code == BAJOFEKI_FULL);
    bajofeki_text_end(&again);
    bajofeki_lexer_delete(lexers[0]);
    bajofeki_lexer_delete(lexers[1]);
}

static char *read_file(const char *path, size_t *length) {
    FILE *stream = fopen(path, "rb");
    char *bytes = (char *)malloc(1 << 20);
    CHECK(stream != NULL && bytes != NULL);
    *length = fread(bytes, 1, 1 << 20, stream);
    fclose(stream);
    /* A block of just this size, so that sanitizers see each access past its end. */
    return (char *)realloc(bytes, *length > 0 ? *length : 1);
}

static void spoil(char *bytes, size_t length, uint32_t seed) {
    for (size_t i = 0; i < length; i++) {
        seed = seed * 1664525 + 1013904223;
        if (seed >> 28 == 0) {
            bytes[i] = (char)(seed >> 20);
        }
    }
}

static void check_files(const char *rules_path, const char *text_path, uint32_t seed) {
    static const size_t rooms[] = {1, 2, 7, 64};
    size_t rules_length, length;
    char *rules = read_file(rules_path, &rules_length), *text = read_file(text_path, &length);
    for (int round = 0; round < 2; round++) {
        bajofeki_lexer *lexer = bajofeki_lexer_new(rules, rules_length);
        spoil(rules, rules_length, seed);
        for (int i = 0; i < 4 && bajofeki_lexer_report(lexer).code == BAJOFEKI_BUILT; i++) {
            check_arguments(lexer);
            check_modes(lexer);
            check_pages(lexer, text, length);
            check_sums(lexer, text, length, rooms[i]);
            spoil(text, length, seed + (uint32_t)i);
        }
        bajofeki_lexer_delete(lexer);
    }
    free(rules);
    free(text);
}

int main(int count, char **words) {
    check_no_lexer();
    check_rules();
    check_version();
    check_columns();
    check_sources();
    check_checks();
    check_comparisons();
    check_document();
    check_stream();
    check_lent();
    check_freed();
    check_memory();
    check_again();
    for (int i = 1; i + 1 < count; i += 2) {
        check_files(words[i], words[i + 1], (uint32_t)i);
    }
    CHECK(blocks == 0);
    return 0;
}
