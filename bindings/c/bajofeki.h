/* Bajofeki from C99 and C++: lexers of rules that come at run time. Link libbajofeki.a or libbajofeki.so.

   A lexer is built of a file of rules (docs/PROGRAMS.md, "A file of rules"). By it a text, which is any bytes, is cut into pieces,
   one after another from its first byte to its last. Most programs want the second part of this file alone:

       bajofeki_lexer *lexer = bajofeki_lexer_new(rules, rules_length);
       bajofeki_text text = bajofeki_text_begin(lexer, bytes, length);
       bajofeki_piece_t pieces[64];
       bajofeki_cut_t cut;
       do {
           cut = bajofeki_text_next(&text, pieces, 64);
           ... pieces[0] to pieces[cut.count - 1] ...
       } while (cut.code == BAJOFEKI_FULL);
       bajofeki_text_end(&text);
       bajofeki_lexer_delete(lexer);

   A text that is edited is a bajofeki_document, which keeps its pieces and takes UTF-8 alone; one that comes in chunks is a bajofeki_stream.

   Places and lengths are in bytes, rules are numbered from 0 in the order of their lines, lines and columns count from 1, and columns
   are in characters, but bajofeki_place_from counts others too. Nothing here keeps a pointer to the file of rules. What only reads a lexer
   may be called by several threads at once on one lexer; a cut, a document and a stream are one thread's at a time. */
#ifndef BAJOFEKI_H
#define BAJOFEKI_H
#include <stdbool.h>
#include <stddef.h>
#include <stdint.h>
#include <stdlib.h>
#include <string.h>
#ifdef __cplusplus
extern "C" {
#endif

/* What became of the rules: the code of a report. */
enum {
    BAJOFEKI_BUILT = 0,         /* there is a lexer */
    BAJOFEKI_BAD_LINE = 1,      /* a line of the file is wrong */
    BAJOFEKI_NOT_PARSED = 2,    /* the text of a rule doesn't parse */
    BAJOFEKI_BAD_END = 3,       /* the end of a `from .. to` is empty or has more than 64 characters */
    BAJOFEKI_NOT_COMPILED = 4,  /* a rule can't be compiled */
    BAJOFEKI_CLASH = 5,         /* two rules match the same word, and neither wins */
    BAJOFEKI_TOO_LARGE = 6,     /* there are no rules, or too many, or they are too large for a table */
    BAJOFEKI_OUT_OF_MEMORY = 7, /* a request for memory was refused */
    BAJOFEKI_FREED = 8,         /* the lexer was freed */
    BAJOFEKI_OTHER_VERSION = 11 /* by the second part of this file alone: the library isn't of this file's version */
};

/* How a call of a cut ended: the code of a cut. */
enum {
    BAJOFEKI_DONE = 0,        /* at the end of the text */
    BAJOFEKI_FULL = 2,        /* the array is full, and text is left */
    BAJOFEKI_TOO_DEEP = 4,    /* the next token would put a mode on top of more than 1024 others; so does each further call */
    BAJOFEKI_NO_LEXER = 9,    /* there is no lexer, or no cut of this text */
    BAJOFEKI_BAD_ARGUMENT = 10 /* by the second part of this file alone: a null pointer to something, or a length past PTRDIFF_MAX */
};

/* What a check of rules, a comparison or a drawing came to: the status of `tokens --check`, `--diff` and `--dot`. */
enum {
    BAJOFEKI_CLEAN = 0,   /* nothing is wrong or differs */
    BAJOFEKI_FOUND = 1,   /* something was found, the file means something else than it seems to, or something differs */
    BAJOFEKI_REFUSED = 2, /* rules clash, or one can't be compiled */
    BAJOFEKI_UNREAD = 3,  /* a line is wrong, or a rule's text doesn't parse */
    BAJOFEKI_NO_RULE = 4  /* no rule has the name; else BAJOFEKI_OUT_OF_MEMORY, or, if a name isn't UTF-8, BAJOFEKI_BAD_ARGUMENT; or by
                             the second part of this file BAJOFEKI_OTHER_VERSION */
};

/* What became of the page of a text, or of a source file: the code of a page. */
enum {
    BAJOFEKI_SHOWN = 0,      /* there is one */
    BAJOFEKI_BAD_NAME = 1,   /* a name can't stand in the source file */
    BAJOFEKI_NOT_UTF8 = 3    /* the text isn't UTF-8; else BAJOFEKI_OUT_OF_MEMORY or BAJOFEKI_NO_LEXER */
};

/* What became of an edit, or of chunks: the code of an edit and of a count, and what bajofeki_feed gives. Beside BAJOFEKI_DONE, of an array
   that is full BAJOFEKI_FULL, BAJOFEKI_NOT_UTF8, BAJOFEKI_TOO_LARGE, BAJOFEKI_OUT_OF_MEMORY and BAJOFEKI_NO_LEXER it is */
enum {
    BAJOFEKI_BAD_RANGE = 1, /* the range isn't one of whole characters of the text */
    BAJOFEKI_ENDED = 8      /* the last bytes have come already */
};

/* How far a token of a mode can stay open: the code of a look. */
enum {
    BAJOFEKI_AT_MOST = 0,   /* up to `count` characters after it can leave open whether a longer one comes */
    BAJOFEKI_UNBOUNDED = 1  /* any number of them can; else BAJOFEKI_NO_LEXER, also if there is no such mode */
};

/* What a token of a rule does to the stack of modes: the kind of an action. A text begins in mode 0, with none below it. */
enum {
    BAJOFEKI_MODE = 0,     /* the mode takes the place of the one on top */
    BAJOFEKI_PUSH = 1,     /* the mode comes on top */
    BAJOFEKI_POP = 2,      /* the one on top is taken away; the last one stays */
    BAJOFEKI_NO_ACTION = 3 /* nothing more */
};

/* The kind of a piece. */
enum {
    BAJOFEKI_TOKEN = 0,
    BAJOFEKI_SKIPPED = 1, /* a token of a rule that is skipped */
    BAJOFEKI_FAULT = 2    /* bytes at none of which a rule matches, up to the next match or the end of the text */
};

typedef struct bajofeki_lexer bajofeki_lexer;
typedef struct bajofeki_cutter bajofeki_cutter;
typedef struct bajofeki_document bajofeki_document;
typedef struct bajofeki_stream bajofeki_stream;

/* What became of the rules. Numbers that a code doesn't have are 0. */
typedef struct {
    uint32_t code;
    size_t line; /* where the line is wrong (1), or where the text of the rule begins, after its first delimiter (2 to 5) */
    size_t column;
    size_t rule;       /* the rule (2 to 4), or the later of the two (5) */
    size_t other;      /* the earlier one (5) */
    size_t other_line; /* where its text begins, likewise (5) */
    size_t other_column;
    size_t position; /* where in the text of the rule it stops to parse, in bytes (2) */
} bajofeki_report_t;

typedef struct {
    uint32_t kind;
    size_t rule; /* of rules with one name, precedence, skip and actions the first in the mode; 0 of a fault */
    size_t start;
    size_t length;
} bajofeki_piece_t;

typedef struct {
    uint32_t code;
    size_t count; /* how many pieces were written */
    size_t end;   /* where the next piece begins */
} bajofeki_cut_t;

typedef struct {
    size_t at; /* the offset, or the text's end if that comes first */
    size_t line;
    size_t column;
} bajofeki_place_t;

typedef struct {
    uint32_t code;
    size_t length; /* how many bytes the page has, whether or not they fit; 0 without a page */
} bajofeki_page_t;

/* What a check of rules writes: a line for each thing that it finds, and then what it says: why the rules can't be read or compiled, or,
   unless lines are JSON, the warnings. A comparison writes differences, and a drawing pictures, and then what they say. */
typedef struct {
    uint32_t code;
    size_t found;  /* how many bytes the lines have, or the pictures */
    size_t length; /* how many bytes there are in all, whether or not they fit */
} bajofeki_checked_t;

typedef struct {
    uint32_t code;
    size_t count; /* 0 if it isn't BAJOFEKI_AT_MOST */
} bajofeki_look_t;

typedef struct {
    uint32_t kind;
    size_t mode; /* 0 of BAJOFEKI_POP and BAJOFEKI_NO_ACTION */
} bajofeki_action_t;

/* What an edit changed of the pieces of a document. Pieces are numbered from 0. With any code but BAJOFEKI_DONE nothing has changed, and all
   other numbers are 0. */
typedef struct {
    uint32_t code;
    size_t first;    /* how many pieces at the front stay */
    size_t removed;  /* how many old ones after those are gone */
    size_t inserted; /* how many came in their place; all others are the old ones, shifted */
    size_t start;    /* where the first piece that is gone, or came, begins */
    size_t old_end;  /* where the last one that is gone ended in the old text */
    size_t new_end;  /* where the last one that came ends in the new text */
} bajofeki_edit_t;

typedef struct {
    uint32_t code;
    size_t count; /* how many pieces there are, or were written */
} bajofeki_count_t;

/* 1. The library's own functions.

   Their contracts, which are proved, are in crates/bajofeki_c/src/lib.rt. They check no argument. What the caller owes:
   - room for a lexer is bajofeki_lexer_size() bytes at a multiple of 8, as malloc gives, and so for a cutter, a document and a stream;
   - a lexer lies in its room from bajofeki_build on, one build a room, and a cutter from bajofeki_begin to bajofeki_end, a
     document from bajofeki_document_begin to bajofeki_document_end, a stream from bajofeki_stream_begin to bajofeki_stream_end;
   - a lexer is freed once, when what was begun by it has ended. It stays where it was built: no copy of it is used;
   - the lexer and the text of a cutter are the same, unchanged, at each call, until it begins again;
   - no pointer is null, not even to 0 bytes; lengths are true; an array overlaps nothing else.
   The room stays the caller's, before and after. */

/* The bytes of room that a lexer takes, a cutter, a document and a stream. */
size_t bajofeki_lexer_size(void);
size_t bajofeki_cutter_size(void);
size_t bajofeki_document_size(void);
size_t bajofeki_stream_size(void);

/* Builds a lexer, or what says why there is none, in the room. Either way it takes memory until bajofeki_free. Nothing bounds how much
   rules may ask for: /a{1000}{1000}{1000}/ takes more than 10 GB. */
void bajofeki_build(bajofeki_lexer *lexer, const char *rules, size_t length);

bajofeki_report_t bajofeki_report(const bajofeki_lexer *lexer);

/* Writes the least word on which two rules clash, as many of its values as the array takes. Gives how many there are, 0 without a
   clash. A value is a character's number, or a surrogate's. */
size_t bajofeki_word(const bajofeki_lexer *lexer, uint32_t *out, size_t room);

/* How many rules the file has, if there is a lexer or the code of the report is 2 to 5; else 0. */
size_t bajofeki_rules(const bajofeki_lexer *lexer);

/* Writes the name of a rule, which is ASCII, as many bytes as the array takes, with no 0 after it. Gives how many there are, 0 if
   bajofeki_rules counts no such rule. */
size_t bajofeki_name(const bajofeki_lexer *lexer, size_t rule, char *out, size_t room);

/* Whether the tokens of a rule are skipped; false without a lexer, or if there is no such rule. */
bool bajofeki_skips(const bajofeki_lexer *lexer, size_t rule);

/* How many modes there are; 0 without a lexer. They are numbered from 0, in the order in which the file first names them; a rule above
   the first section names INITIAL. */
size_t bajofeki_modes(const bajofeki_lexer *lexer);

/* Writes the name of a mode, as bajofeki_name does that of a rule. Gives how many bytes there are, 0 if there is no such mode. */
size_t bajofeki_mode_name(const bajofeki_lexer *lexer, size_t mode, char *out, size_t room);

/* What a token of a rule does to the stack of modes: its action at a place, from 0 on, after those before. */
bajofeki_action_t bajofeki_action(const bajofeki_lexer *lexer, size_t rule, size_t place);

/* How many characters after a token of a mode can leave open whether a longer one comes. */
bajofeki_look_t bajofeki_lookahead(const bajofeki_lexer *lexer, size_t mode);

/* Writes a whole text as HTML, or in colours for a terminal: as many bytes of the page as the array takes, with no 0 after it. In HTML
   a token is a span whose class is its rule's name, a fault is a mark, and a skipped token is neither. Faults are shown, and modes may
   lie deeper than for a cut. */
bajofeki_page_t bajofeki_html(const bajofeki_lexer *lexer, const char *text, size_t length, char *out, size_t room);
bajofeki_page_t bajofeki_ansi(const bajofeki_lexer *lexer, const char *text, size_t length, char *out, size_t room);

/* Writes the lexer as one source file, as `tokens --emit` does: in C, where all names begin with the prefix, or in Rust. As many bytes of it
   as the array takes, with no 0 after it. The code is BAJOFEKI_BAD_NAME if the prefix isn't an identifier of ASCII letters, digits and _; in
   Rust, if the name of a rule begins with a digit, or is _, self, super, crate or Self. */
bajofeki_page_t bajofeki_c_source(const bajofeki_lexer *lexer, const char *prefix, size_t length, char *out, size_t room);
bajofeki_page_t bajofeki_rust_source(const bajofeki_lexer *lexer, char *out, size_t room);

/* Gives a lexer's memory back. Its room stays in order: a later report says BAJOFEKI_FREED. */
void bajofeki_free(bajofeki_lexer *lexer);

/* Begins the cut of a text in the room. Any text may be cut by it, but one of another size than this maybe more slowly. Gives
   BAJOFEKI_DONE, BAJOFEKI_OUT_OF_MEMORY or BAJOFEKI_NO_LEXER; in each case bajofeki_end is owed. */
uint32_t bajofeki_begin(const bajofeki_lexer *lexer, bajofeki_cutter *cutter, size_t size);

/* Begins the cut of another text in a cutter that has been begun, by this lexer or another; its memory serves again. Gives what
   bajofeki_begin gives; bajofeki_end is owed once. */
uint32_t bajofeki_begin_again(const bajofeki_lexer *lexer, bajofeki_cutter *cutter, size_t size);

/* Cuts the text on, from where the call before ended, and writes the pieces, as many as the array takes. */
bajofeki_cut_t bajofeki_cut(const bajofeki_lexer *lexer, bajofeki_cutter *cutter, const char *text, size_t length, bajofeki_piece_t *out,
                            size_t room);

/* Gives a cutter's memory back. */
void bajofeki_end(bajofeki_cutter *cutter);

/* Begins an empty document in the room. Something lies there even if the rules were refused, or memory is: then each edit gives the code.
   bajofeki_document_end is owed. */
void bajofeki_document_begin(const bajofeki_lexer *lexer, bajofeki_document *document);

/* Replaces the bytes from one offset of a document to another, and cuts anew the pieces that depend on them. The code is BAJOFEKI_DONE,
   BAJOFEKI_BAD_RANGE, BAJOFEKI_NOT_UTF8, BAJOFEKI_TOO_LARGE from 4,294,967,295 bytes on, BAJOFEKI_OUT_OF_MEMORY or BAJOFEKI_NO_LEXER. */
bajofeki_edit_t bajofeki_edit(bajofeki_document *document, size_t from, size_t to, const char *bytes, size_t length);

/* Writes the pieces that hold a byte from one offset to another, in order and each whole, as many as the array takes. Gives how many there
   are, whether or not they fit. With `to` as `from` + 1 it is the piece at an offset, with 0 and SIZE_MAX all pieces. The code is BAJOFEKI_DONE,
   BAJOFEKI_OUT_OF_MEMORY or BAJOFEKI_NO_LEXER. */
bajofeki_count_t bajofeki_pieces(const bajofeki_document *document, size_t from, size_t to, bajofeki_piece_t *out, size_t room);

/* The line and the column of an offset, and back. All numbers are 0 where there is none: in a character, or past the text. Both read some
   hundred pieces alone. */
bajofeki_place_t bajofeki_place(const bajofeki_document *document, size_t at);
bajofeki_place_t bajofeki_offset(const bajofeki_document *document, size_t line, size_t column);

/* Writes the text from an offset on, as many bytes as the array takes. Gives how many there are. */
size_t bajofeki_copy(const bajofeki_document *document, size_t from, char *out, size_t room);

/* Gives a document's memory back. */
void bajofeki_document_end(bajofeki_document *document);

/* Begins a stream in the room: a text of which nothing has come. Something lies there even if the rules were refused: then each call
   gives the code.
   bajofeki_stream_end is owed. */
void bajofeki_stream_begin(const bajofeki_lexer *lexer, bajofeki_stream *stream);

/* More bytes come, cut anywhere, also in a character; after the last ones none do. Gives BAJOFEKI_DONE; BAJOFEKI_ENDED, or
   BAJOFEKI_OUT_OF_MEMORY, after which nothing has changed; or BAJOFEKI_NO_LEXER. */
uint32_t bajofeki_feed(bajofeki_stream *stream, const char *bytes, size_t length, bool is_last);

/* Writes the next pieces that nothing that comes can change, as many as the array takes, and gives how many it wrote. Places count from the
   beginning of the text, which the caller keeps as far as it wants to see it. The code is BAJOFEKI_FULL, after which it is called again;
   BAJOFEKI_DONE, after which more is fed; BAJOFEKI_OUT_OF_MEMORY, after which it may be called again; BAJOFEKI_TOO_LARGE past SIZE_MAX bytes; or
   BAJOFEKI_NO_LEXER. */
bajofeki_count_t bajofeki_next(bajofeki_stream *stream, bajofeki_piece_t *out, size_t room);

/* Gives a stream's memory back. */
void bajofeki_stream_end(bajofeki_stream *stream);

/* Checks a file of rules of this name, as `tokens --check` does, with `--json` or without (docs/PROGRAMS.md): writes what that writes to
   standard output, and then what it says on standard error, as many bytes as the array takes, with no 0 after them. */
bajofeki_checked_t bajofeki_check(const char *name, size_t name_length, const char *rules, size_t length, bool is_json, char *out, size_t room);

/* Compares the rules of two files of these names, as `tokens --diff` does: writes what that writes to standard output, which is nothing if
   both make the same tokens of each text, and then what it says on standard error. Both files may have one name. */
bajofeki_checked_t bajofeki_diff(const char *name, size_t name_length, const char *rules, size_t length, const char *other_name,
                                 size_t other_name_length, const char *other, size_t other_length, char *out, size_t room);

/* Draws for Graphviz, as `tokens --dot` does, the automata of the modes of a file of this name; or, if the name of a rule has bytes, of the
   rules that have it. Writes what that writes to standard output, and then what it says on standard error. */
bajofeki_checked_t bajofeki_dot(const char *name, size_t name_length, const char *rules, size_t length, const char *rule, size_t rule_length,
                                char *out, size_t room);

/* The line and the column of an offset. It reads the text from its beginning. */
bajofeki_place_t bajofeki_position(const char *text, size_t length, size_t at);

/* The version of these functions, the first number of a release's. A program works with any later library of the same version. */
uint32_t bajofeki_version(void);
#define BAJOFEKI_VERSION 5

#ifdef __cplusplus
}
#endif

/* 2. The same with checks, over memory from malloc.

   A null pointer to 0 bytes or 0 places is fine everywhere, and a null lexer counts as none. */

/* What columns count: units of UTF-16 as the protocol of language servers does. In a text that isn't UTF-8 each byte counts as a character
   but those from 0x80 to 0xBF. */
enum {
    BAJOFEKI_BYTES = 0,
    BAJOFEKI_CHARACTERS = 1,
    BAJOFEKI_UTF16 = 2
};

static inline bool bajofeki_is_bad(const void *pointer, size_t count, size_t size) {
    return count > PTRDIFF_MAX / size || (pointer == NULL && count > 0);
}

/* The place of an offset of a text, counted on from an earlier one, at first from {0, 1, 1}; the columns of both count the same. Asked in
   their order, all places are found in one pass. Of a document the text is a copy of the line, which bajofeki_document_offset finds. All
   numbers are 0 of bad arguments, as a place after the offset. */
static inline bajofeki_place_t bajofeki_place_from(bajofeki_place_t place, const char *text, size_t length, size_t at, uint32_t columns) {
    bajofeki_place_t none = {0, 0, 0}, on = {0, 0, 0};
    size_t start, pairs = 0, width;
    if (bajofeki_is_bad(text, length, 1) || place.at > length || place.at > at || columns > BAJOFEKI_UTF16) {
        return none;
    }
    on = bajofeki_position(length == 0 ? "" : text + place.at, length - place.at, at - place.at);
    start = place.at + on.at;
    while (columns != BAJOFEKI_CHARACTERS && start > place.at && text[start - 1] != '\n') {
        start--;
        /* So begins each character that is two units in UTF-16. */
        pairs += (size_t)((unsigned char)text[start] >= 0xF0 && (unsigned char)text[start] < 0xF5);
    }
    place.at += on.at;
    width = columns == BAJOFEKI_BYTES ? place.at - start : on.column - 1 + pairs;
    place.column = on.line == 1 ? place.column + width : 1 + width;
    place.line += on.line - 1;
    return place;
}

/* A lexer, or what says why there is none, to be deleted by bajofeki_lexer_delete. NULL if the arguments are bad, malloc refused, or the
   library has another version. */
static inline bajofeki_lexer *bajofeki_lexer_new(const char *rules, size_t length) {
    bool is_bad = bajofeki_is_bad(rules, length, 1) || bajofeki_version() != BAJOFEKI_VERSION;
    bajofeki_lexer *lexer = is_bad ? NULL : (bajofeki_lexer *)malloc(bajofeki_lexer_size());
    if (lexer != NULL) {
        bajofeki_build(lexer, length == 0 ? "" : rules, length);
    }
    return lexer;
}

static inline void bajofeki_lexer_delete(bajofeki_lexer *lexer) {
    if (lexer != NULL) {
        bajofeki_free(lexer);
        free(lexer);
    }
}

/* As bajofeki_report; of NULL the code BAJOFEKI_NO_LEXER or BAJOFEKI_OTHER_VERSION. */
static inline bajofeki_report_t bajofeki_lexer_report(const bajofeki_lexer *lexer) {
    bajofeki_report_t none = {0, 0, 0, 0, 0, 0, 0, 0};
    none.code = bajofeki_version() == BAJOFEKI_VERSION ? (uint32_t)BAJOFEKI_NO_LEXER : (uint32_t)BAJOFEKI_OTHER_VERSION;
    return lexer == NULL ? none : bajofeki_report(lexer);
}

/* As bajofeki_word. With an `out` of NULL nothing is written. */
static inline size_t bajofeki_lexer_word(const bajofeki_lexer *lexer, uint32_t *out, size_t room) {
    uint32_t none[1];
    bool is_bad = bajofeki_is_bad(out, room, sizeof *out);
    return lexer == NULL ? 0 : bajofeki_word(lexer, is_bad || room == 0 ? none : out, is_bad ? 0 : room);
}

static inline size_t bajofeki_lexer_rules(const bajofeki_lexer *lexer) {
    return lexer == NULL ? 0 : bajofeki_rules(lexer);
}

/* As bajofeki_name. With an `out` of NULL nothing is written. */
static inline size_t bajofeki_lexer_name(const bajofeki_lexer *lexer, size_t rule, char *out, size_t room) {
    char none[1];
    bool is_bad = bajofeki_is_bad(out, room, 1);
    return lexer == NULL ? 0 : bajofeki_name(lexer, rule, is_bad || room == 0 ? none : out, is_bad ? 0 : room);
}

static inline bool bajofeki_lexer_skips(const bajofeki_lexer *lexer, size_t rule) {
    return lexer != NULL && bajofeki_skips(lexer, rule);
}

static inline size_t bajofeki_lexer_modes(const bajofeki_lexer *lexer) {
    return lexer == NULL ? 0 : bajofeki_modes(lexer);
}

/* As bajofeki_mode_name. With an `out` of NULL nothing is written. */
static inline size_t bajofeki_lexer_mode_name(const bajofeki_lexer *lexer, size_t mode, char *out, size_t room) {
    char none[1];
    bool is_bad = bajofeki_is_bad(out, room, 1);
    return lexer == NULL ? 0 : bajofeki_mode_name(lexer, mode, is_bad || room == 0 ? none : out, is_bad ? 0 : room);
}

static inline bajofeki_action_t bajofeki_lexer_action(const bajofeki_lexer *lexer, size_t rule, size_t place) {
    bajofeki_action_t none = {BAJOFEKI_NO_ACTION, 0};
    return lexer == NULL ? none : bajofeki_action(lexer, rule, place);
}

static inline bajofeki_look_t bajofeki_lexer_lookahead(const bajofeki_lexer *lexer, size_t mode) {
    bajofeki_look_t none = {BAJOFEKI_NO_LEXER, 0};
    return lexer == NULL ? none : bajofeki_lookahead(lexer, mode);
}

/* As bajofeki_html. With an `out` of NULL nothing is written. The code is BAJOFEKI_BAD_ARGUMENT too. */
static inline bajofeki_page_t bajofeki_lexer_html(const bajofeki_lexer *lexer, const char *text, size_t length, char *out, size_t room) {
    char none[1];
    bajofeki_page_t page = {BAJOFEKI_NO_LEXER, 0};
    bool is_bad = bajofeki_is_bad(out, room, 1);
    if (lexer == NULL || bajofeki_is_bad(text, length, 1)) {
        page.code = lexer == NULL ? BAJOFEKI_NO_LEXER : BAJOFEKI_BAD_ARGUMENT;
        return page;
    }
    return bajofeki_html(lexer, length == 0 ? "" : text, length, is_bad || room == 0 ? none : out, is_bad ? 0 : room);
}

/* As bajofeki_lexer_html. */
static inline bajofeki_page_t bajofeki_lexer_ansi(const bajofeki_lexer *lexer, const char *text, size_t length, char *out, size_t room) {
    char none[1];
    bajofeki_page_t page = {BAJOFEKI_NO_LEXER, 0};
    bool is_bad = bajofeki_is_bad(out, room, 1);
    if (lexer == NULL || bajofeki_is_bad(text, length, 1)) {
        page.code = lexer == NULL ? BAJOFEKI_NO_LEXER : BAJOFEKI_BAD_ARGUMENT;
        return page;
    }
    return bajofeki_ansi(lexer, length == 0 ? "" : text, length, is_bad || room == 0 ? none : out, is_bad ? 0 : room);
}

/* As bajofeki_c_source. With an `out` of NULL nothing is written. The code is BAJOFEKI_BAD_ARGUMENT too. */
static inline bajofeki_page_t bajofeki_lexer_c_source(const bajofeki_lexer *lexer, const char *prefix, size_t length, char *out, size_t room) {
    char none[1];
    bajofeki_page_t page = {BAJOFEKI_NO_LEXER, 0};
    bool is_bad = bajofeki_is_bad(out, room, 1);
    if (lexer == NULL || bajofeki_is_bad(prefix, length, 1)) {
        page.code = lexer == NULL ? BAJOFEKI_NO_LEXER : BAJOFEKI_BAD_ARGUMENT;
        return page;
    }
    return bajofeki_c_source(lexer, length == 0 ? "" : prefix, length, is_bad || room == 0 ? none : out, is_bad ? 0 : room);
}

/* As bajofeki_rust_source. With an `out` of NULL nothing is written. */
static inline bajofeki_page_t bajofeki_lexer_rust_source(const bajofeki_lexer *lexer, char *out, size_t room) {
    char none[1];
    bajofeki_page_t page = {BAJOFEKI_NO_LEXER, 0};
    bool is_bad = bajofeki_is_bad(out, room, 1);
    return lexer == NULL ? page : bajofeki_rust_source(lexer, is_bad || room == 0 ? none : out, is_bad ? 0 : room);
}

/* Without a check: the code for bad arguments, or for a library of another version. */
static inline bajofeki_checked_t bajofeki_unchecked(void) {
    bajofeki_checked_t none = {BAJOFEKI_BAD_ARGUMENT, 0, 0};
    none.code = bajofeki_version() == BAJOFEKI_VERSION ? (uint32_t)BAJOFEKI_BAD_ARGUMENT : (uint32_t)BAJOFEKI_OTHER_VERSION;
    return none;
}

/* As bajofeki_check, of a file whose name ends with a 0; with NULL it is `rules`. With an `out` of NULL nothing is written. */
static inline bajofeki_checked_t bajofeki_rules_check(const char *name, const char *rules, size_t length, bool is_json, char *out, size_t room) {
    char none[1];
    const char *file = name == NULL ? "rules" : name;
    bajofeki_checked_t checked = bajofeki_unchecked();
    bool is_bad = bajofeki_is_bad(out, room, 1);
    if (checked.code == BAJOFEKI_OTHER_VERSION || bajofeki_is_bad(rules, length, 1)) {
        return checked;
    }
    return bajofeki_check(file, strlen(file), length == 0 ? "" : rules, length, is_json, is_bad || room == 0 ? none : out, is_bad ? 0 : room);
}

/* As bajofeki_diff, of files whose names end with a 0; with NULL they are `rules` and `others`. With an `out` of NULL nothing is written. */
static inline bajofeki_checked_t bajofeki_rules_diff(const char *name, const char *rules, size_t length, const char *other_name,
                                                     const char *other, size_t other_length, char *out, size_t room) {
    char none[1];
    const char *first = name == NULL ? "rules" : name, *second = other_name == NULL ? "others" : other_name;
    bajofeki_checked_t checked = bajofeki_unchecked();
    bool is_bad = bajofeki_is_bad(out, room, 1);
    if (checked.code == BAJOFEKI_OTHER_VERSION || bajofeki_is_bad(rules, length, 1) || bajofeki_is_bad(other, other_length, 1)) {
        return checked;
    }
    return bajofeki_diff(first, strlen(first), length == 0 ? "" : rules, length, second, strlen(second), other_length == 0 ? "" : other,
                         other_length, is_bad || room == 0 ? none : out, is_bad ? 0 : room);
}

/* As bajofeki_dot, of a file whose name ends with a 0, with NULL `rules`, and of a rule whose name does; with NULL each mode is drawn. With
   an `out` of NULL nothing is written. */
static inline bajofeki_checked_t bajofeki_rules_dot(const char *name, const char *rules, size_t length, const char *rule, char *out,
                                                    size_t room) {
    char none[1];
    const char *file = name == NULL ? "rules" : name, *drawn = rule == NULL ? "" : rule;
    bajofeki_checked_t checked = bajofeki_unchecked();
    bool is_bad = bajofeki_is_bad(out, room, 1);
    if (checked.code == BAJOFEKI_OTHER_VERSION || bajofeki_is_bad(rules, length, 1)) {
        return checked;
    }
    return bajofeki_dot(file, strlen(file), length == 0 ? "" : rules, length, drawn, strlen(drawn), is_bad || room == 0 ? none : out,
                        is_bad ? 0 : room);
}

/* A text that is being cut. The lexer and the bytes stay the caller's, and last longer than it. It may be moved, but of two copies only
   one is used on. */
typedef struct {
    const bajofeki_lexer *lexer;
    const char *bytes;
    size_t length;
    uint32_t code; /* BAJOFEKI_DONE, or why it can't be cut */
    bajofeki_cutter *cutter;
    bajofeki_place_t place; /* the last one that was asked for */
} bajofeki_text;

/* Other bytes before the first piece, in the memory of a text that was begun, by its lexer or another. Quicker for many short texts than
   bajofeki_text_begin, and else as it; bajofeki_text_end is owed once. */
static inline void bajofeki_text_begin_again(bajofeki_text *text, const bajofeki_lexer *lexer, const char *bytes, size_t length) {
    bajofeki_text again = {lexer, length == 0 ? "" : bytes, length, BAJOFEKI_DONE, text->cutter, {0, 1, 1}};
    if (lexer == NULL || bajofeki_is_bad(bytes, length, 1)) {
        again.code = lexer == NULL ? BAJOFEKI_NO_LEXER : BAJOFEKI_BAD_ARGUMENT;
    } else if (again.cutter != NULL) {
        again.code = bajofeki_begin_again(lexer, again.cutter, length);
    } else {
        again.cutter = (bajofeki_cutter *)malloc(bajofeki_cutter_size());
        again.code = again.cutter == NULL ? (uint32_t)BAJOFEKI_OUT_OF_MEMORY : bajofeki_begin(lexer, again.cutter, length);
    }
    *text = again;
}

/* The bytes before the first piece. bajofeki_text_end is owed. Its code is BAJOFEKI_DONE, BAJOFEKI_OUT_OF_MEMORY, BAJOFEKI_NO_LEXER or
   BAJOFEKI_BAD_ARGUMENT. */
static inline bajofeki_text bajofeki_text_begin(const bajofeki_lexer *lexer, const char *bytes, size_t length) {
    bajofeki_text text = {NULL, NULL, 0, BAJOFEKI_NO_LEXER, NULL, {0, 1, 1}};
    bajofeki_text_begin_again(&text, lexer, bytes, length);
    return text;
}

/* The next pieces, as many as the array takes. Without a cut the code is the text's. */
static inline bajofeki_cut_t bajofeki_text_next(bajofeki_text *text, bajofeki_piece_t *out, size_t room) {
    bajofeki_piece_t none[1];
    bajofeki_cut_t cut = {BAJOFEKI_BAD_ARGUMENT, 0, 0};
    if (text == NULL || bajofeki_is_bad(out, room, sizeof *out)) {
        return cut;
    }
    cut.code = text->code;
    if (text->code != BAJOFEKI_DONE) {
        return cut;
    }
    return bajofeki_cut(text->lexer, text->cutter, text->bytes, text->length, room == 0 ? none : out, room);
}

/* The line and the column of the beginning or the end of a piece. Asked in their order, all of them are found in one pass. Both are 0
   without a text, and once bajofeki_text_end was called. */
static inline bajofeki_place_t bajofeki_text_place(bajofeki_text *text, size_t at) {
    bajofeki_place_t none = {0, 0, 0}, place = {0, 1, 1};
    if (text == NULL || text->code == BAJOFEKI_NO_LEXER || text->code == BAJOFEKI_BAD_ARGUMENT) {
        return none;
    }
    if (text->place.at <= at) {
        place = text->place;
    }
    return text->place = bajofeki_place_from(place, text->bytes, text->length, at, BAJOFEKI_CHARACTERS);
}

/* Gives the cut's memory back. A second call does nothing. */
static inline void bajofeki_text_end(bajofeki_text *text) {
    if (text != NULL && text->cutter != NULL) {
        bajofeki_end(text->cutter);
        free(text->cutter);
        text->cutter = NULL;
        text->code = BAJOFEKI_NO_LEXER;
    }
}

/* An empty document, to be deleted by bajofeki_document_delete before its lexer is. NULL of a lexer that is NULL, or if malloc refused. */
static inline bajofeki_document *bajofeki_document_new(const bajofeki_lexer *lexer) {
    bajofeki_document *document = lexer == NULL ? NULL : (bajofeki_document *)malloc(bajofeki_document_size());
    if (document != NULL) {
        bajofeki_document_begin(lexer, document);
    }
    return document;
}

static inline void bajofeki_document_delete(bajofeki_document *document) {
    if (document != NULL) {
        bajofeki_document_end(document);
        free(document);
    }
}

/* As bajofeki_edit. The code is BAJOFEKI_BAD_ARGUMENT too, and of NULL BAJOFEKI_NO_LEXER. */
static inline bajofeki_edit_t bajofeki_document_edit(bajofeki_document *document, size_t from, size_t to, const char *bytes, size_t length) {
    bajofeki_edit_t none = {BAJOFEKI_NO_LEXER, 0, 0, 0, 0, 0, 0};
    if (document == NULL || bajofeki_is_bad(bytes, length, 1)) {
        none.code = document == NULL ? BAJOFEKI_NO_LEXER : BAJOFEKI_BAD_ARGUMENT;
        return none;
    }
    return bajofeki_edit(document, from, to, length == 0 ? "" : bytes, length);
}

/* As bajofeki_pieces. With an `out` of NULL nothing is written. */
static inline bajofeki_count_t bajofeki_document_pieces(const bajofeki_document *document, size_t from, size_t to, bajofeki_piece_t *out,
                                                        size_t room) {
    bajofeki_piece_t none[1];
    bajofeki_count_t count = {BAJOFEKI_NO_LEXER, 0};
    bool is_bad = bajofeki_is_bad(out, room, sizeof *out);
    return document == NULL ? count : bajofeki_pieces(document, from, to, is_bad || room == 0 ? none : out, is_bad ? 0 : room);
}

static inline bajofeki_place_t bajofeki_document_place(const bajofeki_document *document, size_t at) {
    bajofeki_place_t none = {0, 0, 0};
    return document == NULL ? none : bajofeki_place(document, at);
}

static inline bajofeki_place_t bajofeki_document_offset(const bajofeki_document *document, size_t line, size_t column) {
    bajofeki_place_t none = {0, 0, 0};
    return document == NULL ? none : bajofeki_offset(document, line, column);
}

/* As bajofeki_copy. With an `out` of NULL nothing is written. */
static inline size_t bajofeki_document_text(const bajofeki_document *document, size_t from, char *out, size_t room) {
    char none[1];
    bool is_bad = bajofeki_is_bad(out, room, 1);
    return document == NULL ? 0 : bajofeki_copy(document, from, is_bad || room == 0 ? none : out, is_bad ? 0 : room);
}

/* A stream, to be deleted by bajofeki_stream_delete before its lexer is. NULL of a lexer that is NULL, or if malloc refused. */
static inline bajofeki_stream *bajofeki_stream_new(const bajofeki_lexer *lexer) {
    bajofeki_stream *stream = lexer == NULL ? NULL : (bajofeki_stream *)malloc(bajofeki_stream_size());
    if (stream != NULL) {
        bajofeki_stream_begin(lexer, stream);
    }
    return stream;
}

static inline void bajofeki_stream_delete(bajofeki_stream *stream) {
    if (stream != NULL) {
        bajofeki_stream_end(stream);
        free(stream);
    }
}

/* As bajofeki_feed. It gives BAJOFEKI_BAD_ARGUMENT too, and of NULL BAJOFEKI_NO_LEXER. */
static inline uint32_t bajofeki_stream_feed(bajofeki_stream *stream, const char *bytes, size_t length, bool is_last) {
    if (stream == NULL || bajofeki_is_bad(bytes, length, 1)) {
        return stream == NULL ? BAJOFEKI_NO_LEXER : BAJOFEKI_BAD_ARGUMENT;
    }
    return bajofeki_feed(stream, length == 0 ? "" : bytes, length, is_last);
}

/* As bajofeki_next. The code is BAJOFEKI_BAD_ARGUMENT too, and of NULL BAJOFEKI_NO_LEXER. */
static inline bajofeki_count_t bajofeki_stream_next(bajofeki_stream *stream, bajofeki_piece_t *out, size_t room) {
    bajofeki_piece_t none[1];
    bajofeki_count_t count = {BAJOFEKI_NO_LEXER, 0};
    if (stream == NULL || bajofeki_is_bad(out, room, sizeof *out)) {
        count.code = stream == NULL ? BAJOFEKI_NO_LEXER : BAJOFEKI_BAD_ARGUMENT;
        return count;
    }
    return bajofeki_next(stream, room == 0 ? none : out, room);
}

#endif
