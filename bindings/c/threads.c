/* threads: by one lexer each of some threads cuts a text, edits a document, feeds a stream and asks for what the lexer knows, all at once. To
   be run under valgrind's helgrind, which tells each place in memory for which two of them race. */
#include <pthread.h>
#include <stdio.h>
#include <string.h>
#include "bajofeki.h"

enum { THREADS = 4, TIMES = 20, ROOM = 4 };

static const char rules[] = "OPEN push QUOTED = /\"/\nLET = 'let'\nDIGIT = /[0-9]/\nLONG = /[0-9]+!/\nSPACE skip = /\\s+/\n"
                            "[QUOTED]\nCLOSE pop = /\"/\nPART = /[^\"]+/\n";
static const char text[] = "let 1111 \"two words\" 1! ?\n"; /* 15 pieces */
static bajofeki_lexer *lexer;

static size_t count_in_text(void) {
    bajofeki_piece_t pieces[ROOM];
    bajofeki_text cut = bajofeki_text_begin(lexer, text, strlen(text));
    size_t count = 0;
    bajofeki_cut_t part;
    do {
        part = bajofeki_text_next(&cut, pieces, ROOM);
        count += part.count;
    } while (part.code == BAJOFEKI_FULL);
    bajofeki_text_end(&cut);
    return part.code == BAJOFEKI_DONE ? count : 0;
}

static size_t count_in_document(void) {
    bajofeki_document *document = bajofeki_document_new(lexer);
    size_t count = 0;
    for (size_t at = strlen(text); at > 0; at--) {
        bajofeki_document_edit(document, 0, 0, text + at - 1, 1);
    }
    count = bajofeki_document_pieces(document, 0, SIZE_MAX, NULL, 0).count;
    bajofeki_document_delete(document);
    return count;
}

static size_t count_in_stream(void) {
    bajofeki_piece_t pieces[ROOM];
    bajofeki_stream *stream = bajofeki_stream_new(lexer);
    size_t count = 0;
    for (size_t at = 0; at < strlen(text); at++) {
        bajofeki_stream_feed(stream, text + at, 1, at + 1 == strlen(text));
        count += bajofeki_stream_next(stream, pieces, ROOM).count;
    }
    for (size_t more = ROOM; more == ROOM; count += more) {
        more = bajofeki_stream_next(stream, pieces, ROOM).count;
    }
    bajofeki_stream_delete(stream);
    return count;
}

/* Gives how many pieces the text has, or NULL if that isn't so each time. */
static void *work(void *count) {
    size_t *own = (size_t *)count;
    *own = count_in_text();
    for (int i = 0; i < TIMES; i++) {
        char name[ROOM];
        bool is_right = count_in_text() == *own && count_in_document() == *own && count_in_stream() == *own;
        is_right = is_right && bajofeki_lexer_html(lexer, text, strlen(text), NULL, 0).code == BAJOFEKI_SHOWN;
        is_right = is_right && bajofeki_lexer_name(lexer, 1, name, ROOM) == 3 && bajofeki_lexer_lookahead(lexer, 0).code == BAJOFEKI_UNBOUNDED;
        if (!is_right) {
            return NULL;
        }
    }
    return count;
}

int main(void) {
    pthread_t threads[THREADS];
    size_t counts[THREADS], failed = 0;
    lexer = bajofeki_lexer_new(rules, strlen(rules));
    for (size_t i = 0; i < THREADS; i++) {
        failed += (size_t)(pthread_create(&threads[i], NULL, work, &counts[i]) != 0);
    }
    for (size_t i = 0; i < THREADS && failed == 0; i++) {
        void *count = NULL;
        failed += (size_t)(pthread_join(threads[i], &count) != 0 || count == NULL || counts[i] != 15);
    }
    bajofeki_lexer_delete(lexer);
    if (failed > 0) {
        fprintf(stderr, "threads: %zu failed\n", failed);
    }
    return failed > 0;
}
