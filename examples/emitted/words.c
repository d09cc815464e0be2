/* Writes the tokens of standard input, up to a megabyte, and `!` before what no rule matches. */
#include <stdio.h>
#include "lexer.c"

int main(void) {
    static char text[1 << 20];
    size_t length = fread(text, 1, sizeof text, stdin);
    lex_lexer lexer = lex_begin(text, length);
    lex_piece piece;
    while (lex_next(&lexer, &piece) > 0) {
        if (piece.kind == lex_fault || !lex_skips(piece.rule)) {
            const char *name = piece.kind == lex_fault ? "!" : lex_name(piece.kind);
            printf("%s %.*s\n", name, (int)piece.length, text + piece.start);
        }
    }
    return 0;
}
