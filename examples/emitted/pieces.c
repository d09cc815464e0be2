/* Cuts standard input by the lexer in lexer.c, and writes a line for each piece that isn't skipped: its name, `!` for a fault,
   where it begins, and where it ends. It ends where there are too many modes. With an argument the lexer has no memo. */
#include <stdio.h>
#include <stdlib.h>
#include "lexer.c"

int main(int count, char **words) {
    static char text[1 << 22];
    size_t length = fread(text, 1, sizeof text, stdin);
    size_t size = lex_memo_size(length);
    uint64_t *memo = (uint64_t *)calloc(size, sizeof *memo);
    lex_lexer lexer = count > 1 ? lex_begin(text, length) : lex_begin_linear(text, length, memo, size);
    lex_piece piece;
    (void)words;
    if (memo == NULL) {
        return 1;
    }
    while (lex_next(&lexer, &piece) > 0) {
        if (piece.kind == lex_fault) {
            printf("! %zu %zu\n", piece.start, piece.start + piece.length);
        } else if (!lex_skips(piece.rule)) {
            printf("%s %zu %zu\n", lex_name(piece.kind), piece.start, piece.start + piece.length);
        }
    }
    free(memo);
    return 0;
}
