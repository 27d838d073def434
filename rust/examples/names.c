/* Prints the names of the tags of the ABX document on standard input, of any length, and a refusal if there is one:
 *     cc -I include examples/names.c ../target/staticlib/libabx.a -o names */
#include <stdio.h>

#include "abx.h"

/* As long as the library takes them. Pages that are not used cost nothing. A row but for a tag's own has three bytes of the window at least. */
enum { WINDOW = 1048576, STORE = 16777216, POOL = 131070, ROWS = ABX_ROW * (WINDOW / 3 + 2) };
static uint8_t window[WINDOW], store[STORE], chunk[65536];
static uint32_t pool[POOL], rows[ROWS];

int main(void) {
    size_t state[ABX_STATE], a[ABX_ANSWER], from = 0, to = 0;
    abx_stream_create(state, ABX_STATE, window, WINDOW, pool, POOL, store, STORE, a, ABX_ANSWER);
    while (a[0] != ABX_END && a[0] != ABX_REFUSED) {
        abx_stream_next(state, ABX_STATE, window, WINDOW, pool, POOL, store, STORE, rows, ROWS, a, ABX_ANSWER);
        if (a[0] == ABX_DONE && rows[0] == ABX_START_TAG) {
            /* its name: rows[3] bytes from rows[2] on, in the window or in the name store */
            fwrite((rows[1] == 0 ? window : store) + rows[2], 1, rows[3], stdout);
            putchar('\n');
        }
        if (a[0] != ABX_NEED_MORE)
            continue;
        if (from == to) {
            from = 0;
            to = fread(chunk, 1, sizeof chunk, stdin);
        }
        if (from < to) {
            abx_stream_feed(state, ABX_STATE, window, WINDOW, pool, POOL, store, STORE, chunk + from, to - from, a, ABX_ANSWER);
            from += a[1];
        } else {
            abx_stream_finish(state, ABX_STATE, window, WINDOW, pool, POOL, store, STORE, a, ABX_ANSWER);
        }
    }
    if (ferror(stdin)) {
        perror("names");
        return 1;
    }
    if (a[0] == ABX_REFUSED)
        printf("refused %zu %zu\n", a[1], a[2]);
    if (fflush(stdout) != 0) {
        perror("names");
        return 1;
    }
    return a[0] == ABX_REFUSED;
}
