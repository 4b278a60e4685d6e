/* Plays a row file from standard input and prints the output, as the program `rows` does. */
#include <stdio.h>
#include <stdlib.h>

#include "woldgrater.h"

/* All of standard input; its length goes to len. Null where memory or reading fails. */
static uint8_t *read_all(size_t *len)
{
    size_t room = 65536;
    uint8_t *bytes = malloc(room);
    *len = 0;
    while (bytes != NULL) {
        *len += fread(bytes + *len, 1, room - *len, stdin);
        if (*len < room)
            break;
        room *= 2;
        uint8_t *more = realloc(bytes, room);
        if (more == NULL)
            free(bytes);
        bytes = more;
    }
    if (bytes != NULL && ferror(stdin)) {
        free(bytes);
        bytes = NULL;
    }
    return bytes;
}

int main(void)
{
    size_t len;
    uint8_t *rows = read_all(&len);
    size_t room = WOLDGRATER_ROOM(len);
    uint8_t *out = rows == NULL ? NULL : malloc(room);
    int bad = 1;
    if (out != NULL) {
        size_t written = woldgrater_play(rows, len, out, room);
        bad = written == WOLDGRATER_REFUSED || fwrite(out, 1, written, stdout) != written || fflush(stdout) != 0;
    }
    free(out);
    free(rows);
    if (bad)
        fputs("play: not played\n", stderr);
    return bad;
}
