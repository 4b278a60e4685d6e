/* Feeds a row file from standard input chunk by chunk and prints the answers as they come, as the program `rows` does.
 *
 *     feed [BYTES]    BYTES of a chunk, from 1 to 4096; without it 4096
 */
#define _POSIX_C_SOURCE 200809L
#include <stdio.h>
#include <stdlib.h>
#include <unistd.h>

#include "woldgrater.h"

enum { CHUNK = 4096 };

/* What is carried from chunk to chunk. */
static struct woldgrater_state state;
static uint8_t line[WOLDGRATER_LINE];
static double times[WOLDGRATER_WINDOW];
static double integrals[WOLDGRATER_WINDOW];

static uint8_t chunk[CHUNK];
static uint8_t out[WOLDGRATER_ROOM(CHUNK)];

/* Whether so many bytes of the output could be written. */
static int written(size_t len)
{
    return len != WOLDGRATER_REFUSED && fwrite(out, 1, len, stdout) == len && fflush(stdout) == 0;
}

int main(int argc, char **argv)
{
    long size = argc > 1 ? strtol(argv[1], NULL, 10) : CHUNK;
    ssize_t len;
    if (size < 1 || size > CHUNK) {
        fputs("feed: BYTES is from 1 to 4096\n", stderr);
        return 2;
    }
    state = woldgrater_start();
    /* `read`, since `fread` would wait for a whole chunk. */
    while ((len = read(STDIN_FILENO, chunk, (size_t)size)) > 0) {
        struct woldgrater_fed fed = woldgrater_feed(chunk, (size_t)len, out, sizeof out, line, times, integrals, state);
        state = fed.state;
        if (!written(fed.sent))
            return 1;
        if (fed.stopped)
            return 0;
    }
    return len < 0 || !written(woldgrater_finish(out, sizeof out, line, state));
}
