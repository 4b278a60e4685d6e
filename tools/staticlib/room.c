/* Tries the library for firmware with too little room and with just enough, and on a state of any words; prints the name of each
 * check that fails, and ends with 1 where one did. */
#include <stdio.h>
#include <string.h>

#include "woldgrater.h"

static const uint8_t rows[] = "econ\n\n\n";
static const char answers[] = "                    5\n                    5\n";
enum { LEN = sizeof rows - 1, ANSWERS = sizeof answers - 1 };

/* The last word of a state: how many bytes of a line are kept. */
enum { KEPT = sizeof(struct woldgrater_state) / sizeof(uint64_t) - 1 };

/* All that is lent to be written. */
static struct {
    uint8_t out[WOLDGRATER_ROOM(LEN)];
    double times[WOLDGRATER_WINDOW];
    double integrals[WOLDGRATER_WINDOW];
    uint8_t line[WOLDGRATER_LINE];
    uint8_t beyond[64];
} lent, before;

static int failed;

static void expect(const char *what, int held)
{
    if (!held) {
        printf("%s\n", what);
        failed++;
    }
}

/* Nothing was written to the output after the answers. */
static int rest_untouched(void)
{
    return memcmp(lent.out + ANSWERS, before.out + ANSWERS, sizeof lent.out - ANSWERS) == 0;
}

/* Nothing was written. */
static int untouched(void)
{
    return memcmp(&lent, &before, sizeof lent) == 0;
}

static struct woldgrater_fed feed(size_t room, struct woldgrater_state state)
{
    return woldgrater_feed(rows, LEN, lent.out, room, lent.line, lent.times, lent.integrals, state);
}

static void try_play(void)
{
    expect("play: a byte too few is refused", woldgrater_play(rows, LEN, lent.out, sizeof lent.out - 1) == WOLDGRATER_REFUSED && untouched());
    expect("play: no room is refused", woldgrater_play(rows, LEN, lent.out, 0) == WOLDGRATER_REFUSED && untouched());
    expect("play: room for no byte of rows is refused", woldgrater_play(rows, LEN, lent.out, WOLDGRATER_ROOM(0)) == WOLDGRATER_REFUSED && untouched());
    expect("play: the room asked is enough", woldgrater_play(rows, LEN, lent.out, sizeof lent.out) == ANSWERS);
    expect("play: two empty lines are refused with 5", memcmp(lent.out, answers, ANSWERS) == 0);
    expect("play: the bytes after the answers are as they were", rest_untouched());
}

static void try_feed(void)
{
    static const size_t small[] = { 0, WOLDGRATER_ROOM(0), sizeof lent.out - 1 };
    struct woldgrater_state state = woldgrater_start();
    struct woldgrater_fed fed;
    for (size_t i = 0; i < sizeof small / sizeof *small; i++) {
        fed = feed(small[i], state);
        expect("feed: too little room is refused", fed.sent == WOLDGRATER_REFUSED && untouched());
        expect("feed: the state of a refused call is as it was", memcmp(&fed.state, &state, sizeof state) == 0);
        expect("feed: the reader of a refused first chunk has not stopped", fed.stopped == 0);
    }
    fed = feed(sizeof lent.out, state);
    expect("feed: the room asked is enough", fed.sent == ANSWERS);
    expect("feed: two empty lines are refused with 5", memcmp(lent.out, answers, ANSWERS) == 0);
    expect("feed: the bytes after the answers are as they were", rest_untouched());
    expect("feed: a reader that has a kind has not stopped", fed.stopped == 0);
    expect("feed: another kind's arrays are as they were", memcmp(lent.times, before.times, sizeof lent.times) == 0 && memcmp(lent.integrals, before.integrals, sizeof lent.integrals) == 0);
}

/* A first line that names no kind stops the reader, and a refused call after it says so too. */
static void try_stopped(void)
{
    static const uint8_t boiler[] = "boiler\n";
    struct woldgrater_fed fed = woldgrater_feed(boiler, sizeof boiler - 1, lent.out, sizeof lent.out, lent.line, lent.times, lent.integrals,
                                                woldgrater_start());
    expect("feed: a first line that names no kind is refused", fed.sent == WOLDGRATER_ROOM_FINISH);
    expect("feed: a first line that names no kind stops the reader", fed.stopped == 1);
    fed = feed(0, fed.state);
    expect("feed: a stopped reader without room is refused, and stopped", fed.sent == WOLDGRATER_REFUSED && fed.stopped == 1);
    fed = feed(sizeof lent.out, fed.state);
    expect("feed: a stopped reader reads no more", fed.sent == 0 && fed.stopped == 1);
}

static void try_finish(void)
{
    static const char no_kind[] = "                    6\n";
    struct woldgrater_state state = woldgrater_start();
    expect("finish: a byte too few is refused", woldgrater_finish(lent.out, WOLDGRATER_ROOM_FINISH - 1, lent.line, state) == WOLDGRATER_REFUSED && untouched());
    expect("finish: the room asked is enough", woldgrater_finish(lent.out, WOLDGRATER_ROOM_FINISH, lent.line, state) == sizeof no_kind - 1);
    expect("finish: an empty input is refused with 6", memcmp(lent.out, no_kind, sizeof no_kind - 1) == 0);
}

/* Words that no call gave are read as some state: nothing else is written, and what is sent fits. */
static void try_any_state(void)
{
    struct woldgrater_fed fed;
    for (unsigned phase = 0; phase < 6; phase++)
        for (unsigned byte = 0; byte < 256; byte++) {
            memset(&fed, (int)byte, sizeof fed);
            fed.state.words[0] = phase;
            fed = feed(sizeof lent.out, fed.state);
            expect("feed: any words are a state", fed.sent <= sizeof lent.out && fed.state.words[KEPT] <= WOLDGRATER_LINE);
            memset(&fed, (int)byte, sizeof fed);
            fed.state.words[0] = phase;
            expect("finish: any words are a state", woldgrater_finish(lent.out, WOLDGRATER_ROOM_FINISH, lent.line, fed.state) <= WOLDGRATER_ROOM_FINISH);
        }
    expect("nothing is written beyond", memcmp(lent.beyond, before.beyond, sizeof lent.beyond) == 0);
}

int main(void)
{
    void (*const tries[])(void) = { try_play, try_feed, try_stopped, try_finish, try_any_state };
    memset(&before, 0xA5, sizeof before);
    for (size_t i = 0; i < sizeof tries / sizeof *tries; i++) {
        lent = before;
        tries[i]();
    }
    return failed != 0;
}
