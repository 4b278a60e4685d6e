/* The timers among the signals of a row, worked again from their inputs at the rows before. For calls.c. */
#include "forged.h"

/* A timer: the words of its input, of its answer and of what is left on it, and the seconds after which it passes. */
#define TIMER(kind, input, answer, named, seconds)                                                                           \
    { #kind " " #named, AT(kind, signals.input), AT(kind, signals.answer.passed), AT(kind, signals.answer.elapsed),           \
      AT(kind, left.named), seconds, 0, 0, 0 }
#define AT(kind, field) (offsetof(struct woldgrater_##kind##_shown, field) / sizeof(uint64_t) - 1)

static struct timer {
    const char *name;
    size_t input, passed, elapsed, left;
    double seconds;
    int on;                                /* its input at the accepted row before, */
    int risen;                             /* whether it has come on, */
    double since;                          /* and when it did last */
} timers[] = {
    TIMER(freeze, calls.les_thr_y, calls.tim, tim, 300),   TIMER(freeze, calls.gre_thr_y, calls.tim1, tim1, 300),
    TIMER(freeze, calls.les_thr1_y, calls.tim2, tim2, 300), TIMER(freeze, calls.les_thr1_y, calls.tim3, tim3, 900),
    TIMER(freeze, calls.les_thr2_y, calls.tim4, tim4, 300), TIMER(freeze, calls.hol_sta2_y, tim5, tim5, 3600),
    TIMER(relief, dampers.damper_close_request, dampers.tim, tim, 300),
    TIMER(relief, up.up_gate, up.up_tim, up_tim, 420),     TIMER(relief, down.down_gate, down.dow_tim, dow_tim, 300),
};

static double number(uint64_t word)
{
    double made;
    memcpy(&made, &word, sizeof made);
    return made;
}

/* Whether a timer runs on when its input goes off: that of stage 2's hour, where stage 2 keeps to it. */
static int runs_on(const struct timer *timer)
{
    return strcmp(kind->name, "keep-hour") == 0 && timer->seconds == 3600;
}

/* Whether the answer of a timer, and what is left on it, are what its input at the rows up to here makes of them; moves on. The times of
 * accepted rows do not fall, so a pass stays while the timer counts, whether it holds it or not. */
static int timed(struct timer *timer)
{
    int was = timer->on, counts, passed;
    double time = number(row[0]), elapsed, left;
    timer->on = signals[timer->input] != 0;
    counts = was && timer->on;
    if (runs_on(timer))
        counts = timer->risen && (was || !timer->on);
    if (timer->on && !was) {
        timer->risen = 1;
        timer->since = time;
    }
    elapsed = counts ? time - timer->since : 0;
    passed = counts && elapsed >= timer->seconds;
    left = passed ? 0 : timer->seconds - elapsed;
    return signals[timer->passed] == (uint64_t)passed && signals[timer->elapsed] == pattern(elapsed) &&
           signals[timer->left] == pattern(left);
}

/* The first timer of the kind that is not so at an accepted row; null where all are. */
static const char *untimed(void)
{
    const char *found = NULL;
    for (size_t i = 0; i < sizeof timers / sizeof *timers; i++)
        if (strncmp(timers[i].name, kind->file, strlen(kind->file)) == 0 && !timed(&timers[i]))
            found = timers[i].name;
    return found;
}
