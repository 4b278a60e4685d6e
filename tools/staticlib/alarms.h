/* The alarms of a row, and those that a relief state remembers, held to the rows before. For calls.c. */
#include "timers.h"

enum { FANS = 4 };

/* What is to be remembered: the alarms of the last accepted row from the start, 0 before any. */
static int64_t last_alarms[FANS];

/* The alarm of a fan in the row. */
static int64_t row_alarm(size_t fan)
{
    return (int64_t)row[(size_t)(strchr(kind->row, 'a') - kind->row) + fan];
}

/* Whether a signed byte holds each alarm of the row. */
static int alarms_fit(void)
{
    size_t fan = 0;
    while (kind->windowed && fan < FANS && row_alarm(fan) >= INT8_MIN && row_alarm(fan) <= INT8_MAX)
        fan++;
    return !kind->windowed || fan == FANS;
}

/* Whether the state is one that the call reads. */
static int remembers(void)
{
    return kind->state == WORDS(struct woldgrater_relief_state);
}

/* What the call gives of a fan, for the state that the row gave. */
static struct woldgrater_alarm_given given_alarm(size_t fan)
{
    struct woldgrater_relief_state made;
    memcpy(&made, given_state, sizeof made);
    return woldgrater_relief_alarm(made, fan);
}

/* Whether there is no fan of an index above 3, the least, the greatest or any. */
static int no_other_fan(void)
{
    size_t some[] = { FANS, SIZE_MAX, FANS + (size_t)any_word() % (SIZE_MAX - FANS) };
    struct woldgrater_alarm_given given = given_alarm(some[below(3)]);
    return given.known == 0 && given.alarm == 0;
}

/* Whether each fan's alarm is remembered after a row from the start; moves on. */
static int remembered(void)
{
    size_t fan;
    for (fan = 0; fan < FANS; fan++) {
        struct woldgrater_alarm_given given = given_alarm(fan);
        if (status == WOLDGRATER_ACCEPTED)
            last_alarms[fan] = row_alarm(fan);
        if (given.known != 1 || given.alarm != last_alarms[fan])
            break;
    }
    return fan == FANS && no_other_fan();
}

/* Whether what is remembered of each fan is a signed byte, whatever the words of the state. */
static int bytes_remembered(void)
{
    size_t fan = 0;
    while (fan < FANS && given_alarm(fan).known == 1 && given_alarm(fan).alarm >= INT8_MIN && given_alarm(fan).alarm <= INT8_MAX)
        fan++;
    return fan == FANS && no_other_fan();
}
