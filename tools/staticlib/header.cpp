// The header in C++: it compiles without a warning, and its functions are found when they are linked.
#include "woldgrater.h"

static struct woldgrater_board board;

// Whether a unit's row is taken, and one for no unit turned away.
static bool offered()
{
    const uint64_t keeps_hour[6] = {};
    struct woldgrater_rooftop_row row = {};
    woldgrater_board_start(&board, keeps_hour);
    return woldgrater_board_offer(&board, 5, row) == WOLDGRATER_ACCEPTED && woldgrater_board_offer(&board, 6, row) == WOLDGRATER_NO_UNIT;
}

int main()
{
    struct woldgrater_freeze_row row = {};
    bool accepted = woldgrater_freeze_row(woldgrater_freeze_start(0), row).status == WOLDGRATER_ACCEPTED;
    return accepted && offered() && woldgrater_board_tick(&board).unit == 5 ? 0 : 1;
}
