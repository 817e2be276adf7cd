/* The library for boards without an operating system's library: asks for both calls and looks at each field. It ends with
 * status 0, or with a bit for each call that answered otherwise. */
#include "board.h"
#include "bare.h"

/* The last line is missing, or machine 1 starts in a place that it has not. */
static const char short_by_one[] = "(accepted 1)\n";
static const char astray[] = "(accepted 2)\n(machine 0 (places 1) (start 0))\n(machine 1 (places 2) (start 2))\n";

#define ANSWERED(answer) ((answer).number == BOARD_ANSWERED && (answer).detail == 0 && (answer).second == 0)
#define BAD(answer, line) ((answer).number == BOARD_BAD_SHEET && (answer).detail == (line) && (answer).second == 0)

static int loads(void)
{
    uint8_t out[sizeof sheet] = {0};
    struct board_answer bad = board_sheet(TEXT(astray), out, sizeof out);
    struct board_answer asked = board_sheet(TEXT(sheet), NULL, 0);
    struct board_answer close = board_sheet(TEXT(sheet), out, sizeof sheet - 2);
    int kept = out[0] == 0;
    struct board_answer written = board_sheet(TEXT(sheet), out, sizeof out);
    return BAD(bad, 3) && bad.size == 0 && kept && asked.number == BOARD_SHORT_SHEET &&
           asked.detail == sizeof sheet - 1 && asked.size == 0 && close.number == BOARD_SHORT_SHEET &&
           ANSWERED(written) && written.size == sizeof sheet - 1 && same(out, sheet, sizeof sheet);
}

static int runs(void)
{
    static const uint8_t start[16] = {0}, ready[16] = {1}, both[16] = {1, 1};
    struct board_run_answer bad = board_run(TEXT(short_by_one), TEXT("ready\n"));
    struct board_run_answer odd = board_run(TEXT(sheet), TEXT("ready\nbrake"));
    struct board_run_answer none = board_run(TEXT(sheet), NULL, 0);
    struct board_run_answer two = board_run(TEXT(sheet), TEXT("ready\nBRAKE\n"));
    struct board_run_answer held = board_run(TEXT(sheet), TEXT("ready\nhome\n"));
    return BAD(bad, 2) && same(bad.places, start, 16) && odd.number == BOARD_ODD_CALL && odd.detail == 1 &&
           odd.second == 0 && same(odd.places, start, 16) &&
           ANSWERED(none) && none.blocked == 0 && same(none.places, start, 16) &&
           ANSWERED(two) && two.blocked == 0 && two.ran == 0 && two.machine == 0 && same(two.places, both, 16) &&
           ANSWERED(held) && held.blocked == 1 && held.ran == 1 && held.machine == 1 && same(held.places, ready, 16);
}

static int failures(void)
{
    return (loads() ? 0 : 1) | (runs() ? 0 : 2);
}
