/* The library without an operating system's library: asks for all nine services and looks at each field. It ends with
 * status 0, or with the number of the first service that answered otherwise, from 1. */
#include "split.h"
#include "bare.h"

#define Y                                                                                                \
    "(states 4)\n(events ready brake home)\n(step 0 ready 1)\n(step 0 brake 2)\n(step 1 brake 3)\n"       \
    "(step 2 ready 3)\n(step 3 home 0)\n(machine (0 2) (1 3))\n(machine (0 1) (2 3))\n"
static const char y[] = Y;
/* Refused by a number and details that all differ, so that no two fields can be taken for each other. */
static const char forked[] = "(states 2)\n(events a)\n(step 0 a 1)\n(step 0 a 1)\n(machine (0) (1))\n";

#define ANSWERED(answer) ((answer).number == SPLIT_ANSWERED && (answer).detail == 0 && (answer).second == 0)
#define FORKED(answer) ((answer).number == SPLIT_FORK && (answer).detail == 4 && (answer).second == 3)

static int checks(void)
{
    uint8_t out[sizeof sheet] = {0};
    struct split_answer fork = split_check(TEXT(forked), out, sizeof out);
    struct split_answer asked = split_check(TEXT(y), NULL, 0);
    struct split_answer written = split_check(TEXT(y), out, sizeof out);
    return FORKED(fork) && fork.size == 0 && asked.number == SPLIT_SHORT_SHEET && asked.detail == sizeof sheet - 1 &&
           ANSWERED(written) && written.size == sizeof sheet - 1 && same(out, sheet, sizeof sheet);
}

static int lists(void)
{
    static const struct split_step listed[6] = {{0, 0, 1}, {0, 1, 2}, {1, 1, 3}, {2, 0, 3}, {3, 2, 0}, {9, 9, 9}};
    struct split_step out[6] = {{9, 9, 9}, {9, 9, 9}, {9, 9, 9}, {9, 9, 9}, {9, 9, 9}, {9, 9, 9}};
    struct split_answer fork = split_steps(TEXT(forked), out, 6);
    struct split_answer filled = split_steps(TEXT(y), out, 6);
    return FORKED(fork) && fork.size == 0 && ANSWERED(filled) && filled.size == 5 && same(out, listed, sizeof out);
}

static int names(void)
{
    struct split_part fork = split_name(TEXT(forked), 0);
    struct split_part odd = split_name(TEXT(y), 3);
    struct split_part brake = split_name(TEXT(y), 1);
    return FORKED(fork) && fork.from == 0 && fork.size == 0 && odd.number == SPLIT_ODD_CALL && odd.size == 0 &&
           ANSWERED(brake) && brake.size == 5 && same(y + brake.from, "brake", 5);
}

static int runs(void)
{
    static const uint8_t events[] = {0, 1, 2, 2}, start[16] = {0}, ready[16] = {1};
    struct split_run_answer fork = split_run(TEXT(forked), events, 4);
    struct split_run_answer none = split_run(TEXT(y), NULL, 0);
    struct split_run_answer one = split_run(TEXT(y), events, 1);
    struct split_run_answer all = split_run(TEXT(y), events, 4);
    return FORKED(fork) && fork.blocked == 0 && same(fork.places, start, 16) &&
           ANSWERED(none) && none.blocked == 0 && same(none.places, start, 16) &&
           ANSWERED(one) && one.blocked == 0 && one.ran == 0 && same(one.places, ready, 16) &&
           ANSWERED(all) && all.blocked == 1 && all.ran == 3 && all.machine == 0 && same(all.places, start, 16);
}

static int thins(void)
{
    struct split_set fork = split_thin(TEXT(forked));
    struct split_set both = split_thin(TEXT(y));
    return FORKED(fork) && fork.machines == 0 && fork.size == 0 && ANSWERED(both) && both.machines == 3 && both.size == 2;
}

/* A call that lends a buffer: a refused text leaves size 0, one byte too few gets 13 and changes none, and just enough is
   written. */
static int lends(struct split_answer (*call)(const uint8_t *, size_t, uint8_t *, size_t), const uint8_t *text, size_t len,
                 const char *wanted, size_t size, uint8_t *out)
{
    struct split_answer fork = call(TEXT(forked), out, size + 1);
    struct split_answer asked = call(text, len, out, size - 1);
    int kept = out[0] == 0;
    struct split_answer written = call(text, len, out, size + 1);
    return FORKED(fork) && fork.size == 0 && asked.number == SPLIT_SHORT_SHEET && asked.detail == size && asked.second == 0 &&
           asked.size == 0 && kept && ANSWERED(written) && written.size == size && same(out, wanted, size + 1);
}

/* Two machines alike: the first gives all its places away. */
static int merges(void)
{
    static const char twice[] = "(states 2)\n(events a b)\n(step 0 a 1)\n(step 1 b 0)\n"
                                "(machine (0) (1))\n(machine (0) (1))\n";
    static const char merged[] = "(accepted 2)\n(machine 0 (places 1) (start 0))\n"
                                 "(machine 1 (places 2) (start 0) (move a 0 1) (move b 1 0))\n";
    uint8_t out[sizeof merged] = {0};
    return lends(split_merge, TEXT(twice), merged, sizeof merged - 1, out);
}

/* Y with its first machine again, which is dropped: a line of each kind, and one below zero. */
static int quotes(void)
{
    static const char again[] = Y "(machine (0 2) (1 3))\n";
    static const char quoted[] = "(line machine 0 40028)\n(line machine 1 40028)\n(line wire home 618)\n"
                                 "(line credit 2 -4535)\n(total 76139)\n";
    uint8_t out[sizeof quoted] = {0};
    return lends(split_quote, TEXT(again), quoted, sizeof quoted - 1, out);
}

static int loads(void)
{
    uint8_t out[sizeof sheet] = {0};
    struct split_answer bad = split_sheet(TEXT(y), out, sizeof out);
    struct split_answer asked = split_sheet(TEXT(sheet), NULL, 0);
    int kept = out[0] == 0;
    struct split_answer written = split_sheet(TEXT(sheet), out, sizeof out);
    return bad.number == SPLIT_BAD_SHEET && bad.detail == 1 && bad.second == 0 && bad.size == 0 && kept &&
           asked.number == SPLIT_SHORT_SHEET && asked.detail == sizeof sheet - 1 && asked.size == 0 &&
           ANSWERED(written) && written.size == sizeof sheet - 1 && same(out, sheet, sizeof sheet);
}

static int boards(void)
{
    static const uint8_t start[16] = {0}, ready[16] = {1};
    struct split_run_answer bad = split_board(TEXT(y), TEXT("ready\n"));
    struct split_run_answer odd = split_board(TEXT(sheet), TEXT("ready\nbrake"));
    struct split_run_answer none = split_board(TEXT(sheet), NULL, 0);
    struct split_run_answer two = split_board(TEXT(sheet), TEXT("READY\nhome\n"));
    return bad.number == SPLIT_BAD_SHEET && bad.detail == 1 && bad.second == 0 && same(bad.places, start, 16) &&
           odd.number == SPLIT_ODD_CALL && odd.detail == 1 && odd.second == 0 && same(odd.places, start, 16) &&
           ANSWERED(none) && none.blocked == 0 && same(none.places, start, 16) &&
           ANSWERED(two) && two.blocked == 1 && two.ran == 1 && two.machine == 1 && same(two.places, ready, 16);
}

static int failures(void)
{
    int (*const services[])(void) = {checks, lists, names, runs, thins, merges, quotes, loads, boards};
    for (size_t i = 0; i < sizeof services / sizeof services[0]; i++)
        if (!services[i]())
            return (int)i + 1;
    return 0;
}
