/* Prints the most stack that each service of either library took on the texts and sheets that are named: its call runs on
 * a stack that is filled with a pattern, and what lies above the lowest byte that changed is counted, with the caller's
 * frame and the arguments. */
#define _XOPEN_SOURCE 700
#include "board.h"
#include "split.h"
#include <stdio.h>
#include <string.h>
#include <ucontext.h>

enum { AREA = 1 << 18, PATTERN = 0xa5 };

static uint8_t area[AREA], text[32769], sheet[32768], loaded[32769];
static uint8_t names[] = "................\n................\n\n";
static struct split_step steps[1024];
static const uint8_t events[] = {0, 0, 255};
static size_t length, loaded_length, names_length;
static ucontext_t outside, inside;

/* Each service as far as it can come, and refused by the call's own refusal, 13 or 14. */
static void check_lent(void) { split_check(text, length, sheet, sizeof sheet); }
static void check_unlent(void) { split_check(text, length, NULL, 0); }
static void steps_lent(void) { split_steps(text, length, steps, 1024); }
static void steps_unlent(void) { split_steps(text, length, NULL, 0); }
static void name_first(void) { split_name(text, length, 0); }
static void name_odd(void) { split_name(text, length, 64); }
static void run_some(void) { split_run(text, length, events, 2); }
static void run_odd(void) { split_run(text, length, events, 3); }
static void thin(void) { split_thin(text, length); }
static void merge_lent(void) { split_merge(text, length, sheet, sizeof sheet); }
static void merge_unlent(void) { split_merge(text, length, NULL, 0); }
static void quote_lent(void) { split_quote(text, length, sheet, sizeof sheet); }
static void quote_unlent(void) { split_quote(text, length, NULL, 0); }
static void sheet_lent(void) { split_sheet(loaded, loaded_length, sheet, sizeof sheet); }
static void sheet_unlent(void) { split_sheet(loaded, loaded_length, NULL, 0); }
static void board_some(void) { split_board(loaded, loaded_length, names, names_length); }
static void board_odd(void) { split_board(loaded, loaded_length, names, names_length + 1); }
static void own_sheet_lent(void) { board_sheet(loaded, loaded_length, sheet, sizeof sheet); }
static void own_sheet_unlent(void) { board_sheet(loaded, loaded_length, NULL, 0); }
static void own_some(void) { board_run(loaded, loaded_length, names, names_length); }
static void own_odd(void) { board_run(loaded, loaded_length, names, names_length + 1); }

static struct {
    const char *service;
    void (*calls[2])(void);
    size_t most;
} services[] = {
    {"split_check", {check_lent, check_unlent}, 0}, {"split_steps", {steps_lent, steps_unlent}, 0},
    {"split_name", {name_first, name_odd}, 0},      {"split_run", {run_some, run_odd}, 0},
    {"split_thin", {thin, thin}, 0},                {"split_merge", {merge_lent, merge_unlent}, 0},
    {"split_quote", {quote_lent, quote_unlent}, 0}, {"split_sheet", {sheet_lent, sheet_unlent}, 0},
    {"split_board", {board_some, board_odd}, 0},    {"board_sheet", {own_sheet_lent, own_sheet_unlent}, 0},
    {"board_run", {own_some, own_odd}, 0},
};

enum { SERVICES = sizeof services / sizeof services[0] };

static size_t taken(void (*call)(void))
{
    memset(area, PATTERN, AREA);
    getcontext(&inside);
    inside.uc_stack.ss_sp = area;
    inside.uc_stack.ss_size = AREA;
    inside.uc_link = &outside;
    makecontext(&inside, call, 0);
    swapcontext(&outside, &inside);
    size_t kept = 0;
    while (kept < AREA && area[kept] == PATTERN)
        kept++;
    return AREA - kept;
}

/* The first name on a move, twice; an empty one may follow. */
static void take_names(void)
{
    static const char before[] = "(move ";
    size_t at = 0, size = 0;
    while (at + sizeof before < loaded_length && memcmp(loaded + at, before, sizeof before - 1) != 0)
        at++;
    at += sizeof before - 1;
    while (size < 16 && at + size < loaded_length && loaded[at + size] != ' ')
        size++;
    for (int i = 0; i < 2; i++) {
        memcpy(names + i * (size + 1), loaded + at, size);
        names[i * (size + 1) + size] = '\n';
    }
    names_length = 2 * (size + 1);
    names[names_length] = '\n';
}

/* The text, and its sheet if it is accepted; otherwise it is taken for a sheet itself. */
static void measure(size_t given)
{
    length = given;
    struct split_answer checked = split_check(text, length, loaded, sizeof loaded);
    loaded_length = checked.size;
    if (checked.number != SPLIT_ANSWERED) {
        memcpy(loaded, text, length);
        loaded_length = length;
    }
    take_names();
    for (int i = 0; i < 2 * SERVICES; i++) {
        size_t now = taken(services[i / 2].calls[i % 2]);
        if (now > services[i / 2].most)
            services[i / 2].most = now;
    }
}

/* The text or sheet; the same refused as misformed; and with a machine less, which may be refused by 11, 12 or for want of
 * one. */
static int measure_file(const char *path)
{
    FILE *file = fopen(path, "rb");
    if (file == NULL) {
        perror(path);
        return 1;
    }
    size_t size = fread(text, 1, sizeof text, file);
    fclose(file);
    measure(size);
    measure(size > 0 ? size - 1 : 0);
    while (size > 1 && text[size - 2] != '\n')
        size--;
    measure(size > 0 ? size - 1 : 0);
    return 0;
}

int main(int count, char **paths)
{
    for (int i = 1; i < count; i++)
        if (measure_file(paths[i]) != 0)
            return 1;
    for (int i = 0; i < SERVICES; i++)
        printf("%s %zu\n", services[i].service, services[i].most);
    return 0;
}
