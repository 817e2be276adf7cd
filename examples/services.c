/* All nine services of the proved library on the text on standard input, from C or C++.
 * examples/again builds and runs it. */
#include "split.h"
#include <stdio.h>

/* One byte more than a text may have, so that a longer one is refused. */
static uint8_t text[32769], sheet[32768], merged[32768], quoted[32768], again[32768];
static struct split_step steps[1024];

static int refused(size_t number, size_t detail, size_t second)
{
    if (number != SPLIT_ANSWERED)
        printf("(refused %zu %zu %zu)\n", number, detail, second);
    return number != SPLIT_ANSWERED;
}

static void print_run(struct split_run_answer r)
{
    if (refused(r.number, r.detail, r.second))
        return;
    if (r.blocked)
        printf("machine %zu blocks after %zu events;", r.machine, r.ran);
    else
        printf("the list runs to its end;");
    printf(" machines 0 and 1 stand in %d and %d\n", r.places[0], r.places[1]);
}

int main(void)
{
    size_t len = fread(text, 1, sizeof text, stdin);
    struct split_answer checked = split_check(text, len, sheet, sizeof sheet);
    if (refused(checked.number, checked.detail, checked.second))
        return 1;
    fwrite(sheet, 1, checked.size, stdout);

    struct split_answer listed = split_steps(text, len, steps, 1024);
    for (size_t i = 0; i < listed.size; i++) {
        struct split_part name = split_name(text, len, steps[i].event);
        const char *word = (const char *)text + name.from;
        printf("%d -%.*s-> %d\n", steps[i].source, (int)name.size, word, steps[i].target);
    }

    const uint8_t events[] = {0, 1, 2, 2};
    print_run(split_run(text, len, events, sizeof events));
    print_run(split_run(text, len, NULL, 0));

    struct split_set kept = split_thin(text, len);
    printf("%zu machines are kept:", kept.size);
    for (int i = 0; i < 16; i++)
        if (kept.machines >> i & 1)
            printf(" %d", i);
    printf("\n");

    struct split_answer fewer = split_merge(text, len, merged, sizeof merged);
    printf("the sheet with places merged has %zu bytes\n", fewer.size);

    struct split_answer priced = split_quote(text, len, quoted, sizeof quoted);
    fwrite(quoted, 1, priced.size, stdout);

    struct split_answer loaded = split_sheet(sheet, checked.size, again, sizeof again);
    printf("the sheet is loaded and written again, %zu bytes\n", loaded.size);
    const char names[] = "ready\nbrake\n";
    print_run(split_board(again, loaded.size, (const uint8_t *)names, sizeof names - 1));
    return 0;
}
