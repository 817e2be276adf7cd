/* What a drive board does: it loads the sheet on standard input, runs the events that its words
 * name, and says where its own machine then stands. examples/again builds and runs it.
 *
 *     board 1 ready brake < y.sheet */
#include "board.h"
#include <stdio.h>
#include <stdlib.h>
#include <string.h>

/* One byte more than a sheet may have, so that a longer one is refused. */
static uint8_t sheet[32769], names[4096];

int main(int count, char **words)
{
    size_t machine = count > 1 ? strtoul(words[1], NULL, 10) : 0;
    size_t len = fread(sheet, 1, sizeof sheet, stdin), size = 0;
    for (int i = 2; i < count; i++) {
        size_t word = strlen(words[i]);
        if (word + 1 > sizeof names - size)
            return 2;
        memcpy(names + size, words[i], word);
        size += word;
        names[size++] = '\n';
    }

    struct board_run_answer r = board_run(sheet, len, names, size);
    if (r.number != BOARD_ANSWERED) {
        printf("(refused %zu %zu %zu)\n", r.number, r.detail, r.second);
        return 1;
    }
    size_t machines = 0; /* line 1 of a good sheet counts them */
    sscanf((const char *)sheet, "(accepted %zu)", &machines);
    if (machine >= machines) {
        printf("the sheet has no machine %zu\n", machine);
        return 2;
    }
    printf("machine %zu stands in place %d", machine, r.places[machine]);
    if (r.blocked)
        printf("; machine %zu blocks after %zu events", r.machine, r.ran);
    printf("\n");
    return 0;
}
