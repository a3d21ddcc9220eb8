/* Runs a tape of seven records from C: on two lists, and on two logs. Then some calls that are refused, each shown by its number.
 * The day is a driver whose position closes while his transaction runs. */
#include "setxulda.h"

#include <stdio.h>
#include <string.h>

/* How many bytes a run asks for the lines of the day: its tape has 45 bytes, nine times five. */
#define ROOM (14 * 9 + 28)

/* A buffer between guard bytes, which no call may change. */
#define GUARD 16
struct guarded {
    uint8_t before[GUARD];
    uint8_t bytes[ROOM];
    uint8_t after[GUARD];
};

static const uint8_t tape[] = {
    1, 0, 2, 0, 1,                    /* open, subject 1: transaction 1 */
    1, 0, 2, 0, 9,                    /* open, subject 9: transaction 2 */
    2, 0, 4, 0, 1, 0, 0,              /* transaction 1 deploys policy 0 */
    2, 0, 4, 0, 2, 0, 1,              /* transaction 2 deploys policy 1 */
    6, 0, 8, 0, 2, 0, 0, 0, 0, 0, 4,  /* transaction 2 sets policy 0 to right 4 */
    7, 0, 2, 0, 2,                    /* transaction 2 commits */
    7, 0, 2, 0, 1,                    /* transaction 1 commits */
};

/* Subject 1 may read and write cell 0 by policy 0; subject 9 may show, relax and restrict policy 0 by policy 1. */
static const struct setxulda_policy policies[] = {{1, 0, 0}, {9, 1, 0}};

/* The vector order has no thresholds, but the pointer must not be null. */
static const uint32_t vector_order[1] = {0};

static void guard(struct guarded *buffer)
{
    memset(buffer->before, 0xa5, GUARD);
    memset(buffer->bytes, 0, sizeof buffer->bytes);
    memset(buffer->after, 0xa5, GUARD);
}

static int is_whole(const struct guarded *buffer)
{
    for (int i = 0; i < GUARD; i++) {
        if (buffer->before[i] != 0xa5 || buffer->after[i] != 0xa5) {
            return 0;
        }
    }
    return 1;
}

static void show(const char *name, const uint32_t *numbers, size_t count)
{
    printf("%s", name);
    for (size_t i = 0; i < count; i++) {
        printf(" %u", (unsigned)numbers[i]);
    }
    printf("\n");
}

static void show_log(const char *name, const struct guarded *log, size_t log_len, size_t count)
{
    uint32_t numbers[4] = {0};
    for (size_t i = 0; i < count; i++) {
        uint32_t refused = setxulda_read_log(log->bytes, log_len, count, i, &numbers[i]);
        if (refused != 0) {
            printf("%s is refused: %u\n", name, (unsigned)refused);
            return;
        }
    }
    show(name, numbers, count);
}

static void on_lists(struct guarded *lines, size_t lines_len)
{
    uint32_t cells[4] = {0, 0, 0, 0};
    uint32_t rights[2] = {6, 7};
    size_t used = 1;
    guard(lines);
    uint32_t number = setxulda_run_tape(vector_order, 0, cells, 4, rights, 2, policies, 2, tape, sizeof tape, lines->bytes, lines_len, &used);
    printf("on lists, %u bytes for lines: %u, %u bytes\n%s", (unsigned)lines_len, (unsigned)number, (unsigned)used, (const char *)lines->bytes);
    show("cells", cells, 4);
    show("rights", rights, 2);
}

/* Logs with an empty log: base numbers of four bytes, the high byte first, and places of nine bytes, of which the first has tag 0. */
static void on_logs(struct guarded *lines, struct guarded *cells, struct guarded *rights)
{
    const size_t cells_len = 4 * 4 + 9, rights_len = 4 * 2 + 9;
    size_t used = 1;
    guard(lines);
    guard(cells);
    guard(rights);
    rights->bytes[3] = 6;
    rights->bytes[7] = 7;
    uint32_t number = setxulda_run_tape_on_logs(vector_order, 0, cells->bytes, cells_len, 4, rights->bytes, rights_len, 2, policies, 2, tape, sizeof tape,
                                                lines->bytes, ROOM, &used);
    printf("on logs, %u bytes for lines: %u, %u bytes\n%s", (unsigned)ROOM, (unsigned)number, (unsigned)used, (const char *)lines->bytes);
    show_log("cells", cells, cells_len, 4);
    show_log("rights", rights, rights_len, 2);
    printf("the logs: %u, %u\n", (unsigned)setxulda_check_log(cells->bytes, cells_len, 4), (unsigned)setxulda_check_log(rights->bytes, rights_len, 2));
}

static void refusals(void)
{
    const uint32_t ladder[3] = {30, 60, 101}, low_ladder[3] = {30, 60, 100};
    const struct setxulda_policy unknown[] = {{1, 0, 0}, {9, 7, 0}};
    const uint8_t damaged[] = {1, 0, 2, 0, 1, 9, 0, 0};
    uint32_t cells[4] = {0, 0, 0, 0}, rights[2] = {6, 7}, record = 77, first_byte = 77;
    uint8_t lines[ROOM], log[17] = {0}, other_log[17] = {0};
    size_t used = 1;

    printf("the day's set-up: %u\n", (unsigned)setxulda_check_setup(vector_order, 0, cells, 4, rights, 2, policies, 2));
    printf("two thresholds: %u\n", (unsigned)setxulda_check_setup(ladder, 2, cells, 4, rights, 2, policies, 2));
    printf("a threshold of 101: %u\n", (unsigned)setxulda_run_tape(ladder, 3, cells, 4, rights, 2, policies, 2, tape, sizeof tape, lines, sizeof lines, &used));
    printf("a policy of kind 7: %u\n", (unsigned)setxulda_check_setup(vector_order, 0, cells, 4, rights, 2, unknown, 2));
    rights[0] = 8;
    printf("a right of 8: %u\n", (unsigned)setxulda_check_setup(vector_order, 0, cells, 4, rights, 2, policies, 2));
    printf("a right of 8 on a ladder: %u\n", (unsigned)setxulda_check_setup(low_ladder, 3, cells, 4, rights, 2, policies, 2));
    show("cells", cells, 4);
    show("rights", rights, 2);

    uint32_t number = setxulda_check_tape(tape, sizeof tape, &record, &first_byte);
    printf("the day's tape: %u, record %u, first byte %u\n", (unsigned)number, (unsigned)record, (unsigned)first_byte);
    number = setxulda_check_tape(damaged, sizeof damaged, &record, &first_byte);
    printf("a damaged tape: %u, record %u, first byte %u\n", (unsigned)number, (unsigned)record, (unsigned)first_byte);

    printf("a log of 3 numbers in 17 bytes: %u\n", (unsigned)setxulda_check_log(log, sizeof log, 3));
    printf("a read of it: %u\n", (unsigned)setxulda_read_log(log, sizeof log, 3, 0, &record));
    printf("position 2 of 2: %u\n", (unsigned)setxulda_read_log(log, sizeof log, 2, 2, &record));
    other_log[8] = 1;
    number = setxulda_run_tape_on_logs(vector_order, 0, log, sizeof log, 2, other_log, sizeof other_log, 2, policies, 2, tape, sizeof tape, lines, sizeof lines, &used);
    printf("a day on a log with tag 1: %u\n", (unsigned)number);
}

int main(void)
{
    struct guarded lines, cells, rights;
    on_lists(&lines, ROOM);
    int whole = is_whole(&lines);
    on_logs(&lines, &cells, &rights);
    whole = whole && is_whole(&lines) && is_whole(&cells) && is_whole(&rights);
    on_lists(&lines, ROOM - 1);
    whole = whole && is_whole(&lines);
    refusals();
    printf("bytes round the buffers: %s\n", whole ? "as they were" : "changed");
    return 0;
}
