/* Reads one member of a report: the tick, an optional long. */
#include "icehub.h"
#include "report.h"

#include <inttypes.h>
#include <stdio.h>

int main(void)
{
    uint8_t numbers[ICEHUB_VIEW_SIZE]; /* origin, place, length */
    uint32_t refusal;
    int64_t tick;

    refusal = icehub_member(table, sizeof table, REPORT, message, sizeof message, TICK, numbers, sizeof numbers);
    if (refusal != ICEHUB_OK) {
        printf("not read: %s\n", icehub_refusal_text(refusal));
        return 1;
    }
    if (icehub_number(numbers, 0) != ICEHUB_IN_MESSAGE) {
        printf("no tick in the report\n");
        return 1;
    }
    /* The table says that this member is a long: eight bytes. */
    tick = icehub_i64(message + icehub_number(numbers, 1));
    printf("tick: %" PRId64 " ms\n", tick);
    return tick == INT64_C(4294967296) ? 0 : 1;
}
