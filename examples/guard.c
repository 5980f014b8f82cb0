/* A season of reports to the frost guard, one every ten minutes for sixty days: across day 49, where milliseconds pass
 * 2^32. Half an hour below the set point, and the timer fires. */
#include "icehub.h"

#include <inttypes.h>
#include <stdio.h>
#include <string.h>

enum { SET_POINT = 0, DELAY = 1800, MINUTE = 60000, DAYS = 60 };

/* A report: the reading, the tick in milliseconds, the delay in seconds. */
static size_t report(uint8_t *message, int16_t reading, int64_t tick, int32_t delay)
{
    icehub_put(message, 4, 22);       /* 22 bytes in all */
    icehub_put(message + 4, 2, 257);  /* encoding 1.1 */
    icehub_put(message + 6, 2, reading);
    icehub_put(message + 8, 1, 0x3B); /* optional: tag 7, eight bytes */
    icehub_put(message + 9, 8, tick);
    icehub_put(message + 17, 1, 0x42); /* optional: tag 8, four bytes */
    icehub_put(message + 18, 4, delay);
    return 22;
}

int main(void)
{
    uint8_t state[ICEHUB_GUARD_SIZE], next[ICEHUB_GUARD_SIZE], message[22];
    const int64_t day49 = (int64_t)1 << 32;
    int64_t tick, fired = 0, late = 0;
    int reports = 0;

    if (icehub_guard_start(SET_POINT, state, sizeof state) != ICEHUB_OK) {
        return 1;
    }
    for (tick = 0; tick < (int64_t)DAYS * 24 * 60 * MINUTE; tick += 10 * MINUTE) {
        /* Mild days, one cold hour each night; and a cold hour around 2^32 milliseconds. */
        const int64_t minute = tick / MINUTE % (24 * 60);
        const int is_cold = minute < 60 || (tick > day49 - 30 * MINUTE && tick < day49 + 30 * MINUTE);
        const size_t length = report(message, (int16_t)(is_cold ? -500 : 300), tick, DELAY);
        const uint32_t refusal = icehub_guard_report(state, sizeof state, message, length, next, sizeof next);
        if (refusal != ICEHUB_OK) {
            printf("report at %" PRId64 " ms: %s\n", tick, icehub_refusal_text(refusal));
            return 1;
        }
        reports++;
        if (icehub_guard_fires(state, sizeof state, message, length, sizeof next)) {
            fired++;
            if (tick >= day49) {
                late++;
            }
        }
        memcpy(state, next, sizeof state);
    }
    printf("%d reports in %d days: the timer fired with %" PRId64 " of them, %" PRId64 " after day 49\n", reports, DAYS, fired,
           late);
    /* Each cold hour has six reports, three of them half an hour or more after its start; eleven hours are after day 49. */
    if (fired != DAYS * 3 + 3 || late != 33) {
        printf("not as often as it should\n");
        return 1;
    }
    return 0;
}
