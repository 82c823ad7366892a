/* Case A, run through the static library: event 0 is handed in and held, then event 1, and both are done in order. */
#include <stdio.h>

#include "sinewhopa.h"

int main(void)
{
    const uint8_t sheet[] = {
        1, 0, 6,  /* event 0: step 0, rejectable and delayable */
        1, 1, 6,  /* event 1: step 1, the same */
        2, 0, 1,  /* order: 0 before 1 */
        3, 0, 1,  /* need: 0 only if 1 */
        5         /* end of the sheet */
    };
    const uint8_t calls[] = {
        16, 0,    /* hand in event 0 */
        16, 1     /* hand in event 1 */
    };
    uint8_t report[SINEWHOPA_REPORT_MOST];
    size_t length = sinewhopa_run(sheet, sizeof sheet, calls, sizeof calls, report, sizeof report);
    return fwrite(report, 1, length, stdout) == length ? 0 : 1;
}
