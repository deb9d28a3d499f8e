/* What the names of the header say, as lines for tests/c-header to compare with the pages: every row, every place that has a name, every status. */
#include "reefstencil.h"
#include <stdio.h>
#include <string.h>

#define ROW(row, kind, at, name) printf("table %u %u %x %s\n", (unsigned)(row), (unsigned)(kind), (unsigned)(at), name);

int main(void) {
    PM_REGISTERS(ROW)
    /* every target and offset, aligned or not; beyond, some that a smaller number would be mistaken for */
    for (uint32_t target = 0; target < 6; target++)
        for (uint32_t offset = 0; offset < 0x20000; offset++) {
            uint32_t row = pm_row_at(target, offset);
            const char *name = pm_name_at(target, offset);
            if (row < PM_ROWS) printf("row %u %x %u %s\n", (unsigned)target, (unsigned)offset, (unsigned)row, pm_row_name(row));
            if (strcmp(name, "no register") != 0 && strcmp(name, "aperture one") != 0 && strcmp(name, "aperture two") != 0)
                printf("place %u %x %s\n", (unsigned)target, (unsigned)offset, name);
        }
    for (uint32_t at = 0; at < 0x20000; at++) {
        uint32_t row = pm_row_of_index(at);
        if (row < PM_ROWS) printf("row 4 %x %u %s\n", (unsigned)at, (unsigned)row, pm_row_name(row));
    }
    printf("other %s, %s\n", pm_name_at(PM_APERTURE_ONE, 0x3000), pm_name_at(PM_APERTURE_TWO, 2));
    printf("other %s, %s, %s\n", pm_name_at(4, 0x18), pm_name_at(0, 0xFFFFFFFF), pm_row_name(PM_ROWS));
    printf("other %u %u %u\n", (unsigned)pm_row_at(4, 0x18), (unsigned)pm_row_at(0, 0xFFFFFFFF), (unsigned)pm_row_of_index(0xFFFFFFFF));
    for (uint32_t status = 0; status <= 10; status++) printf("status %u %s\n", (unsigned)status, pm_status_text(status));
    return 0;
}
