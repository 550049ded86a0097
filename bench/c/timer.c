// foreign: sleep interrupt
#include "driver.h"

static void acknowledge(word number) { store32(0x40003000, number); }

// How late the alarm is, 0 where it was set.
static word set_alarm(word due) {
    word now = load64(0x40002000);
    if (due < now) return now - due;
    store64(0x40002008, due);
    return 0;
}

word main(void) {
    word due = 1000, alarms = 0;
    while (alarms != 3) {
        word late = set_alarm(due);
        if (late != 0) {
            due += late + 100;
            alarms += 1;
            continue;
        }
        for (;;) {
            word number = load32(0x40003000);
            if (number == 7) break;
            if (number == 0) {
                foreign(0, BASE, 0, BASE, 0);
                continue;
            }
            *(uint8_t *)BASE = number;
            foreign(1, BASE, 1, BASE + 8, 1);
            acknowledge(number);
        }
        acknowledge(7);
        due += 100;
        alarms += 1;
    }
    store64(0x40002008, -1);
    return due;
}
