// foreign: deliver
#include "driver.h"

static word wait(void) {
    for (;;) {
        word status = load32(0x40000004);
        if (status & 1) return status;
    }
}

word main(void) {
    uint8_t *bytes = (uint8_t *)BASE;
    word count = 0;
    while (count < 5) {
        wait();
        bytes[count] = load8(0x40000000);
        count += 1;
    }
    foreign(0, BASE, count, BASE + 8, 1);
    return bytes[8];
}
