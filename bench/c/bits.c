#include "driver.h"

static word clock_bit(word bit) {
    store32(0x40004000, bit << 1);
    store32(0x40004000, bit << 1 | 1);
    return load32(0x40004004) & 1;
}

static word exchange(word byte) {
    word taken = 0;
    for (word left = 8; left != 0; left -= 1) {
        taken = taken << 1 | clock_bit(byte >> 7 & 1);
        byte <<= 1;
    }
    return taken;
}

word main(void) {
    uint8_t *bytes = (uint8_t *)BASE;
    store32(0x40004000, 4);
    store32(0x40004000, 0);
    exchange(0x9f);
    for (word count = 0; count < 3; count += 1) bytes[count] = exchange(0);
    store32(0x40004000, 4);
    return (word)bytes[0] << 16 | (word)bytes[1] << 8 | bytes[2];
}
