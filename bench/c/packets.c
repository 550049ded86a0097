// foreign: packet bad
#include "driver.h"

struct descriptor {
    word offset, length, is_ours, turns;
};

#define RING ((struct descriptor *)BASE)

static word checksum(word at, word length) {
    uint8_t *bytes = (uint8_t *)at;
    word sum = 0;
    for (word i = 0; i < length; i += 2) sum += (word)bytes[i] << 8 | bytes[i + 1];
    while (sum > 0xffff) sum = (sum & 0xffff) + (sum >> 16);
    return sum ^ 0xffff;
}

// What the header comes to: 0 where it is right, and the packet was handed up.
static word hand_up(struct descriptor *descriptor) {
    word at = BASE + descriptor->offset;
    word wrong = checksum(at, (*(uint8_t *)at & 15) << 2);
    if (wrong == 0) foreign(0, at, descriptor->length, BASE, 0);
    return wrong;
}

word main(void) {
    word good = 0, bad = 0;
    for (word number = 2;; number += 1) {
        struct descriptor *descriptor = &RING[number & 3];
        if (!descriptor->is_ours) return good << 32 | bad;
        word wrong = hand_up(descriptor);
        if (wrong) {
            word *told = (word *)(BASE + 240);
            told[0] = number;
            told[1] = wrong;
            foreign(1, BASE + 240, 16, BASE, 0);
            bad += 1;
        } else {
            good += 1;
        }
        descriptor->is_ours = 0;
        descriptor->turns += 1;
        store32(0x40005000, number & 3);
    }
}
