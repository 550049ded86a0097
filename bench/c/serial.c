// foreign: jammed
#include "driver.h"

struct ring {
    word came, went;
    uint8_t bytes[8];
    word told;
};

#define RING ((struct ring *)BASE)

static word waiting(void) { return RING->came - RING->went; }

static void put(word byte) {
    RING->bytes[RING->came & 7] = byte;
    RING->came += 1;
}

static word take(void) {
    word went = RING->went;
    RING->went = went + 1;
    return RING->bytes[went & 7];
}

static word receive(void) {
    word count = waiting();
    while (count < 8) {
        if (!(load8(0x40000005) & 1)) return count;
        put(load8(0x40000000));
        count += 1;
    }
    return count;
}

// Whether the port takes a byte in time.
static int wait_for_room(void) {
    for (word polls = 0; polls < 4; polls += 1) {
        if (load8(0x40000005) & 0x20) return 1;
        receive();
    }
    return 0;
}

static word capital(word byte) { return byte >= 97 && byte < 123 ? byte - 32 : byte; }

word main(void) {
    word sent = 0, byte = 0;
    while (byte != 10) {
        if (receive() == 0) continue;
        if (!wait_for_room()) {
            RING->told = waiting();
            foreign(0, (word)&RING->told, 8, BASE, 0);
            continue;
        }
        byte = capital(take());
        store8(0x40000000, byte);
        sent += 1;
    }
    return sent;
}
