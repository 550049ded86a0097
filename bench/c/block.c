// foreign: transfer
#include "driver.h"

enum kind { DONE, FAILED, TIMED_OUT };
struct outcome {
    enum kind kind;
    word block, why;
};

static struct outcome command(word block, word what) {
    store32(0x40001000, block);
    store32(0x40001004, what);
    for (word polls = 0; polls < 8; polls += 1) {
        word status = load32(0x40001008);
        if (status == 1) return (struct outcome){DONE, block, 0};
        if (status == 2) return (struct outcome){FAILED, block, load32(0x4000100c)};
    }
    return (struct outcome){TIMED_OUT, block, 0};
}

static struct outcome read_block(word block, word to) {
    struct outcome outcome = command(block, 1);
    if (outcome.kind != DONE) return outcome;
    *(word *)BASE = block;
    foreign(0, BASE, 8, to, 32);
    return outcome;
}

// Whether the block is there, where the outcome is one that is done.
static struct outcome read_or_retry(word block, word to, word *there) {
    struct outcome outcome = read_block(block, to);
    *there = 1;
    if (outcome.kind != FAILED) return outcome;
    if (outcome.why == 7) {
        *there = 0;
        return (struct outcome){DONE, block, 0};
    }
    struct outcome reset = command(outcome.block, 2);
    if (reset.kind != DONE) return reset;
    return read_block(outcome.block, to);
}

static word parity(word at) {
    word *words = (word *)at;
    return words[0] ^ words[1] ^ words[2] ^ words[3];
}

word main(void) {
    word to = BASE + 64, sum = 0, count = 0;
    for (word block = 0; block < 4; block += 1) {
        word there;
        struct outcome outcome = read_or_retry(block, to, &there);
        if (outcome.kind != DONE) {
            store32(0x40001004, 2);
            return (outcome.block << 32) + count;
        }
        if (there) {
            sum ^= parity(to);
            count += 1;
        }
        to += 32;
    }
    return (sum << 8) + count;
}
