#include "driver.h"

word main(void) {
    store64(0x40000000, 2 + 3);
    return 7;
}
