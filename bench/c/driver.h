// What a driver in C has of the machine of docs/MACHINE.md, for bench/beside_gcc. main's result is the value of the exit.
#include <stdint.h>

typedef uint64_t word;

#define BASE 0x10000000ull

static inline word load8(word at) { return *(volatile uint8_t *)at; }
static inline word load32(word at) { return *(volatile uint32_t *)at; }
static inline word load64(word at) { return *(volatile uint64_t *)at; }
static inline void store8(word at, word value) { *(volatile uint8_t *)at = (uint8_t)value; }
static inline void store32(word at, word value) { *(volatile uint32_t *)at = (uint32_t)value; }
static inline void store64(word at, word value) { *(volatile uint64_t *)at = value; }

// The call of the foreign function with this number, on a configuration and an array.
static inline void foreign(word number, word conf, word conf_length, word array, word array_length) {
    register word a0 __asm__("a0") = conf;
    register word a1 __asm__("a1") = conf_length;
    register word a2 __asm__("a2") = array;
    register word a3 __asm__("a3") = array_length;
    register word a4 __asm__("a4") = number;
    register word a7 __asm__("a7") = 1;
    __asm__ volatile("ecall" : : "r"(a0), "r"(a1), "r"(a2), "r"(a3), "r"(a4), "r"(a7) : "memory");
}

__asm__(".section .text.start\n"
        "call main\n"
        "mv a1, a0\n"
        "li a0, 0\n"
        "li a7, 0\n"
        "ecall\n"
        ".text\n");
