fun main() { !st64 0x40000000, 2 + 3; return 7; }
