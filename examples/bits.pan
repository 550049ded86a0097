// A serial bus (SPI, mode 0) on pins that are set one by one. It asks a flash memory for what it is: it sends the command 0x9f, and takes
// three bytes, whose bits come with the highest first.
//
//   0x40004000  32 bits  pins that are driven: bit 0 the clock, bit 1 data to the memory, bit 2 select, which is active when low
//   0x40004004  32 bits  pins that are read: bit 0 data from the memory
//
// Local memory: the three bytes, from @base on.

// Sets the pins for one bit, with the clock low and then high, and returns the bit that the memory drives meanwhile.
fun clock_bit(1 bit) {
  var pins = 0;
  !st32 0x40004000, bit << 1;
  !st32 0x40004000, bit << 1 | 1;
  pins = !ld32 0x40004004;
  return pins & 1;
}

// Sends a byte, and takes one at the same time.
fun exchange(1 byte) {
  var taken = 0;
  var bit = 0;
  var left = 8;
  while left != 0 {
    bit = clock_bit(byte >>> 7 & 1);
    taken = taken << 1 | bit;
    byte = byte << 1;
    left = left - 1;
  }
  return taken;
}

// Selects the memory, with the clock low.
fun select() {
  !st32 0x40004000, 0;
  return 0;
}

// Lets the memory go.
fun release() {
  !st32 0x40004000, 4;
  return 0;
}

fun main() {
  var count = 0;
  var byte = 0;
  release();
  select();
  exchange(0x9f);
  while count <+ 3 {
    byte = exchange(0);
    stb @base + count, byte;
    count = count + 1;
  }
  release();
  // The maker, the kind and the capacity, as one number.
  return ldb @base << 16 | ldb (@base + 1) << 8 | ldb (@base + 2);
}
