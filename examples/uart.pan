// A serial port. It polls the status register until a byte has come, takes the byte from the data register, and keeps it in
// local memory. After five bytes it delivers them, and returns what the delivery answered.
fun wait() {
  var status = 0;
  while 1 {
    status = !ld32 0x40000004;
    if status & 1 { return status; } else { }
  }
  return 0;
}

fun main() {
  var count = 0;
  var byte = 0;
  while count <+ 5 {
    wait();
    byte = !ld8 0x40000000;
    stb @base + count, byte;
    count = count + 1;
  }
  @deliver(@base, count, @base + 8, 1);
  return ldb (@base + 8);
}
