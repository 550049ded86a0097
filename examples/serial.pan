// A serial port in the manner of the 16550. It receives into a ring buffer, and sends what it received in capitals, as far as the port
// takes it. It ends with the line feed of the line that it was sent, and returns how many bytes it sent.
//
//   0x40000000  8 bits  data: a load takes a byte that has come, a store sends one
//   0x40000005  8 bits  line status: bit 0 says that a byte has come, bit 5 that the port takes one
//
// Local memory has the ring: the number of bytes put so far, the number taken so far, and then eight bytes. The difference of
// the numbers is how many bytes wait; the low three bits of each say where it stands in the ring.

// The port took nothing in so many polls.
exception Jammed 1;

// How many bytes wait in the ring.
fun waiting() {
  var ring = lds 2 @base;
  return ring.0 - ring.1;
}

// Puts a byte into the ring, which has room.
fun put(1 byte) {
  var came = lds 1 @base;
  stb @base + 16 + (came & 7), byte;
  st @base, came + 1;
  return 0;
}

// Takes the oldest byte out of the ring, which isn't empty.
fun take() {
  var went = lds 1 (@base + 8);
  st @base + 8, went + 1;
  return ldb (@base + 16 + (went & 7));
}

// Takes the bytes that have come, while the ring has room. What doesn't fit waits in the port.
fun receive() {
  var status = 0;
  var byte = 0;
  var count = waiting();
  while count <+ 8 {
    status = !ld8 0x40000005;
    if status & 1 { } else { return count; }
    byte = !ld8 0x40000000;
    put(byte);
    count = count + 1;
  }
  return count;
}

// Waits until the port takes a byte. The receiver goes on meanwhile, so that nothing is lost.
fun wait_for_room() {
  var status = 0;
  var polls = 0;
  while polls <+ 4 {
    status = !ld8 0x40000005;
    if status & 0x20 { return polls; } else { }
    receive();
    polls = polls + 1;
  }
  raise Jammed polls;
}

// A small letter as a capital; any other byte as it is.
fun capital(1 byte) {
  if byte <+ 97 { return byte; } else { }
  if byte <+ 123 { return byte - 32; } else { return byte; }
}

fun main() {
  var sent = 0;
  var byte = 0;
  var count = 0;
  while byte != 10 {
    count = receive();
    if count == 0 { continue; } else { }
    wait_for_room() handle Jammed polls {
      // Who looks after the port is told what still waits, and clears it.
      count = waiting();
      st @base + 24, count;
      @jammed(@base + 24, 8, @base, 0);
      continue;
    };
    byte = take();
    byte = capital(byte);
    !st8 0x40000000, byte;
    sent = sent + 1;
  }
  return sent;
}
