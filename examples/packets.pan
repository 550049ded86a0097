// A network device with a ring of descriptors in local memory. The device puts packets into memory and marks their descriptors; the driver
// takes them in order, looks at the checksum of each IPv4 header (RFC 1071), hands good packets up, and gives the descriptors back.
//
// A descriptor is a struct of four words: where the packet is, as an offset in local memory; how many bytes it has; 1 while it is
// the driver's and 0 while it is the device's; and how often the driver gave it back. The ring has four, from @base on.
//
//   0x40005000  32 bits  doorbell: the number of the descriptor that is given back

// A packet that isn't handed up: the number of its descriptor, and what its header comes to in place of 0.
exception Bad {1, 1};

// The address of a descriptor. The ring goes round.
fun place(1 number) {
  return @base + (number & 3) * 32;
}

// Adds the high halves of a sum to its low half, until 16 bits are left.
fun fold(1 sum) {
  while 0xffff <+ sum {
    sum = (sum & 0xffff) + (sum >>> 16);
  }
  return sum;
}

// The checksum of so many bytes, an even number: 0 if the bytes have their own checksum among them.
fun checksum(1 at, 1 length) {
  var end = at + length;
  var sum = 0;
  while at <+ end {
    sum = sum + (ldb at << 8 | ldb (at + 1));
    at = at + 2;
  }
  sum = fold(sum);
  return sum ^ 0xffff;
}

// Hands a packet up, if its header is right.
fun hand_up(1 number, {1, 1, 1, 1} descriptor) {
  var at = @base + descriptor.0;
  // The low four bits of the first byte are the words of the header, of four bytes each.
  var wrong = checksum(at, (ldb at & 15) << 2);
  if wrong { raise Bad <number, wrong>; } else { }
  @packet(at, descriptor.1, @base, 0);
  return 0;
}

// Gives a descriptor back to the device.
fun give_back(1 number, {1, 1, 1, 1} descriptor) {
  var at = place(number);
  st at, <descriptor.0, descriptor.1, 0, descriptor.3 + 1>;
  !st32 0x40005000, number & 3;
  return 0;
}

// Takes packets from this descriptor on, until one is the device's; returns how many were good and how many bad.
fun {1, 1} take_all(1 number) {
  var counts = <0, 0>;
  while 1 {
    var at = place(number);
    var descriptor = lds {1, 1, 1, 1} at;
    if descriptor.2 == 0 { return counts; } else { }
    counts = <counts.0 + 1, counts.1>;
    hand_up(number, descriptor) handle Bad packet {
      counts = <counts.0 - 1, counts.1 + 1>;
      st @base + 240, packet;
      @bad(@base + 240, 16, @base, 0);
    };
    give_back(number, descriptor);
    number = number + 1;
  }
  return counts;
}

fun main() {
  var counts = take_all(2);
  return counts.0 << 32 | counts.1;
}
