// A block device. It reads blocks of 32 bytes: it writes the number of the block and a command, polls the status until the device is
// done, and has the block copied into local memory. A block that the device can't read is tried once more; a device that doesn't
// answer is given up.
//
//   0x40001000  32 bits  the number of the block
//   0x40001004  32 bits  command: 1 reads, 2 resets
//   0x40001008  32 bits  status: 0 busy, 1 done, 2 failed
//   0x4000100c  32 bits  why it failed
//
// Local memory: at 0 the block's number for the copy, from 64 on the blocks.

// A command failed: the block and the device's reason.
exception Failed 2;
// The device didn't answer in time: the block.
exception TimedOut 1;

// Gives the device a command for a block, and waits until it is done, for eight polls at most.
fun command(1 block, 1 what) {
  var status = 0;
  var why = 0;
  var polls = 0;
  !st32 0x40001000, block;
  !st32 0x40001004, what;
  while polls <+ 8 {
    status = !ld32 0x40001008;
    if status == 1 { return polls; } else { }
    if status == 2 {
      why = !ld32 0x4000100c;
      raise Failed <block, why>;
    } else { }
    polls = polls + 1;
  }
  raise TimedOut block;
}

// Reads a block to an address. An error of the command leaves this function too: it is the caller's.
fun read_block(1 block, 1 to) {
  command(block, 1);
  st @base, block;
  @transfer(@base, 8, to, 32);
  return 0;
}

// Reads a block, and once more after a reset where the device failed. Returns 1 if the block is there.
fun read_or_retry(1 block, 1 to) {
  read_block(block, to) handle Failed error {
    // The reason 7 is a bad sector, which no reset mends.
    if error.1 == 7 { return 0; } else { }
    command(error.0, 2);
    read_block(error.0, to);
  };
  return 1;
}

// The exclusive or of the words of a block.
fun parity(1 at) {
  var words = lds 4 at;
  return words.0 ^ words.1 ^ words.2 ^ words.3;
}

fun main() {
  var block = 0;
  var to = @base + 64;
  var there = 0;
  var sum = 0;
  var count = 0;
  while block <+ 4 {
    there = read_or_retry(block, to) handle TimedOut lost {
      // Nothing more is to be had of a device that doesn't answer.
      !st32 0x40001004, 2;
      return (lost << 32) + count;
    };
    if there {
      var part = parity(to);
      sum = sum ^ part;
      count = count + 1;
    } else { }
    to = to + 32;
    block = block + 1;
  }
  return (sum << 8) + count;
}
