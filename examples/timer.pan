// A timer and the interrupt controller that it is wired to. Each state is a function, and goes to the next state by a tail call: however
// long it runs, no more of the stack is used.
//
//   0x40002000  64 bits  the time, in ticks
//   0x40002008  64 bits  compare: the timer asks for an interrupt when the time has reached it
//   0x40003000  32 bits  claim: a load takes the number of a pending interrupt, 0 for none; a store says that it was served
//
// The timer's interrupt is number 7. Others are acknowledged, and told to who waits for them.

// An alarm that was due this many ticks ago when it was to be set.
exception Late 1;

// Sets the next alarm, a hundred ticks after the last one.
fun set_alarm(1 due) {
  var now = 0;
  now = !ld64 0x40002000;
  if due <+ now { raise Late now - due; } else { }
  !st64 0x40002008, due;
  return due;
}

// Says that an interrupt was served. The controller then tells the next one.
fun acknowledge(1 number) {
  !st32 0x40003000, number;
  return 0;
}

// The state in which nothing is set: it sets the alarm, or ends after the third one.
fun idle(1 due, 1 alarms) {
  if alarms == 3 { return finished(due, alarms); } else { }
  set_alarm(due) handle Late ticks {
    // One alarm was missed. It counts, and the next one is set from there.
    return idle(due + ticks + 100, alarms + 1);
  };
  return armed(due, alarms);
}

// The state in which the alarm is set: it waits for an interrupt.
fun armed(1 due, 1 alarms) {
  var number = 0;
  number = !ld32 0x40003000;
  if number == 0 {
    // Nothing is pending: the processor may sleep.
    @sleep(@base, 0, @base, 0);
    return armed(due, alarms);
  } else { }
  if number == 7 { return expired(due, alarms); } else { return other(number, due, alarms); }
}

// The state after the timer's interrupt.
fun expired(1 due, 1 alarms) {
  acknowledge(7);
  return idle(due + 100, alarms + 1);
}

// The state after an interrupt that isn't the timer's.
fun other(1 number, 1 due, 1 alarms) {
  stb @base, number;
  @interrupt(@base, 1, @base + 8, 1);
  acknowledge(number);
  return armed(due, alarms);
}

// The last state: no alarm is set any more.
fun finished(1 due, 1 alarms) {
  !st64 0x40002008, -1;
  return due;
}

fun main() {
  return idle(1000, 0);
}
