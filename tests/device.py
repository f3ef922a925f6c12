"""The device of document 02, (viii), for rows that are worked out by hand: the steps are charged as they are counted, and what a lesson gets and puts is done beside them.

It is written from the paper and shares nothing with the engine.
"""
COUNT = 16
STEPS_A_SAMPLE = 100
FLAGS, MASK, VALUE = 0, 1, 2  # the registers that mean something
READY, LOST, ALERT = 1, 2, 128  # bits of the flags


class Device:
    def __init__(self, tape=b""):
        self.tape, self.steps, self.registers = tape, 0, [0] * COUNT

    def charge(self, steps):
        """As step 100, 200 and so on is charged, the next byte of the tape comes, if there is one."""
        for _ in range(steps):
            self.steps += 1
            if self.steps % STEPS_A_SAMPLE == 0 and self.steps // STEPS_A_SAMPLE <= len(self.tape):
                self.registers[VALUE] = self.tape[self.steps // STEPS_A_SAMPLE - 1]
                self.set_flags(self.registers[FLAGS] | (READY | LOST if self.registers[FLAGS] & READY else READY))

    def set_flags(self, flags):
        """Bit 7 is set exactly when bit 0 or 1 is set and its mask bit also."""
        two = flags & (READY | LOST)
        self.registers[FLAGS] = two | (ALERT if two & self.registers[MASK] else 0)

    def get(self, register):
        if register == VALUE:
            self.set_flags(self.registers[FLAGS] & ~READY)
        return self.registers[register]

    def put(self, register, value):
        if register == FLAGS:
            self.set_flags(self.registers[FLAGS] & ~value)
        elif register != VALUE:
            self.registers[register] = value
            self.set_flags(self.registers[FLAGS])

    def shown(self):
        """The registers as cases writes them."""
        return bytes(self.registers).hex()
