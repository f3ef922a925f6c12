//! The registers behind the cable: document 02, (viii).

pub const REGISTERS: usize = 16;

const FLAGS: usize = 0;
const MASK: usize = 1;
const SAMPLE: usize = 2;

const FRESH: u8 = 1 << 0;
const LOST: u8 = 1 << 1;
const RAISED: u8 = 1 << 7;

const STEPS_A_SAMPLE: u64 = 100;

pub struct Device<'a> {
    pub registers: [u8; REGISTERS],
    tape: &'a [u8],
}

impl<'a> Device<'a> {
    pub fn new(tape: &'a [u8]) -> Device<'a> {
        Device { registers: [0; REGISTERS], tape }
    }

    /// What the register strip holds that a part of a run is given: of the flags, bit 7 follows from the others, and bits 2 to 6 are none.
    pub fn of_strip(strip: &[u8], tape: &'a [u8]) -> Device<'a> {
        let mut device = Device::new(tape);
        device.registers.copy_from_slice(strip);
        device.registers[FLAGS] &= FRESH | LOST;
        device.settle();
        device
    }

    pub fn samples_left(&self) -> usize {
        self.tape.len()
    }

    /// A step was charged, the so-manieth.
    pub fn charged(&mut self, steps: u64) {
        if steps % STEPS_A_SAMPLE == 0 {
            self.sample();
        }
    }

    /// The next sample comes, if there is one.
    pub fn sample(&mut self) {
        if let Some((&sample, rest)) = self.tape.split_first() {
            self.tape = rest;
            self.registers[SAMPLE] = sample;
            let lost = if self.registers[FLAGS] & FRESH != 0 { LOST } else { 0 };
            self.registers[FLAGS] |= FRESH | lost;
            self.settle();
        }
    }

    fn settle(&mut self) {
        let is_raised = self.registers[FLAGS] & self.registers[MASK] & (FRESH | LOST) != 0;
        self.registers[FLAGS] = self.registers[FLAGS] & !RAISED | if is_raised { RAISED } else { 0 };
    }

    pub fn get(&mut self, register: usize) -> u8 {
        let value = self.registers[register];
        if register == SAMPLE {
            self.registers[FLAGS] &= !FRESH;
            self.settle();
        }
        value
    }

    pub fn put(&mut self, register: usize, value: u8) {
        match register {
            FLAGS => self.registers[FLAGS] &= !(value & (FRESH | LOST)),
            SAMPLE => {}
            _ => self.registers[register] = value,
        }
        self.settle();
    }
}
