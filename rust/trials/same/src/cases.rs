//! The words and the states: made from the place of a case alone.

/// 64 words from address 0 on, and registers.
pub struct Case {
    pub words: Vec<u32>,
    pub registers: [u32; 32],
}

/// Numbers from a place (xorshift).
struct Numbers(u64);

impl Numbers {
    fn of(place: u64) -> Numbers {
        let mut numbers = Numbers((place + 1).wrapping_mul(0x9e37_79b9_7f4a_7c15));
        numbers.next();
        numbers
    }

    fn next(&mut self) -> u32 {
        self.0 ^= self.0 << 13;
        self.0 ^= self.0 >> 7;
        self.0 ^= self.0 << 17;
        (self.0 >> 16) as u32
    }

    fn of_these(&mut self, numbers: &[u32]) -> u32 {
        numbers[self.next() as usize % numbers.len()]
    }

    fn registers(&mut self) -> [u32; 32] {
        let edges = [
            0,
            1,
            0x7fff_ffff,
            0x8000_0000,
            0xffff_ffff,
            16,
            12,
            252,
            256,
        ];
        let mut registers = [0; 32];
        for register in registers.iter_mut().skip(1) {
            *register = match self.next() % 3 {
                0 => self.of_these(&edges),
                1 => self.next() % 300,
                _ => self.next(),
            };
        }
        registers
    }

    /// A word, of an opcode most often.
    fn word(&mut self) -> u32 {
        let opcodes = [
            0x33, 0x13, 0x37, 0x17, 0x63, 0x03, 0x23, 0x6f, 0x67, 0x0f, 0x73,
        ];
        let mut word = self.next();
        if self.next() % 16 != 0 {
            word = (word & !0x7f) | self.of_these(&opcodes);
        }
        if self.next() % 2 == 0 {
            word = (word & 0x01ff_ffff) | self.of_these(&[0, 0x0200_0000, 0x4000_0000]);
        }
        word
    }

    /// A word of a program: arithmetic, loads and stores near, branches, and now and then a word of
    /// any kind.
    fn word_of_program(&mut self) -> u32 {
        let (rd, rs1, rs2) = (self.next() % 32, self.next() % 32, self.next() % 32);
        let near = self.next() % 64 * 4;
        let (funct3, place) = (self.next() % 8, rs2 << 20 | rs1 << 15);
        match self.next() % 16 {
            0..=3 => self.of_these(&[0, 0x0200_0000]) | place | funct3 << 12 | rd << 7 | 0x33,
            4..=7 => {
                let funct3 = self.of_these(&[0, 2, 3, 4, 6, 7]);
                (self.next() & 0xfff0_0000) | rs1 << 15 | funct3 << 12 | rd << 7 | 0x13
            }
            8..=9 => near << 20 | self.of_these(&[0, 1, 2, 4, 5]) << 12 | rd << 7 | 0x03,
            10..=11 => {
                let funct3 = self.of_these(&[0, 1, 2]);
                (near >> 5) << 25 | rs2 << 20 | funct3 << 12 | (near & 31) << 7 | 0x23
            }
            12..=13 => {
                let by = if self.next() % 2 == 0 {
                    near % 64
                } else {
                    0x2000 - near % 64
                };
                let high = (by >> 12 & 1) << 31 | (by >> 5 & 63) << 25;
                let low = (by >> 1 & 15) << 8 | (by >> 11 & 1) << 7;
                high | place | self.of_these(&[0, 1, 4, 5, 6, 7]) << 12 | low | 0x63
            }
            14 => (self.next() & 0xffff_f000) | rd << 7 | 0x37,
            _ => self.word(),
        }
    }
}

/// A case of a step: the word is at address 16.
pub fn step_case(place: u64) -> Case {
    let mut numbers = Numbers::of(place);
    let mut words: Vec<u32> = (0..64).map(|_| numbers.next()).collect();
    words[4] = numbers.word();
    Case {
        words,
        registers: numbers.registers(),
    }
}

/// A case of a run, from address 0 on.
pub fn run_case(place: u64) -> Case {
    let mut numbers = Numbers::of(place ^ 0x5555_5555);
    let words = (0..64).map(|_| numbers.word_of_program()).collect();
    Case {
        words,
        registers: numbers.registers(),
    }
}

/// Whether a word is of a row that is stricter here: a `slli` with a funct7, a `jalr` with a
/// funct3.
pub fn is_of_a_stricter_row(word: u32) -> bool {
    let (opcode, funct3, funct7) = (word & 0x7f, word >> 12 & 7, word >> 25);
    (opcode == 0x13 && funct3 == 1 && funct7 != 0) || (opcode == 0x67 && funct3 != 0)
}
