//! The energy account (data sheet, section 9).

/// The energy account.
#[derive(Clone, Copy, Debug, Default, PartialEq, Eq)]
pub struct Account {
    pub accumulator: u16,
    pub rollover: u16,
    pub samples: u32,
}

impl Account {
    pub(crate) fn valid(&self) -> bool {
        self.accumulator <= 0x7FFF && self.rollover <= 0xFF && self.samples <= 0xFF_FFFF
    }

    /// Adds a sample of 0 to 32767. Modulus 32768; rollover 8 bits, count 24 bits.
    pub(crate) fn add(&mut self, sample: u16) {
        self.accumulator += sample;
        if self.accumulator > 32767 {
            self.accumulator -= 32768;
            self.rollover = (self.rollover + 1) & 0xFF;
        }
        self.samples = (self.samples + 1) & 0xFF_FFFF;
    }

    /// The account in the seven data bytes of READ_EIN: answer 22 unless the first is
    /// the count 06h, 23 for an accumulator over 7FFFh.
    pub(crate) fn from_bytes(bytes: &[u8; 7]) -> Result<Account, u8> {
        let [count, low, high, rollover, samples @ ..] = *bytes;
        let account = Account {
            accumulator: u16::from_le_bytes([low, high]),
            rollover: u16::from(rollover),
            samples: u32::from_le_bytes([samples[0], samples[1], samples[2], 0]),
        };
        if count != 0x06 {
            Err(22)
        } else if account.accumulator > 0x7FFF {
            Err(23)
        } else {
            Ok(account)
        }
    }

    /// The seven data bytes of READ_EIN.
    pub(crate) fn bytes(&self) -> [u8; 7] {
        let accumulator = self.accumulator.to_le_bytes();
        let samples = self.samples.to_le_bytes();
        [
            0x06,
            accumulator[0],
            accumulator[1],
            self.rollover as u8,
            samples[0],
            samples[1],
            samples[2],
        ]
    }
}
