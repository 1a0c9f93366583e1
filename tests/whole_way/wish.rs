//! What a laptop asks for, and its arguments as they are sent.

use generate::Random;
use hgrpc::{COILS, LABEL_LONGEST};

pub enum Wish {
    Set(usize, bool),
    Label(usize, Vec<u8>),
    Off,
    /// What the board refuses with this number: a name, and arguments.
    Refused(u32, &'static [u8], Vec<Argument>),
}

#[derive(Clone)]
pub enum Argument {
    Coil(u64),
    On(bool),
    Text(Vec<u8>),
}

/// The arguments of a wish as they are sent.
pub struct Written {
    pub pairs: Vec<Vec<u8>>,
    /// Whether a head in them is not the shortest for its number.
    pub loose: bool,
}

/// Writes in the shortest heads, or, if it is asked to, in heads of any width.
struct Writer<'r> {
    random: &'r mut Random,
    any_width: bool,
    loose: bool,
}

impl Writer<'_> {
    fn head(&mut self, major: u8, number: u64) -> Vec<u8> {
        let bytes = number.to_be_bytes();
        let mut widths: Vec<usize> = [0, 1, 2, 4, 8]
            .into_iter()
            .filter(|width| match width {
                0 => number < 24,
                8 => true,
                _ => number >> (8 * width) == 0,
            })
            .collect();
        if !self.any_width {
            widths.truncate(1);
        }
        let width = self.random.pick(&widths);
        self.loose |= width != widths[0];
        let info = match width {
            0 => number as u8,
            _ => 24 + width.trailing_zeros() as u8,
        };
        [&[major << 5 | info], &bytes[8 - width..]].concat()
    }

    fn string(&mut self, content: &[u8]) -> Vec<u8> {
        [&self.head(2, content.len() as u64), content].concat()
    }

    fn pair(&mut self, argument: &Argument) -> Vec<u8> {
        let (key, value) = match argument {
            Argument::Coil(number) => (&b"coil"[..], self.head(0, *number)),
            Argument::On(on) => (&b"on"[..], vec![if *on { 0xf5 } else { 0xf4 }]),
            Argument::Text(text) => (&b"text"[..], self.string(text)),
        };
        [self.string(key), value].concat()
    }
}

impl Wish {
    pub fn any(random: &mut Random) -> Wish {
        let number = random.below(COILS);
        match random.below(20) {
            0..=7 => Wish::Set(number, random.percent(60)),
            8..=14 => {
                let any = random.between(0, LABEL_LONGEST);
                let length = random.pick(&[0, LABEL_LONGEST, any, any]);
                Wish::Label(number % 4, random.bytes(length))
            }
            15 | 16 => Wish::Off,
            _ => Wish::refused(random),
        }
    }

    fn refused(random: &mut Random) -> Wish {
        let number = random.below(COILS) as u64;
        let outside = random.pick(&[16, 99, 256 + number, u64::MAX]);
        let long = random.bytes(LABEL_LONGEST + 1);
        let (coil, other) = (Argument::Coil(number), Argument::Coil(outside));
        match random.below(5) {
            0 => Wish::Refused(40, b"toggle", vec![coil]),
            1 => Wish::Refused(41, b"set", vec![other]),
            2 => Wish::Refused(41, b"off", vec![coil]),
            3 => Wish::Refused(42, b"set", vec![other, Argument::On(true)]),
            _ => Wish::Refused(43, b"label", vec![coil, Argument::Text(long)]),
        }
    }

    pub fn name(&self) -> &'static [u8] {
        match self {
            Wish::Set(..) => b"set",
            Wish::Label(..) => b"label",
            Wish::Off => b"off",
            Wish::Refused(_, name, _) => name,
        }
    }

    /// The arguments in any order.
    pub fn written(&self, random: &mut Random) -> Written {
        let coil = |number: &usize| Argument::Coil(*number as u64);
        let mut arguments = match self {
            Wish::Set(number, switch) => vec![coil(number), Argument::On(*switch)],
            Wish::Label(number, label) => vec![coil(number), Argument::Text(label.clone())],
            Wish::Off => vec![],
            Wish::Refused(_, _, arguments) => arguments.clone(),
        };
        random.shuffle(&mut arguments);
        let mut writer = Writer {
            any_width: random.percent(60),
            random,
            loose: false,
        };
        let pairs = arguments.iter().map(|argument| writer.pair(argument));
        Written {
            pairs: pairs.collect(),
            loose: writer.loose,
        }
    }
}
