//! The old lounge module, CU20026MCPB, written from its papers (request W8 of document 02, and source 001, the
//! module's specification) and docs/DECISIONS.md, not from the product's code. The product is compared with it.
//!
//! In this order: the condition; what a data write does; what a command write does; the run; what a cell
//! shows; what `show_lounge` prints. Nothing is shared with module.rs, the first device.
#![allow(dead_code)]

pub const CELLS: usize = 40;
pub const USERS: usize = 8;
pub const LONGEST_RUN: usize = 32_768; // pairs

/// The first byte of a pair.
pub const DATA: u8 = 0;
pub const COMMAND: u8 = 1;

/// The marks of a character; they add up.
pub const BRIGHT: u8 = 1;
pub const BLINK: u8 = 2;
pub const UNDERLINE: u8 = 4;

/// The codes that start an area, in the order of their marks.
pub const AREA_CODES: [u8; 3] = [0x17, 0x19, 0x1C];

// ---------------------------------------------------------------------------------- the condition

/// The half-received data sequence.
#[derive(Clone, Copy, Debug, PartialEq, Eq)]
pub enum Half {
    Nothing,
    Esc,
    UserData { code: u8, count: usize, held: [u8; 4] },
    First { area: u8 },
    Second { area: u8, first: u8 },
}

/// A user character: its code and five bytes of dots.
#[derive(Clone, Copy, Debug, PartialEq, Eq)]
pub struct User {
    pub code: u8,
    pub dots: [u8; 5],
}

pub const NO_USER: User = User {
    code: 0,
    dots: [0; 5],
};

#[derive(Clone, Debug, PartialEq, Eq)]
pub struct Condition {
    pub codes: [u8; CELLS],
    pub marks: [u8; CELLS],
    pub cursor: usize,
    /// 1 for DC1, 2 for DC2.
    pub mode: u8,
    pub scroll_on: bool,
    pub dimming: bool,
    /// What a data read gives: the last byte written.
    pub last: u8,
    /// The user characters, oldest first; from `count` up all 0.
    pub users: [User; USERS],
    pub count: usize,
    pub half: Half,
}

impl Condition {
    pub fn reset() -> Condition {
        Condition {
            codes: [0x20; CELLS],
            marks: [0; CELLS],
            cursor: 0,
            mode: 1,
            scroll_on: false,
            dimming: false,
            last: 0x00,
            users: [NO_USER; USERS],
            count: 0,
            half: Half::Nothing,
        }
    }

    /// By W8's list and nothing else: 1Bh may be a user code while a sequence is half received.
    pub fn well_formed(&self) -> bool {
        let in_range = self.cursor < CELLS
            && (1..=2).contains(&self.mode)
            && self.marks.iter().all(|&m| m <= BRIGHT + BLINK + UNDERLINE)
            && self.count <= USERS;
        if !in_range {
            return false;
        }
        let (used, unused) = self.users.split_at(self.count);
        let half_fits = match self.half {
            Half::Nothing | Half::Esc => true,
            Half::UserData { count, held, .. } => count <= 4 && held[count..].iter().all(|&d| d == 0),
            // the first position is any byte: it waits for the second, and they are dropped together
            Half::First { area } | Half::Second { area, .. } => AREA_CODES.contains(&area),
        };
        half_fits
            && unused.iter().all(|&u| u == NO_USER)
            && used.iter().all(|u| u.dots[4] < 8)
            && (0..self.count).all(|i| (0..i).all(|j| used[i].code != used[j].code))
            && (!self.scroll_on || self.mode == 2 && self.cursor % 20 == 19)
    }

    pub fn is_user(&self, code: u8) -> bool {
        self.users[..self.count].iter().any(|u| u.code == code)
    }

    // ------------------------------------------------------------------------ what a data write does

    /// Takes one pair.
    #[inline]
    pub fn take(&mut self, kind: u8, b: u8) {
        self.last = b;
        if kind == DATA {
            self.data(b);
        } else {
            self.command(b);
        }
    }

    /// The condition after these pairs.
    pub fn after(&self, pairs: &[u8]) -> Condition {
        let mut c = self.clone();
        for pair in pairs.chunks_exact(2) {
            c.take(pair[0], pair[1]);
        }
        c
    }

    #[inline]
    fn data(&mut self, b: u8) {
        if self.half != Half::Nothing {
            return self.parameter(b);
        }
        if self.is_user(b) {
            return self.write(b);
        }
        match b {
            0x09 => self.right(),
            0x0D => {
                self.cursor -= self.cursor % 20;
                self.scroll_on = false;
            }
            0x11 | 0x12 => {
                self.mode = b - 0x10;
                self.scroll_on = false;
            }
            0x17 | 0x19 | 0x1C => self.half = Half::First { area: b },
            0x18 => {
                self.unmark(BRIGHT);
                self.dimming = false;
            }
            0x1A => self.unmark(BLINK),
            0x1D => self.unmark(UNDERLINE),
            0x1B => self.half = Half::Esc,
            0x20..=0xFF => self.write(b),
            _ => {}
        }
    }

    /// A byte that continues a half-received sequence. (Not inlined, so that other bytes don't pay for it.)
    #[inline(never)]
    fn parameter(&mut self, b: u8) {
        let half = self.half;
        self.half = Half::Nothing;
        match half {
            Half::Nothing => unreachable!(),
            Half::Esc => {
                self.half = Half::UserData {
                    code: b,
                    count: 0,
                    held: [0; 4],
                }
            }
            Half::UserData {
                code,
                count,
                mut held,
            } => {
                if count < 4 {
                    held[count] = b;
                    self.half = Half::UserData {
                        code,
                        count: count + 1,
                        held,
                    };
                } else {
                    self.define(User {
                        code,
                        dots: [held[0], held[1], held[2], held[3], b & 0x07],
                    });
                }
            }
            Half::First { area } => self.half = Half::Second { area, first: b },
            Half::Second { area, first } => {
                if first <= b && b <= 0x27 {
                    self.mark(area, first as usize, b as usize);
                }
            }
        }
    }

    /// A code defined again moves to the youngest place with its new bytes, and a new one comes there too;
    /// with eight held a new one pushes the oldest out.
    fn define(&mut self, user: User) {
        let mut others = 0;
        for i in 0..self.count {
            if self.users[i].code != user.code {
                self.users[others] = self.users[i];
                others += 1;
            }
        }
        if others == USERS {
            self.users.copy_within(1.., 0);
            others -= 1;
        }
        self.users[others] = user;
        self.count = others + 1;
    }

    /// Marks the characters from the first to the second position, both counted.
    fn mark(&mut self, area: u8, first: usize, second: usize) {
        let mark = match area {
            0x17 => BRIGHT,
            0x19 => BLINK,
            _ => UNDERLINE,
        };
        for m in self.marks[first..=second].iter_mut() {
            *m |= mark;
        }
        if mark == BRIGHT {
            self.dimming = true;
        }
    }

    /// Cancels this mark everywhere.
    fn unmark(&mut self, mark: u8) {
        for m in self.marks.iter_mut() {
            *m &= !mark;
        }
    }

    #[inline]
    fn write(&mut self, b: u8) {
        let here = self.cursor;
        if self.mode == 2 && (here == 19 || here == 39) {
            if self.scroll_on {
                self.codes.copy_within(here - 18..here + 1, here - 19);
                self.marks.copy_within(here - 18..here + 1, here - 19);
            }
            self.scroll_on = true;
        } else {
            self.cursor = if here == 39 { 0 } else { here + 1 };
        }
        self.codes[here] = b;
        self.marks[here] = 0;
    }

    /// 09h, alike in both modes.
    fn right(&mut self) {
        self.scroll_on = false;
        if self.cursor == 39 {
            self.codes.copy_within(20..40, 0);
            self.marks.copy_within(20..40, 0);
            self.clear(20);
            self.cursor = 20;
        } else {
            self.cursor += 1;
        }
    }

    // --------------------------------------------------------------------- what a command write does

    /// It is never looked up in the user codes and never a parameter: a half-received sequence waits on.
    #[inline]
    fn command(&mut self, b: u8) {
        match b {
            0x00..=0x27 => {
                self.cursor = b as usize;
                self.scroll_on = false;
            }
            0x40 => self.reset_line(0),
            0x41 => self.reset_line(20),
            _ => {}
        }
    }

    /// The cursor moves, and scroll-on ends, only where the cursor is in this line.
    fn reset_line(&mut self, start: usize) {
        self.clear(start);
        if self.cursor / 20 == start / 20 {
            self.cursor = start;
            self.scroll_on = false;
        }
    }

    fn clear(&mut self, start: usize) {
        self.codes[start..start + 20].fill(0x20);
        self.marks[start..start + 20].fill(0);
    }
}

// ----------------------------------------------------------------------------------------- the run

/// All pairs in turn, or the refusal 1, 3 or 4, the lowest that fits.
pub fn run(from: &Condition, pairs: &[u8]) -> Result<Condition, u8> {
    if pairs.len() % 2 != 0 {
        return Err(1);
    }
    // all of the input counts, also what is behind the longest run
    if !from.well_formed() || pairs.chunks_exact(2).any(|pair| pair[0] > COMMAND) {
        return Err(3);
    }
    if pairs.len() / 2 > LONGEST_RUN {
        return Err(4);
    }
    Ok(from.after(pairs))
}

// ------------------------------------------------------------------------------- what a cell shows

#[derive(Clone, Copy, Debug, PartialEq, Eq)]
pub enum Shape {
    Blank,
    User(u8),
    BuiltIn(u8),
}

/// The underline has its character's level and does not blink.
#[derive(Clone, Copy, Debug, PartialEq, Eq)]
pub struct View {
    pub shape: Shape,
    pub level_b: bool,
    pub blinking: bool,
    pub underlined: bool,
}

pub fn view(c: &Condition, position: u32) -> Result<View, u8> {
    if !c.well_formed() || position > 39 {
        return Err(3);
    }
    let (code, marks) = (c.codes[position as usize], c.marks[position as usize]);
    let shape = if c.is_user(code) {
        Shape::User(code)
    } else if code < 0x20 {
        Shape::Blank
    } else {
        Shape::BuiltIn(code)
    };
    Ok(View {
        shape,
        level_b: c.dimming && marks & BRIGHT == 0,
        blinking: marks & BLINK != 0,
        underlined: marks & UNDERLINE != 0,
    })
}

// ---------------------------------------------------------------------- what `show_lounge` prints

pub fn show_lounge(input: &[u8]) -> String {
    match run(&Condition::reset(), input) {
        Err(n) => format!("refused {}\n", n),
        Ok(c) => shown(&c),
    }
}

fn shown(c: &Condition) -> String {
    let hex = |bytes: &[u8]| {
        bytes
            .iter()
            .map(|x| format!("{:02X}", x))
            .collect::<Vec<_>>()
            .join(" ")
    };
    let digits = |marks: &[u8]| marks.iter().map(|m| m.to_string()).collect::<String>();
    let mut lines = vec![
        hex(&c.codes[..20]),
        hex(&c.codes[20..]),
        digits(&c.marks[..20]),
        digits(&c.marks[20..]),
        format!(
            "cursor {} mode {} scroll {} dimming {} last {:02X}",
            c.cursor, c.mode, c.scroll_on as u8, c.dimming as u8, c.last
        ),
    ];
    for u in &c.users[..c.count] {
        lines.push(format!("user {:02X} {}", u.code, hex(&u.dots)));
    }
    lines.join("\n") + "\n"
}
