//! The 20x2 display module, written from its papers alone (document 01, the scope, requests W1 to W7, W10 and
//! W11 of document 02, and source 000, the module's specification) and not from the product's code. The
//! product is compared with it.
//!
//! In this order: the condition; what a byte does, with its busy time; the run and its tally; what a
//! cell shows; the block; the planner of one font; the planner of two fonts, by search; two searches that
//! confirm the fewest bytes of both; a reel of pictures; the way back to power-up, by search; the vetting of a
//! string; the host calls; what `show` and `vet` print; the salvage of a block file.
#![allow(dead_code)]

pub const CELLS: usize = 40;
pub const USERS: usize = 16;
pub const BLOCK: usize = 512;
pub const TALLY: usize = 16;
pub const LONGEST_RUN: usize = 32_768;
pub const LIMIT: u64 = 4_000_000_000;
pub const PLAN_ROOM: usize = 44;
pub const FONTS_ROOM: usize = 104;

/// The most pictures of a reel, and how many lengths it reports. Where the whole call is refused this number
/// stands for the picture.
pub const REEL: usize = 64;

/// The planner's one-byte moves, and ESC: a user character on one of these six stops all planning.
pub const SINGLE_MOVES: [u8; 5] = [0x08, 0x09, 0x0A, 0x0C, 0x0D];
pub const PLANNERS_CODES: [u8; 6] = [0x08, 0x09, 0x0A, 0x0C, 0x0D, 0x1B];

/// The same for the planner of two fonts, which also sends 18h, 19h and 1Ah.
pub const FONTS_CODES: [u8; 9] = [0x08, 0x09, 0x0A, 0x0C, 0x0D, 0x1B, 0x18, 0x19, 0x1A];

/// The bytes that get a lost module back: six 00h, then 1Bh 49h.
pub const BACK: [u8; 8] = [0x00, 0x00, 0x00, 0x00, 0x00, 0x00, 0x1B, 0x49];

/// The byte that clears, with which a plan may start.
pub const CLEAR: u8 = 0x0E;

// ---------------------------------------------------------------------------------- the condition

/// The half-received command.
#[derive(Clone, Copy, Debug, PartialEq, Eq)]
pub enum Half {
    Nothing,
    Esc,
    Position,
    Luminance,
    Speed,
    UserCode,
    UserData { code: u8, count: usize, held: [u8; 4] },
}

/// A user character: its code and five bytes of dots.
#[derive(Clone, Copy, Debug, PartialEq, Eq)]
pub struct User {
    pub code: u8,
    pub dots: [u8; 5],
}

const NO_USER: User = User { code: 0, dots: [0; 5] };

/// How long the module is busy with a byte, in microseconds: at the quickest and at the worst.
#[derive(Clone, Copy, Debug, PartialEq, Eq)]
pub struct Busy {
    pub quick: u64,
    pub worst: u64,
}

#[derive(Clone, Debug, PartialEq, Eq)]
pub struct Condition {
    pub codes: [u8; CELLS],
    pub fonts: [u8; CELLS],
    pub cursor: usize,
    pub mode: u8,
    pub scroll_on: bool,
    pub shown: bool,
    pub font: u8,
    pub default_font: u8,
    pub euro: bool,
    pub luminance: u8,
    pub speed: u8,
    pub flickerless: bool,
    /// The user characters, oldest first; from `count` up all 0.
    pub users: [User; USERS],
    pub count: usize,
    pub half: Half,
}

impl Condition {
    pub fn power_up(font: u8) -> Condition {
        Condition {
            codes: [0x20; CELLS],
            fonts: [font; CELLS],
            cursor: 0,
            mode: 1,
            scroll_on: false,
            shown: false,
            font,
            default_font: font,
            euro: false,
            luminance: 3,
            speed: 0x14,
            flickerless: false,
            users: [NO_USER; USERS],
            count: 0,
            half: Half::Nothing,
        }
    }

    /// It is that of power-up for its default font.
    pub fn at_power_up(&self) -> bool {
        *self == Condition::power_up(self.default_font)
    }

    pub fn well_formed(&self) -> bool {
        let in_range = self.fonts.iter().all(|&f| f <= 1)
            && self.cursor < CELLS
            && (1..=3).contains(&self.mode)
            && self.font <= 1
            && self.default_font <= 1
            && self.luminance <= 3
            && self.count <= USERS;
        if !in_range {
            return false;
        }
        let (used, unused) = self.users.split_at(self.count);
        let half_fits = match self.half {
            Half::UserData { count, held, .. } => count <= 4 && held[count..].iter().all(|&d| d == 0),
            _ => true,
        };
        half_fits
            && unused.iter().all(|&u| u == NO_USER)
            && used.iter().all(|u| u.dots[4] < 16)
            && (0..self.count).all(|i| (0..i).all(|j| used[i].code != used[j].code))
            && (!self.scroll_on || self.mode == 3 && self.cursor % 20 == 19)
            && (!self.is_user(0x1B) || self.half == Half::Nothing)
    }

    pub fn place_of_user(&self, code: u8) -> Option<usize> {
        self.users[..self.count].iter().position(|u| u.code == code)
    }

    pub fn is_user(&self, code: u8) -> bool {
        self.place_of_user(code).is_some()
    }

    // ------------------------------------------------------------------------------ what a byte does

    /// Takes one byte and answers how long the module is busy with it: up to 200 longer where flickerless
    /// was already on.
    #[inline]
    pub fn take(&mut self, b: u8) -> Busy {
        let longer = if self.flickerless { 200 } else { 0 };
        let quick = self.carry_out(b);
        Busy {
            quick,
            worst: quick + longer,
        }
    }

    /// The condition after these bytes.
    pub fn after(&self, bytes: &[u8]) -> Condition {
        let mut c = self.clone();
        for &b in bytes {
            c.take(b);
        }
        c
    }

    /// What the byte does, and its quick figure.
    fn carry_out(&mut self, b: u8) -> u64 {
        if self.half != Half::Nothing {
            return self.parameter(b);
        }
        if self.is_user(b) {
            return self.write(b);
        }
        match b {
            0x08 => {
                if self.cursor % 20 != 0 {
                    self.cursor -= 1;
                }
                self.scroll_on = false;
                6
            }
            0x09 => {
                if self.right() {
                    20
                } else {
                    6
                }
            }
            0x0A => {
                self.scroll_on = false;
                if self.cursor < 20 {
                    self.cursor += 20;
                } else if self.mode == 1 {
                    self.cursor -= 20;
                } else if self.mode == 2 {
                    self.scroll();
                    return 20;
                }
                6
            }
            0x0C => {
                self.cursor = 0;
                self.scroll_on = false;
                6
            }
            0x0D => {
                self.cursor -= self.cursor % 20;
                self.scroll_on = false;
                6
            }
            0x0E | 0x0F => {
                self.clear(0);
                self.scroll_on = false;
                65
            }
            0x11 | 0x12 | 0x13 => {
                self.mode = b - 0x10;
                self.scroll_on = false;
                6
            }
            0x15 => {
                self.shown = true;
                6
            }
            0x14 | 0x16 | 0x17 => {
                self.shown = false;
                6
            }
            0x18 => {
                self.font = 0;
                self.euro = false;
                6
            }
            0x19 => {
                self.font = 1;
                6
            }
            0x1A => {
                self.euro = true;
                6
            }
            0x1B => {
                self.half = Half::Esc;
                6
            }
            0x20..=0xFF => self.write(b),
            0x00..=0x07 | 0x0B | 0x10 | 0x1C..=0x1F => 6,
        }
    }

    /// A byte that continues a half-received command. (Not inlined, so that other bytes don't pay for it.)
    #[inline(never)]
    fn parameter(&mut self, b: u8) -> u64 {
        let half = self.half;
        self.half = Half::Nothing;
        match half {
            Half::Nothing => unreachable!(),
            Half::Esc => match b {
                0x43 => {
                    self.half = Half::UserCode;
                    4
                }
                0x48 => {
                    self.half = Half::Position;
                    4
                }
                0x49 => {
                    *self = Condition::power_up(self.default_font);
                    40
                }
                0x4C => {
                    self.half = Half::Luminance;
                    4
                }
                0x53 => {
                    self.flickerless = true;
                    6
                }
                0x54 => {
                    self.half = Half::Speed;
                    4
                }
                _ => 6,
            },
            Half::Position => {
                if b <= 0x27 {
                    self.cursor = b as usize;
                    self.scroll_on = false;
                }
                4
            }
            Half::Luminance => {
                self.luminance = b / 64;
                4
            }
            Half::Speed => {
                self.speed = b;
                6
            }
            Half::UserCode => {
                self.half = Half::UserData {
                    code: b,
                    count: 0,
                    held: [0; 4],
                };
                6
            }
            Half::UserData { code, count, mut held } => {
                if count < 4 {
                    held[count] = b;
                    self.half = Half::UserData {
                        code,
                        count: count + 1,
                        held,
                    };
                    6
                } else {
                    self.define(User {
                        code,
                        dots: [held[0], held[1], held[2], held[3], b & 0x0F],
                    });
                    15
                }
            }
        }
    }

    /// A code defined again moves to the youngest place with its new bytes, and a new one comes there too; with 16
    /// held a new one pushes the oldest out.
    fn define(&mut self, user: User) {
        let mut others = 0;
        for i in 0..self.count {
            if self.users[i].code != user.code {
                self.users[others] = self.users[i];
                others += 1;
            }
        }
        if others == USERS {
            self.users.copy_within(1.., 0);
            others -= 1;
        }
        self.users[others] = user;
        self.count = others + 1;
    }

    fn write(&mut self, b: u8) -> u64 {
        let here = self.cursor;
        if self.mode == 3 && (here == 19 || here == 39) {
            let shifts = self.scroll_on;
            if shifts {
                self.codes.copy_within(here - 18..here + 1, here - 19);
                self.fonts.copy_within(here - 18..here + 1, here - 19);
            }
            self.scroll_on = true;
            self.codes[here] = b;
            self.fonts[here] = self.font;
            return if shifts { 20 } else { 7 };
        }
        self.codes[here] = b;
        self.fonts[here] = self.font;
        if self.right() {
            20
        } else {
            7
        }
    }

    /// 09h; answers whether the display scrolled.
    fn right(&mut self) -> bool {
        match (self.cursor, self.mode) {
            (19, 3) | (39, 3) => {}
            (39, 1) => self.cursor = 0,
            (39, _) => {
                self.scroll();
                self.cursor = 20;
                return true;
            }
            _ => self.cursor += 1,
        }
        false
    }

    fn scroll(&mut self) {
        self.codes.copy_within(20..40, 0);
        self.fonts.copy_within(20..40, 0);
        self.clear(20);
    }

    fn clear(&mut self, from: usize) {
        self.codes[from..].fill(0x20);
        self.fonts[from..].fill(self.font);
    }
}

// --------------------------------------------------------------------------- the run and its tally

#[derive(Clone, Copy, Debug, PartialEq, Eq)]
pub struct Tally {
    pub bytes: u64,
    pub busy: u64,
    pub flickerless: u64,
    pub worst: u64,
}

impl Tally {
    pub const ZERO: Tally = Tally {
        bytes: 0,
        busy: 0,
        flickerless: 0,
        worst: 0,
    };

    fn above_limit(&self) -> bool {
        self.numbers().iter().any(|&n| n > LIMIT)
    }

    /// In the order in which a host keeps them and `show` prints them.
    pub fn numbers(&self) -> [u64; 4] {
        [self.bytes, self.busy, self.flickerless, self.worst]
    }

    /// One byte that the module takes, from a condition in which flickerless was on or off.
    pub fn count(&mut self, flickerless: bool, busy: Busy) {
        self.bytes += 1;
        self.busy += busy.quick;
        self.flickerless += flickerless as u64;
        self.worst += busy.worst;
    }

    /// As a host keeps it: four numbers of four bytes, low byte first.
    pub fn to_bytes(&self) -> [u8; TALLY] {
        let mut out = [0; TALLY];
        for (i, n) in self.numbers().iter().enumerate() {
            out[i * 4..i * 4 + 4].copy_from_slice(&(*n as u32).to_le_bytes());
        }
        out
    }

    pub fn from_bytes(b: &[u8]) -> Tally {
        let at = |i: usize| u32::from_le_bytes([b[i], b[i + 1], b[i + 2], b[i + 3]]) as u64;
        Tally {
            bytes: at(0),
            busy: at(4),
            flickerless: at(8),
            worst: at(12),
        }
    }
}

/// All bytes in turn, or the refusal 3, 4 or 5.
pub fn run(from: &Condition, tally: &Tally, bytes: &[u8]) -> Result<(Condition, Tally), u32> {
    if !from.well_formed() || tally.above_limit() {
        return Err(3);
    }
    if bytes.len() > LONGEST_RUN {
        return Err(4);
    }
    let mut c = from.clone();
    let mut t = *tally;
    for &b in bytes {
        t.count(c.flickerless, c.take(b));
    }
    if t.above_limit() {
        return Err(5);
    }
    Ok((c, t))
}

// ------------------------------------------------------------------------------- what a cell shows

#[derive(Clone, Copy, Debug, PartialEq, Eq)]
pub enum Shows {
    User(u8),
    Blank,
    Euro,
    BuiltIn { code: u8, font: u8 },
}

impl Condition {
    pub fn shows(&self, position: usize) -> Shows {
        let (code, font) = (self.codes[position], self.fonts[position]);
        if self.is_user(code) {
            Shows::User(code)
        } else if code < 0x20 {
            Shows::Blank
        } else if code == 0xAD && font == 0 {
            if self.euro {
                Shows::Euro
            } else {
                Shows::Blank
            }
        } else {
            Shows::BuiltIn { code, font }
        }
    }

    /// Is dot Pk of the user character lit?
    pub fn dot(&self, code: u8, k: usize) -> Result<bool, u32> {
        let i = self.place_of_user(code).ok_or(3u32)?;
        if !(1..=35).contains(&k) {
            return Err(3);
        }
        Ok(self.users[i].dots[(k - 1) / 8] >> ((k - 1) % 8) & 1 == 1)
    }

    pub fn underline(&self, code: u8) -> Result<bool, u32> {
        let i = self.place_of_user(code).ok_or(3u32)?;
        Ok(self.users[i].dots[4] >> 3 & 1 == 1)
    }

    /// How many of the 35 dots are lit.
    pub fn lit(&self, code: u8) -> Result<usize, u32> {
        let mut n = 0;
        for k in 1..=35 {
            if self.dot(code, k)? {
                n += 1;
            }
        }
        Ok(n)
    }
}

// --------------------------------------------------------------------------------------- the block

/// The check of a block: the sum of (i+1) times byte i, i 0 to 509, mod 65,521.
pub fn check_of(block: &[u8]) -> u16 {
    let mut sum = 0u64;
    for i in 0..510 {
        sum += (i as u64 + 1) * block[i] as u64;
    }
    (sum % 65_521) as u16
}

/// Puts the right check into a block of 512 bytes.
pub fn seal(block: &mut [u8]) {
    let check = check_of(block);
    block[510] = check as u8;
    block[511] = (check >> 8) as u8;
}

impl Condition {
    pub fn to_block(&self) -> [u8; BLOCK] {
        let mut b = [0; BLOCK];
        b[0] = 0x56;
        b[1] = 0x4B;
        b[2] = 0x01;
        b[3] = self.cursor as u8;
        b[4] = self.mode;
        b[5] = self.scroll_on as u8;
        b[6] = self.shown as u8;
        b[7] = self.font;
        b[8] = self.default_font;
        b[9] = self.euro as u8;
        b[10] = self.luminance;
        b[11] = self.speed;
        b[12] = self.flickerless as u8;
        b[13] = match self.half {
            Half::Nothing => 0,
            Half::Esc => 1,
            Half::Position => 2,
            Half::Luminance => 3,
            Half::Speed => 4,
            Half::UserCode => 5,
            Half::UserData { .. } => 6,
        };
        if let Half::UserData { code, count, held } = self.half {
            b[14] = code;
            b[15] = count as u8;
            b[16..20].copy_from_slice(&held);
        }
        b[20] = self.count as u8;
        b[24..64].copy_from_slice(&self.codes);
        b[64..104].copy_from_slice(&self.fonts);
        for (i, u) in self.users.iter().enumerate() {
            b[104 + 6 * i] = u.code;
            b[105 + 6 * i..110 + 6 * i].copy_from_slice(&u.dots);
        }
        seal(&mut b);
        b
    }

    /// The condition in a block, or the refusal 1, 2 or 3.
    pub fn from_block(b: &[u8]) -> Result<Condition, u32> {
        if b.len() != BLOCK {
            return Err(1);
        }
        let check = b[510] as u16 + 256 * b[511] as u16;
        if b[..3] != [0x56, 0x4B, 0x01] || check != check_of(b) {
            return Err(2);
        }
        let unused = |from: usize, to: usize| b[from..to].iter().any(|&x| x != 0);
        let flag = |i: usize| match b[i] {
            0 => Ok(false),
            1 => Ok(true),
            _ => Err(3u32),
        };
        if unused(21, 24) || unused(200, 510) {
            return Err(3);
        }
        let half = match b[13] {
            0 => Half::Nothing,
            1 => Half::Esc,
            2 => Half::Position,
            3 => Half::Luminance,
            4 => Half::Speed,
            5 => Half::UserCode,
            6 => Half::UserData {
                code: b[14],
                count: b[15] as usize,
                held: [b[16], b[17], b[18], b[19]],
            },
            _ => return Err(3),
        };
        if b[13] != 6 && unused(14, 20) {
            return Err(3);
        }
        let mut c = Condition::power_up(0);
        c.codes.copy_from_slice(&b[24..64]);
        c.fonts.copy_from_slice(&b[64..104]);
        c.cursor = b[3] as usize;
        c.mode = b[4];
        c.scroll_on = flag(5)?;
        c.shown = flag(6)?;
        c.font = b[7];
        c.default_font = b[8];
        c.euro = flag(9)?;
        c.luminance = b[10];
        c.speed = b[11];
        c.flickerless = flag(12)?;
        c.half = half;
        c.count = b[20] as usize;
        for (i, u) in c.users.iter_mut().enumerate() {
            u.code = b[104 + 6 * i];
            u.dots.copy_from_slice(&b[105 + 6 * i..110 + 6 * i]);
        }
        if c.well_formed() {
            Ok(c)
        } else {
            Err(3)
        }
    }
}

// -------------------------------------------------------------------------------------- the planner

/// Where the cursor is after these bytes in mode 1, by the interpreter above.
fn lands(from: usize, bytes: &[u8]) -> usize {
    let mut c = Condition::power_up(0);
    c.cursor = from;
    for &b in bytes {
        c.take(b);
    }
    c.cursor
}

/// For each two places the shortest string of moves, and of equals the smallest.
pub struct Moves {
    paths: Vec<Option<Vec<u8>>>,
    /// Where each single move leads from each place.
    single: Vec<[usize; 5]>,
}

impl Moves {
    /// Tries every string of moves of no bytes, of one, two and three, in rising order at each length,
    /// from each place: the first that gets somewhere is the one.
    pub fn new() -> Moves {
        let mut strings: Vec<Vec<u8>> = vec![vec![]];
        let mut last = strings.clone();
        for _ in 0..3 {
            let mut next = Vec::new();
            for s in &last {
                for &m in &SINGLE_MOVES {
                    let mut s = s.clone();
                    s.push(m);
                    next.push(s);
                }
            }
            strings.extend(next.iter().cloned());
            last = next;
        }
        strings.extend((0..CELLS as u8).map(|p| vec![0x1B, 0x48, p]));

        let mut paths = vec![None; CELLS * CELLS];
        for from in 0..CELLS {
            for s in &strings {
                let path = &mut paths[from * CELLS + lands(from, s)];
                if path.is_none() {
                    *path = Some(s.clone());
                }
            }
        }
        let single = (0..CELLS).map(|p| SINGLE_MOVES.map(|m| lands(p, &[m]))).collect();
        Moves { paths, single }
    }

    pub fn path(&self, from: usize, to: usize) -> &[u8] {
        self.paths[from * CELLS + to]
            .as_ref()
            .expect("a position command goes everywhere")
    }
}

/// What a plan is to reach: a code and a font for each cell, and the asked cursor.
pub struct Wanted {
    pub codes: [u8; CELLS],
    pub fonts: [u8; CELLS],
    pub asked: usize,
    /// May the font be switched on the way?
    pub switches: bool,
}

impl Wanted {
    /// For the planner of one font: every cell in the selected one, which stays.
    pub fn in_one_font(c: &Condition, codes: [u8; CELLS], asked: usize) -> Wanted {
        Wanted {
            codes,
            fonts: [c.font; CELLS],
            asked,
            switches: false,
        }
    }

    /// For the planner of two fonts.
    pub fn in_two_fonts(codes: [u8; CELLS], fonts: [u8; CELLS], asked: usize) -> Wanted {
        Wanted {
            codes,
            fonts,
            asked,
            switches: true,
        }
    }

    /// The fonts as its planner is lent them: the planner of one font takes none.
    pub fn lent_fonts(&self) -> Option<&[u8]> {
        if self.switches {
            Some(&self.fonts)
        } else {
            None
        }
    }

    /// The room that its planner wants.
    pub fn room(&self) -> usize {
        if self.switches {
            FONTS_ROOM
        } else {
            PLAN_ROOM
        }
    }

    /// The plan without a clear, from a condition that can be planned from.
    pub fn plan_without(&self, c: &Condition, moves: &Moves) -> Vec<u8> {
        if self.switches {
            Ways::new(c, self, moves, true).smallest(Place::start(c))
        } else {
            plain_plan(c, self, moves)
        }
    }

    pub fn plan(&self, c: &Condition, moves: &Moves) -> Result<Vec<u8>, u32> {
        if self.switches {
            plan_fonts(c, &self.codes, &self.fonts, self.asked as u32, moves)
        } else {
            plan(c, &self.codes, self.asked as u32, moves)
        }
    }
}

impl Condition {
    pub fn is_wrong(&self, position: usize, wanted: &Wanted) -> bool {
        self.codes[position] != wanted.codes[position] || self.fonts[position] != wanted.fonts[position]
    }
}

/// Why there is no plan: 3, 6, 7, 8 or 9; 0 if there is one. `planners`: the codes that must be free of
/// user characters.
fn plan_refusal(c: &Condition, codes: &[u8], asked: u32, planners: &[u8]) -> u32 {
    if !c.well_formed() || asked >= CELLS as u32 {
        3
    } else if c.half != Half::Nothing {
        6
    } else if c.mode != 1 {
        7
    } else if planners.iter().any(|&m| c.is_user(m)) {
        8
    } else if codes.iter().any(|&w| w < 0x20 && !c.is_user(w)) {
        9
    } else {
        0
    }
}

/// The condition after 0Eh, by the interpreter above; none where a user character sits there.
pub fn cleared(c: &Condition) -> Option<Condition> {
    if c.is_user(CLEAR) {
        return None;
    }
    let mut blank = c.clone();
    blank.take(CLEAR);
    Some(blank)
}

/// Request W4: the plan without the clear, or 0Eh and the plan from the cleared condition, if that is shorter.
fn shorter<F: Fn(&Condition) -> Vec<u8>>(c: &Condition, without: F) -> Vec<u8> {
    let plain = without(c);
    if let Some(blank) = cleared(c) {
        let mut bytes = vec![CLEAR];
        bytes.extend(without(&blank));
        if bytes.len() < plain.len() {
            return bytes;
        }
    }
    plain
}

/// The plan in the selected font.
pub fn plan(c: &Condition, codes: &[u8; CELLS], asked: u32, moves: &Moves) -> Result<Vec<u8>, u32> {
    let refusal = plan_refusal(c, codes, asked, &PLANNERS_CODES);
    if refusal != 0 {
        return Err(refusal);
    }
    let wanted = Wanted::in_one_font(c, *codes, asked as usize);
    Ok(shorter(c, |from| wanted.plan_without(from, moves)))
}

/// Without a clear: the wrong cells in reading order, with the shortest way to each and to the asked cursor.
fn plain_plan(c: &Condition, wanted: &Wanted, moves: &Moves) -> Vec<u8> {
    let mut out = Vec::new();
    let mut at = c.cursor;
    for p in 0..CELLS {
        if c.is_wrong(p, wanted) {
            out.extend_from_slice(moves.path(at, p));
            out.push(wanted.codes[p]);
            at = (p + 1) % CELLS;
        }
    }
    out.extend_from_slice(moves.path(at, wanted.asked));
    out
}

// ------------------------------------------------------------------------- the planner of two fonts

/// The plan with a font for each cell: of the shortest strings without a clear that have a plan's form the
/// smallest, or 0Eh and such a string.
pub fn plan_fonts(
    c: &Condition,
    codes: &[u8; CELLS],
    fonts: &[u8; CELLS],
    asked: u32,
    moves: &Moves,
) -> Result<Vec<u8>, u32> {
    if fonts.iter().any(|&f| f > 1) {
        return Err(3);
    }
    let refusal = plan_refusal(c, codes, asked, &FONTS_CODES);
    if refusal != 0 {
        return Err(refusal);
    }
    let wanted = Wanted::in_two_fonts(*codes, *fonts, asked as usize);
    Ok(shorter(c, |from| wanted.plan_without(from, moves)))
}

/// The step that goes back to the International font and leaves the Euro mark as it is.
fn back(c: &Condition) -> &'static [u8] {
    if c.euro {
        &[0x18, 0x1A]
    } else {
        &[0x18]
    }
}

/// Where a string has led to: the first cell that may still be written, the selected font, the cursor.
#[derive(Clone, Copy)]
struct Place {
    free: usize,
    font: usize,
    cursor: usize,
}

impl Place {
    fn start(c: &Condition) -> Place {
        Place {
            free: 0,
            font: c.font as usize,
            cursor: c.cursor,
        }
    }

    fn written(self) -> Place {
        Place {
            free: self.cursor + 1,
            font: self.font,
            cursor: (self.cursor + 1) % CELLS,
        }
    }
}

/// The fewest bytes from each place to the wanted picture and cursor, by any reading-order string, right
/// cells written too; or only by strings of a plan's form: they write the wrong cells only, and switch
/// only at the next wrong cell, if it needs it. A cell that is passed by can't be written any more, and a
/// cell written otherwise than wanted can't be mended, so these are all the strings that can count.
struct Ways<'a> {
    wanted: &'a Wanted,
    moves: &'a Moves,
    back: &'static [u8],
    plans_form: bool,
    /// The first wrong cell from each cell on; 40 for none.
    next_wrong: [usize; CELLS + 1],
    /// By first cell that may still be written, selected font and cursor.
    fewest: [[[usize; CELLS]; 2]; CELLS + 1],
}

impl<'a> Ways<'a> {
    fn new(c: &Condition, wanted: &'a Wanted, moves: &'a Moves, plans_form: bool) -> Ways<'a> {
        const FAR: usize = 1_000_000;
        let mut next_wrong = [CELLS; CELLS + 1];
        for p in (0..CELLS).rev() {
            next_wrong[p] = if c.is_wrong(p, wanted) { p } else { next_wrong[p + 1] };
        }
        let mut ways = Ways {
            wanted,
            moves,
            back: back(c),
            plans_form,
            next_wrong,
            fewest: [[[FAR; CELLS]; 2]; CELLS + 1],
        };
        for free in (0..=CELLS).rev() {
            ways.fill(free);
        }
        ways
    }

    fn from(&self, at: Place) -> usize {
        self.fewest[at.free][at.font][at.cursor]
    }

    /// No wrong cell may be left behind.
    fn may_write(&self, at: Place) -> bool {
        let next = self.next_wrong[at.free];
        let in_turn = at.cursor == next || !self.plans_form && at.free <= at.cursor && at.cursor < next;
        in_turn && self.wanted.fonts[at.cursor] as usize == at.font
    }

    fn may_switch(&self, at: Place) -> bool {
        let needed = at.cursor == self.next_wrong[at.free] && self.wanted.fonts[at.cursor] as usize != at.font;
        self.wanted.switches && (needed || !self.plans_form)
    }

    fn switch(&self, font: usize) -> &'static [u8] {
        if font == 0 {
            &[0x19]
        } else {
            self.back
        }
    }

    /// All places with this first cell; those with higher ones are done.
    fn fill(&mut self, free: usize) {
        let mut d = self.fewest[free];
        for font in 0..2 {
            for cursor in 0..CELLS {
                let at = Place { free, font, cursor };
                if self.next_wrong[free] == CELLS && cursor == self.wanted.asked {
                    d[font][cursor] = 0;
                } else if self.may_write(at) {
                    d[font][cursor] = 1 + self.from(at.written());
                }
            }
        }
        // a position command to the best place, single moves and switches, until nothing gets shorter
        let mut changed = true;
        while changed {
            changed = false;
            for font in 0..2 {
                let jump = 3 + d[font].iter().min().unwrap();
                for cursor in 0..CELLS {
                    let mut least = jump;
                    for &l in &self.moves.single[cursor] {
                        least = least.min(1 + d[font][l]);
                    }
                    if self.may_switch(Place { free, font, cursor }) {
                        least = least.min(self.switch(font).len() + d[1 - font][cursor]);
                    }
                    if least < d[font][cursor] {
                        d[font][cursor] = least;
                        changed = true;
                    }
                }
            }
        }
        self.fewest[free] = d;
    }

    /// Of the shortest strings the smallest by first differing byte. (No step is the start of another.)
    fn smallest(&self, start: Place) -> Vec<u8> {
        let mut out = Vec::new();
        let mut at = start;
        while self.from(at) > 0 {
            let (bytes, next) = self.smallest_step(at);
            out.extend_from_slice(&bytes);
            at = next;
        }
        out
    }

    /// The smallest step that a shortest string can take, and where it leads.
    fn smallest_step(&self, at: Place) -> (Vec<u8>, Place) {
        let mut smallest: Option<(Vec<u8>, Place)> = None;
        let mut step = |bytes: &[u8], to: Place| {
            let shortest = bytes.len() + self.from(to) == self.from(at);
            if shortest && smallest.as_ref().map_or(true, |(found, _)| bytes < &found[..]) {
                smallest = Some((bytes.to_vec(), to));
            }
        };
        for (&m, cursor) in SINGLE_MOVES.iter().zip(self.moves.single[at.cursor]) {
            step(&[m], Place { cursor, ..at });
        }
        for cursor in 0..CELLS {
            step(&[0x1B, 0x48, cursor as u8], Place { cursor, ..at });
        }
        if self.may_switch(at) {
            let font = 1 - at.font;
            step(self.switch(at.font), Place { font, ..at });
        }
        if self.may_write(at) {
            step(&[self.wanted.codes[at.cursor]], at.written());
        }
        smallest.expect("a step of a shortest string")
    }
}

// ------------------------------------------------------------- two searches that confirm fewest bytes

/// The fewest bytes of any string, of either kind of start, that gives the picture and the asked cursor.
pub fn fewest_bytes(c: &Condition, wanted: &Wanted, moves: &Moves) -> usize {
    let from = |c: &Condition| Ways::new(c, wanted, moves, false).from(Place::start(c));
    let plain = from(c);
    cleared(c).map_or(plain, |blank| plain.min(1 + from(&blank)))
}

/// What the search over the strings themselves found.
pub struct Found {
    /// The length of the shortest strings that give the picture.
    pub fewest: usize,
    /// The smallest of those that write only wrong cells, and switch only before a write that needs it; one
    /// without a clear if there is one.
    pub smallest: Option<Vec<u8>>,
    pub strings: u64,
}

/// Runs every string of at most `most` bytes, of either kind of start, through the interpreter, byte by byte.
/// With `every_code` each cell is written with every code that can be written, otherwise only with the
/// wanted one (any other can't be mended).
pub fn try_all_strings(c: &Condition, wanted: &Wanted, most: usize, every_code: bool) -> Option<Found> {
    let mut strings = 0;
    let mut starts = vec![(c.clone(), vec![])];
    starts.extend(cleared(c).map(|blank| (blank, vec![CLEAR])));
    // shorter strings first, so that the first length with a hit is the fewest; without a clear first
    for length in 0..=most {
        for (start, first) in &starts {
            if first.len() > length {
                continue;
            }
            let mut search = Search {
                start,
                wanted,
                every_code,
                string: first.clone(),
                plans_form: true,
                best: None,
                strings: 0,
            };
            search.from(start, 0, length - first.len(), false);
            strings += search.strings;
            if let Some((fewest, smallest)) = search.best {
                return Some(Found {
                    fewest,
                    smallest,
                    strings,
                });
            }
        }
    }
    None
}

struct Search<'a> {
    start: &'a Condition,
    wanted: &'a Wanted,
    every_code: bool,
    string: Vec<u8>,
    plans_form: bool,
    best: Option<(usize, Option<Vec<u8>>)>,
    strings: u64,
}

impl<'a> Search<'a> {
    /// All strings of exactly `left` bytes more, with writes from the cell `free` up. `switched`: the last
    /// step was a switch.
    fn from(&mut self, c: &Condition, free: usize, left: usize, switched: bool) {
        let (was, wanted) = (self.plans_form, self.wanted);
        if left == 0 {
            self.strings += 1;
            if c.cursor == wanted.asked && c.codes == wanted.codes && c.fonts == wanted.fonts {
                let length = self.string.len();
                let best = self.best.get_or_insert((length, None));
                if was && !switched && best.1.as_ref().map_or(true, |s| self.string < *s) {
                    best.1 = Some(self.string.clone());
                }
            }
            return;
        }
        let here = c.cursor;
        let wrong = here >= free && self.start.is_wrong(here, wanted);
        // in a plan nothing but the write that needs it comes after a switch
        self.plans_form = was && !switched;
        for &m in &SINGLE_MOVES {
            self.step(c, &[m], free, left, false);
        }
        if left >= 3 {
            for p in 0..CELLS as u8 {
                self.step(c, &[0x1B, 0x48, p], free, left, false);
            }
        }
        if wanted.switches {
            self.plans_form = was && !switched && wrong && wanted.fonts[here] != c.font;
            for bytes in [&[0x19][..], back(c)] {
                if left >= bytes.len() {
                    self.step(c, bytes, free, left, true);
                }
            }
        }
        if here >= free {
            self.plans_form = was && wrong;
            if self.every_code {
                for b in 0..=255u8 {
                    if b >= 0x20 || c.is_user(b) {
                        self.step(c, &[b], here + 1, left, false);
                    }
                }
            } else {
                self.step(c, &[wanted.codes[here]], here + 1, left, false);
            }
        }
        self.plans_form = was;
    }

    fn step(&mut self, c: &Condition, bytes: &[u8], free: usize, left: usize, switched: bool) {
        let mut next = c.clone();
        for &b in bytes {
            next.take(b);
            self.string.push(b);
        }
        self.from(&next, free, left - bytes.len(), switched);
        self.string.truncate(self.string.len() - bytes.len());
    }
}

// ------------------------------------------------------------------------------- a reel of pictures

/// All bytes of a reel, laid end to end, and how many of them each picture has.
#[derive(Debug, PartialEq, Eq)]
pub struct Reel {
    pub bytes: Vec<u8>,
    pub lengths: Vec<usize>,
}

/// Request W5: the pictures in turn, 40 codes and an asked cursor for each, planned and run one at a time.
/// Otherwise the first picture that is refused (64 for the whole call), and its refusal.
pub fn reel(from: &Condition, codes: &[u8], cursors: &[u8], room: usize, moves: &Moves) -> Result<Reel, (usize, u32)> {
    if codes.len() != CELLS * cursors.len() {
        return Err((REEL, 1));
    }
    if cursors.len() > REEL || !from.well_formed() {
        return Err((REEL, 3));
    }
    if room < PLAN_ROOM * cursors.len() {
        return Err((REEL, 10));
    }
    let mut c = from.clone();
    let mut reel = Reel {
        bytes: vec![],
        lengths: vec![],
    };
    for (picture, (wanted, &asked)) in codes.chunks(CELLS).zip(cursors).enumerate() {
        let wanted = wanted.try_into().expect("40 codes");
        let bytes = plan(&c, wanted, asked as u32, moves).map_err(|refusal| (picture, refusal))?;
        // the next plan starts where this one leaves the module
        c = run(&c, &Tally::ZERO, &bytes).expect("a plan can be run").0;
        reel.lengths.push(bytes.len());
        reel.bytes.extend(bytes);
    }
    Ok(reel)
}

// ------------------------------------------------------------------------ the way back to power-up

impl Condition {
    /// Does any byte string at all, the empty one too, end in power-up for the default font? By search, of a well-formed
    /// condition. Which ESC commands can come, now and later, is decided by what is half received, for which code and
    /// with how many bytes held, and by whether ESC is a user character. So of the conditions that are alike in this one
    /// is followed, with all 256 bytes. (Where Initialise can never come, something stays half received or ESC stays a
    /// user character, so that the others do not end in power-up either.)
    pub fn has_way_back(&self) -> bool {
        self.at_power_up() || self.leads_back(&mut Vec::new())
    }

    fn leads_back(&self, seen: &mut Vec<(Half, bool)>) -> bool {
        let kind = match self.half {
            Half::UserData { code, count, .. } => Half::UserData {
                code,
                count,
                held: [0; 4],
            },
            other => other,
        };
        let alike = (kind, self.is_user(0x1B));
        if seen.contains(&alike) {
            return false;
        }
        seen.push(alike);
        let next: Vec<Condition> = (0..=255).map(|b| self.after(&[b])).collect();
        next.iter().any(|c| c.at_power_up()) || next.iter().any(|c| c.leads_back(seen))
    }
}

/// The eight bytes; or the refusal: 3, then 11 where no byte string ends in power-up, and only after it 10.
pub fn recover(c: &Condition, room: usize) -> Result<[u8; 8], u32> {
    if !c.well_formed() {
        return Err(3);
    }
    if !c.has_way_back() {
        return Err(11);
    }
    if room < BACK.len() {
        return Err(10);
    }
    Ok(BACK)
}

// --------------------------------------------------------------------------- the vetting of a string

/// What is to be said of somebody's string.
#[derive(Clone, Copy, Debug, PartialEq, Eq)]
pub enum Vetted {
    Refused(u32),
    /// No: the first byte from which on it is not permitted steps that write in reading order.
    NoByte(usize),
    /// No: the lowest cell that is wrong after it.
    NoCell(usize),
    NoCursor,
    /// Yes, and so many bytes more than the shortest.
    Yes(usize),
}

impl Condition {
    /// The byte is written as a character, if nothing is half received.
    pub fn writes(&self, b: u8) -> bool {
        b >= 0x20 || self.is_user(b)
    }
}

/// How many bytes the step has with which these begin; none where it is not permitted, or not whole.
fn step_length(c: &Condition, bytes: &[u8], first: bool) -> Option<usize> {
    match *bytes {
        [b, ..] if c.writes(b) || SINGLE_MOVES.contains(&b) || b == CLEAR && first => Some(1),
        [0x1B, 0x48, p, ..] if p <= 0x27 => Some(3),
        _ => None,
    }
}

/// Request W11: does the string use only the planner's steps, 0Eh first if at all, in reading order, and give the
/// picture in the selected font, and the asked cursor? It is taken apart first and run afterwards. No step defines a
/// user character, so that what is written, and what clears, is the same from its first byte to its last.
pub fn vet(c: &Condition, codes: &[u8; CELLS], asked: u32, bytes: &[u8], moves: &Moves) -> Vetted {
    match plan_refusal(c, codes, asked, &PLANNERS_CODES) {
        3 => return Vetted::Refused(3),
        _ if bytes.len() > LONGEST_RUN => return Vetted::Refused(4),
        0 => {}
        n => return Vetted::Refused(n),
    }
    let mut steps = Vec::new();
    let mut end = 0;
    while let Some(n) = step_length(c, &bytes[end..], end == 0) {
        steps.push(end..end + n);
        end += n;
    }
    let mut now = c.clone();
    let mut free = 0; // the first cell that may still be written
    for step in steps {
        if c.writes(bytes[step.start]) {
            if now.cursor < free {
                return Vetted::NoByte(step.start);
            }
            free = now.cursor + 1;
        }
        for &b in &bytes[step] {
            now.take(b);
        }
    }
    if end < bytes.len() {
        return Vetted::NoByte(end);
    }
    let wanted = Wanted::in_one_font(c, *codes, asked as usize);
    if let Some(cell) = (0..CELLS).find(|&cell| now.is_wrong(cell, &wanted)) {
        return Vetted::NoCell(cell);
    }
    if now.cursor != wanted.asked {
        return Vetted::NoCursor;
    }
    let shortest = plan(c, codes, asked, moves).expect("it was not refused");
    Vetted::Yes(bytes.len() - shortest.len())
}

/// The same for the condition in a block, and codes that may not be 40.
pub fn vet_block(block: &[u8], codes: &[u8], asked: u32, bytes: &[u8], moves: &Moves) -> Vetted {
    match codes.try_into() {
        Err(_) => Vetted::Refused(1),
        Ok(codes) => match Condition::from_block(block) {
            Err(n) => Vetted::Refused(n),
            Ok(c) => vet(&c, codes, asked, bytes, moves),
        },
    }
}

// ------------------------------------------------------------------------------------ the host calls

pub fn host_run(block: &mut [u8], tally: &mut [u8], bytes: &[u8]) -> u32 {
    if block.len() != BLOCK || tally.len() != TALLY {
        return 1;
    }
    let c = match Condition::from_block(block) {
        Ok(c) => c,
        Err(n) => return n,
    };
    match run(&c, &Tally::from_bytes(tally), bytes) {
        Ok((c, t)) => {
            block.copy_from_slice(&c.to_block());
            tally.copy_from_slice(&t.to_bytes());
            0
        }
        Err(n) => n,
    }
}

pub fn host_plan(block: &[u8], codes: &[u8], cursor: u32, out: &mut [u8], moves: &Moves) -> u32 {
    let planned = match codes.try_into() {
        Ok(codes) => Condition::from_block(block).and_then(|c| plan(&c, codes, cursor, moves)),
        Err(_) => Err(1),
    };
    planned_answer(planned, PLAN_ROOM, out)
}

pub fn host_plan_fonts(block: &[u8], codes: &[u8], fonts: &[u8], cursor: u32, out: &mut [u8], moves: &Moves) -> u32 {
    let planned = match (codes.try_into(), fonts.try_into()) {
        (Ok(codes), Ok(fonts)) => {
            Condition::from_block(block).and_then(|c| plan_fonts(&c, codes, fonts, cursor, moves))
        }
        _ => Err(1),
    };
    planned_answer(planned, FONTS_ROOM, out)
}

/// Puts a plan where there is room for the longest; answers its length, or 256 plus the refusal.
fn planned_answer(planned: Result<Vec<u8>, u32>, room: usize, out: &mut [u8]) -> u32 {
    match planned {
        Err(n) => 256 + n,
        Ok(_) if out.len() < room => 256 + 10,
        Ok(bytes) => {
            out[..bytes.len()].copy_from_slice(&bytes);
            bytes.len() as u32
        }
    }
}

/// Answers 8, or 256 plus 1, 2, 3, 11 or 10, in this order.
pub fn host_recover(block: &[u8], out: &mut [u8]) -> u32 {
    match Condition::from_block(block).and_then(|c| recover(&c, out.len())) {
        Err(n) => 256 + n,
        Ok(bytes) => {
            out[..bytes.len()].copy_from_slice(&bytes);
            bytes.len() as u32
        }
    }
}

/// Answers 0 for no, 1 plus the excess for yes, or 65,536 plus the refusal.
pub fn host_vet(block: &[u8], codes: &[u8], cursor: u32, bytes: &[u8], moves: &Moves) -> u32 {
    vetted_answer(vet_block(block, codes, cursor, bytes, moves))
}

pub fn vetted_answer(vetted: Vetted) -> u32 {
    match vetted {
        Vetted::Refused(n) => 65_536 + n,
        Vetted::Yes(excess) => 1 + excess as u32,
        _ => 0,
    }
}

/// The answer of a refused reel: 65,536, plus 256 times the picture (64 for the whole call), plus the refusal.
pub fn reel_refused(picture: usize, refusal: u32) -> u32 {
    65_536 + 256 * picture as u32 + refusal
}

/// Answers all bytes together, or as above.
/// The lengths are a part of the answer: where 64 of them are lent they are written, whatever the refusal.
pub fn host_reel(block: &[u8], codes: &[u8], cursors: &[u8], lengths: &mut [u8], out: &mut [u8], moves: &Moves) -> u32 {
    let right_lengths = block.len() == BLOCK && codes.len() == CELLS * cursors.len() && lengths.len() == REEL;
    let planned = if right_lengths {
        Condition::from_block(block)
            .map_err(|refusal| (REEL, refusal))
            .and_then(|c| reel(&c, codes, cursors, out.len(), moves))
    } else {
        Err((REEL, 1))
    };
    if lengths.len() == REEL {
        lengths.fill(0);
    }
    match planned {
        Err((picture, refusal)) => reel_refused(picture, refusal),
        Ok(reel) => {
            for (length, &n) in lengths.iter_mut().zip(&reel.lengths) {
                *length = n as u8;
            }
            out[..reel.bytes.len()].copy_from_slice(&reel.bytes);
            reel.bytes.len() as u32
        }
    }
}

pub fn host_power_up(font: u32, block: &mut [u8]) -> u32 {
    if font > 1 {
        return 3;
    }
    if block.len() < BLOCK {
        return 10;
    }
    block[..BLOCK].copy_from_slice(&Condition::power_up(font as u8).to_block());
    0
}

/// A question about the condition in a block: its value, or 65,536 plus the refusal.
fn asked<F: FnOnce(&Condition) -> Result<u32, u32>>(block: &[u8], question: F) -> u32 {
    match Condition::from_block(block).and_then(|c| question(&c)) {
        Ok(value) => value,
        Err(n) => 65_536 + n,
    }
}

/// Only a byte is a code; nobody has a user character on another number.
fn as_code(code: u32) -> Result<u8, u32> {
    u8::try_from(code).map_err(|_| 3)
}

pub fn host_view(block: &[u8], position: u32) -> u32 {
    asked(block, |c| {
        if position > 39 {
            return Err(3);
        }
        Ok(match c.shows(position as usize) {
            Shows::Blank => 0,
            Shows::User(code) => 256 + code as u32,
            Shows::Euro => 512,
            Shows::BuiltIn { code, font: 0 } => 768 + code as u32,
            Shows::BuiltIn { code, .. } => 1024 + code as u32,
        })
    })
}

pub fn host_dot(block: &[u8], code: u32, k: u32) -> u32 {
    asked(block, |c| Ok(c.dot(as_code(code)?, k as usize)? as u32))
}

pub fn host_underline(block: &[u8], code: u32) -> u32 {
    asked(block, |c| Ok(c.underline(as_code(code)?)? as u32))
}

pub fn host_lit(block: &[u8], code: u32) -> u32 {
    asked(block, |c| Ok(c.lit(as_code(code)?)? as u32))
}

// ----------------------------------------------------------------------------- what `show` prints

pub fn show(input: &[u8]) -> String {
    match run(&Condition::power_up(0), &Tally::ZERO, input) {
        Err(n) => format!("refused {}\n", n),
        Ok((c, t)) => {
            let line = |codes: &[u8]| {
                let hex: Vec<String> = codes.iter().map(|x| format!("{:02X}", x)).collect();
                hex.join(" ")
            };
            format!(
                "{}\n{}\ncursor {} mode {} font {}\nbytes {} busy {} flickerless {} worst {}\n",
                line(&c.codes[..20]),
                line(&c.codes[20..]),
                c.cursor,
                c.mode,
                c.font,
                t.bytes,
                t.busy,
                t.flickerless,
                t.worst
            )
        }
    }
}

// ------------------------------------------------------------------------------ what `vet` prints

/// Of a block, of 41 bytes (40 codes and the asked cursor) and of a string.
pub fn vet_line(block: &[u8], picture: &[u8], string: &[u8], moves: &Moves) -> String {
    let (asked, codes) = picture.split_last().unwrap_or((&0, &[]));
    match vet_block(block, codes, *asked as u32, string, moves) {
        Vetted::Refused(n) => format!("refused {}\n", n),
        Vetted::NoByte(at) => format!("no, byte {}\n", at),
        Vetted::NoCell(cell) => format!("no, cell {}\n", cell),
        Vetted::NoCursor => "no, cursor\n".to_string(),
        Vetted::Yes(excess) => format!("yes excess {}\n", excess),
    }
}

// ------------------------------------------------------------------------ the salvage of a block file

/// The most whole blocks of a file that is salvaged.
pub const MOST_BLOCKS: usize = 10_000;

/// What becomes of a file of blocks.
#[derive(Debug, PartialEq, Eq)]
pub struct Salvaged {
    /// The second file; none where the first is refused.
    pub second: Option<Vec<u8>>,
    /// All that is printed.
    pub printed: String,
}

/// Request W10. A good block is copied, any other replaced by the last good one before it or by power-up
/// for font 0; what is left behind the last whole block is dropped.
pub fn salvage(file: &[u8]) -> Salvaged {
    let blocks = file.chunks_exact(BLOCK);
    let tail = blocks.remainder().len();
    if blocks.len() > MOST_BLOCKS {
        return Salvaged {
            second: None,
            printed: "refused 4\n".to_string(),
        };
    }
    let mut second = Vec::new();
    let mut printed = String::new();
    let mut last_good: Option<(usize, &[u8])> = None;
    let (mut kept, mut changed) = (0, 0);
    for (number, block) in blocks.enumerate() {
        if Condition::from_block(block).is_ok() {
            kept += 1;
            last_good = Some((number, block));
            second.extend_from_slice(block);
            continue;
        }
        changed += 1;
        match last_good {
            Some((good, copy)) => {
                printed += &format!("block {} repeated {}\n", number, good);
                second.extend_from_slice(copy);
            }
            None => {
                printed += &format!("block {} power-up\n", number);
                second.extend_from_slice(&Condition::power_up(0).to_block());
            }
        }
    }
    if tail > 0 {
        printed += &format!("tail {} dropped\n", tail);
    }
    printed += &format!("kept {} changed {}\n", kept, changed);
    Salvaged {
        second: Some(second),
        printed,
    }
}
