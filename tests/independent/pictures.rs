//! Shared by the tests of the two planners. The product plans a picture, and the bytes are compared with the
//! independent planner's; run on both interpreters they must show the picture; two searches confirm the
//! fewest bytes.
#![allow(dead_code)]

#[path = "wants.rs"]
mod wants;
pub use wants::*;

use crate::module::*;
use crate::report::{hex, Report};
use crate::rng::Rng;
use crate::sign::{self, Lent};

pub struct Pictures {
    pub report: Report,
    pub rng: Rng,
    pub moves: Moves,
    longest: usize,
    total: u64,
    /// Plans that start from a clear, and the bytes that they save.
    clears: u64,
    saved: u64,
    /// Plans without a clear where one with it is as long; and where a user character sits on 0Eh and a plan
    /// with a clear would else be shorter.
    ties: u64,
    barred: u64,
    searched: u64,
    strings: u64,
}

/// What a test of a planner must have tried: plans, those of each kind of start, small differences searched,
/// and the strings run for them.
pub struct AtLeast {
    pub plans: u64,
    pub clears: u64,
    pub ties: u64,
    pub barred: u64,
    pub searched: u64,
    pub strings: u64,
}

impl Pictures {
    pub fn new(seed: u64) -> Pictures {
        Pictures {
            report: Report::new(),
            rng: Rng::new(seed),
            moves: Moves::new(),
            longest: 0,
            total: 0,
            clears: 0,
            saved: 0,
            ties: 0,
            barred: 0,
            searched: 0,
            strings: 0,
        }
    }

    pub fn try_picture(&mut self, c: &Condition, wanted: &Wanted) {
        let expected = wanted.plan(c, &self.moves).expect("a picture that can be planned");
        let asked = wanted.asked as u32;
        let block = c.to_block();
        let b = Lent::new(&block, &mut self.rng);
        let k = Lent::new(&wanted.codes, &mut self.rng);
        let room = wanted.room() + self.rng.below(20);
        let mut o = Lent::new(&vec![0xEE; room], &mut self.rng);
        let f = wanted.lent_fonts().map(|fonts| Lent::new(fonts, &mut self.rng));
        let fonts = f.as_ref().map(|f| f.bytes());
        let got = sign::plan_either(b.bytes(), k.bytes(), fonts, asked, o.bytes_mut());
        self.report.cases += 1;
        let call = || {
            format!(
                "picture {} fonts {} cursor {}, from {} fonts {} cursor {} font {} Euro {} ({} user characters)",
                hex(&wanted.codes),
                hex(&wanted.fonts),
                asked,
                hex(&c.codes),
                hex(&c.fonts),
                c.cursor,
                c.font,
                c.euro,
                c.count
            )
        };
        let kept = b.untouched() && k.untouched() && f.as_ref().map_or(true, |f| f.untouched());
        self.report
            .expect(kept && o.guarded(), || format!("{}: wrote outside", call()));
        if got as usize > wanted.room() {
            self.report.expect(false, || format!("{}: answer {}", call(), got));
            return;
        }
        let bytes = o.bytes()[..got as usize].to_vec();
        self.report.expect(bytes == expected, || {
            format!("{}: plan {} and should be {}", call(), hex(&bytes), hex(&expected))
        });
        let rest = o.bytes()[bytes.len()..].iter().all(|&x| x == 0xEE);
        self.report
            .expect(rest, || format!("{}: wrote behind the plan", call()));
        self.longest = self.longest.max(bytes.len());
        self.total += bytes.len() as u64;
        self.count_start(c, wanted, bytes.len());

        // the picture, the asked cursor and nothing else changed, on both interpreters
        let own = run(c, &Tally::ZERO, &bytes).expect("an accepted run").0;
        let mut should = c.clone();
        should.codes = wanted.codes;
        should.fonts = wanted.fonts;
        should.cursor = wanted.asked;
        if wanted.switches {
            should.font = own.font; // free at the end
        }
        self.report.expect(own == should, || {
            format!("{}: the plan {} gives another picture", call(), hex(&bytes))
        });
        let mut after = block;
        let mut tally = [0; TALLY];
        let answer = sign::run(&mut after, &mut tally, &bytes);
        self.report.expect(answer == 0 && after == should.to_block(), || {
            format!(
                "{}: the plan {} gives another picture by sign_run (answer {})",
                call(),
                hex(&bytes),
                answer
            )
        });
        // and planned once more it needs no bytes
        let mut out = vec![0; wanted.room()];
        let again = sign::plan_either(&after, &wanted.codes, wanted.lent_fonts(), asked, &mut out);
        self.report.expect(again == 0 && out.iter().all(|&x| x == 0), || {
            format!("{}: planned again, answer {}", call(), again)
        });

        // no string of either kind of start is shorter
        let fewest = fewest_bytes(c, wanted, &self.moves);
        self.report.expect(fewest == bytes.len(), || {
            format!("{}: {} bytes are enough, the plan has {}", call(), fewest, bytes.len())
        });
    }

    /// Which kind of start the plan has, and why.
    fn count_start(&mut self, c: &Condition, wanted: &Wanted, length: usize) {
        let without = wanted.plan_without(c, &self.moves).len();
        let mut other = c.clone();
        let place = (0..c.count).find(|&i| c.users[i].code == CLEAR);
        if let Some(i) = place {
            // the same with this user character on a code that stands nowhere
            let stands = |x: &u8| c.codes.contains(x) || wanted.codes.contains(x) || c.is_user(*x);
            other.users[i].code = (0x80..=0xFF).find(|x| !stands(x)).unwrap_or(CLEAR);
        }
        let with = cleared(&other).map_or(usize::MAX, |blank| 1 + wanted.plan_without(&blank, &self.moves).len());
        self.saved += without.saturating_sub(length) as u64;
        match place {
            Some(_) => self.barred += (with < without) as u64,
            None => {
                self.clears += (with < without) as u64;
                self.ties += (with == without) as u64;
            }
        }
    }

    /// Small differences: every string is run, of either kind of start, up to the plan's length.
    pub fn try_all(&mut self, c: &Condition, wanted: &Wanted, most: usize) {
        let expected = wanted.plan(c, &self.moves).expect("a picture that can be planned");
        if expected.len() > most {
            return;
        }
        let mut out = vec![0; wanted.room()];
        let lent = wanted.lent_fonts();
        let got = sign::plan_either(&c.to_block(), &wanted.codes, lent, wanted.asked as u32, &mut out) as usize;
        let found = try_all_strings(c, wanted, expected.len(), expected.len() <= 2);
        self.searched += 1;
        match found {
            None => self
                .report
                .expect(false, || "the search over all strings found none".to_string()),
            Some(f) => {
                self.strings += f.strings;
                let same = got == f.fewest && got <= out.len() && f.smallest.as_deref() == Some(&out[..got]);
                self.report.expect(same, || {
                    format!(
                        "picture {} from {} cursor {} to {}: answer {} plan {}, by all strings {} bytes, {}",
                        hex(&wanted.codes),
                        hex(&c.codes),
                        c.cursor,
                        wanted.asked,
                        got,
                        hex(&out),
                        f.fewest,
                        hex(&f.smallest.unwrap_or_default())
                    )
                });
            }
        }
    }

    /// The longest plan must be as long as this planner's can be, and what was tried must not be less than stated.
    pub fn end(mut self, name: &str, longest: usize, least: AtLeast) -> ! {
        let mean = self.total as f64 / self.report.cases as f64;
        println!("{}: longest {} bytes, mean {:.2}", name, self.longest, mean);
        println!(
            "{}: {} start from a clear, and save {} bytes; {} ties, {} barred by a user character",
            name, self.clears, self.saved, self.ties, self.barred
        );
        println!(
            "{}: {} small differences searched, {} strings run",
            name, self.searched, self.strings
        );
        self.report.expect(self.longest == longest, || {
            format!("the longest plan should be {} bytes", longest)
        });
        let starts = self.clears >= least.clears && self.ties >= least.ties && self.barred >= least.barred;
        self.report.expect(starts, || {
            format!(
                "at least {} clears, {} ties and {} barred were to be met",
                least.clears, least.ties, least.barred
            )
        });
        self.report.expect(self.searched >= least.searched, || {
            format!("at least {} small differences were to be searched", least.searched)
        });
        self.report.expect(self.strings >= least.strings, || {
            format!("at least {} strings were to be run", least.strings)
        });
        self.report.end(name, least.plans);
    }
}
