//! Times of calls by several libraries in one process, turn by turn.
use crate::firmware::Told;
use crate::library::Library;
use std::hint::black_box;
use std::time::{Duration, Instant};

pub const AREA: usize = 32_768;
const SLICES: u32 = 40;
/// What the areas hold before a call that is looked at.
const FOUND: u8 = 0x5A;

#[derive(Clone, PartialEq)]
pub struct Areas {
    pub workspace: Vec<u8>,
    pub answer: Vec<u8>,
}

impl Areas {
    pub fn new() -> Areas {
        Areas { workspace: vec![FOUND; AREA], answer: vec![FOUND; AREA] }
    }
}

impl Default for Areas {
    fn default() -> Areas {
        Areas::new()
    }
}

/// A call by one library, of the case with this number.
pub type Call<'a> = &'a dyn Fn(&Library, &mut Areas, usize) -> Told;

/// Nanoseconds of a call, or of a part of it, by each library: the firmware, Rust, and the library before, if there is one.
#[derive(Clone)]
pub struct Times(Vec<f64>);

impl Times {
    /// What each of `units` costs beyond the fixed part.
    pub fn beyond(&self, fixed: &Times, units: f64) -> Times {
        Times(self.0.iter().zip(&fixed.0).map(|(whole, fixed)| (whole - fixed) / units).collect())
    }

    pub fn firmware(&self) -> f64 {
        self.0[0]
    }

    pub fn rust(&self) -> f64 {
        self.0[1]
    }

    pub fn before(&self) -> Option<f64> {
        self.0.get(2).copied()
    }

    /// The part of a call that is measured alone may come out below nothing where the measure was too short.
    pub fn measured(&self) -> bool {
        self.0.iter().all(|time| *time > 0.0)
    }
}

pub struct Measures {
    pub areas: Areas,
    slice: Duration,
    libraries: Vec<Library>,
    pub differences: usize,
}

impl Measures {
    /// The first library is the firmware, the second Rust.
    pub fn new(milliseconds: u64, libraries: Vec<Library>) -> Measures {
        Measures { areas: Areas::new(), slice: Duration::from_millis(milliseconds) / SLICES, libraries, differences: 0 }
    }

    /// Looks that all libraries tell the same of a case and leave the same in areas that hold the same before.
    fn look(&mut self, name: &str, case: usize, call: Call) {
        let outcomes: Vec<(Told, Areas)> = self
            .libraries
            .iter()
            .map(|library| {
                let mut areas = Areas::new();
                (call(library, &mut areas, case), areas)
            })
            .collect();
        for (library, outcome) in self.libraries.iter().zip(&outcomes).skip(1) {
            if *outcome != outcomes[0] {
                println!("{name}: the firmware gives {:?}, {} {:?}, or the areas differ", outcomes[0].0, library.name, outcome.0);
                self.differences += 1;
            }
        }
    }

    /// Nanoseconds of one call, over whole rounds of the cases.
    fn nanoseconds(&mut self, library: usize, cases: usize, call: Call) -> f64 {
        let (began, mut calls) = (Instant::now(), 0);
        while began.elapsed() < self.slice {
            for case in 0..cases {
                black_box(call(&self.libraries[library], &mut self.areas, case));
            }
            calls += cases;
        }
        began.elapsed().as_nanos() as f64 / calls as f64
    }

    /// The times of one call of each kind. The kinds take turns as the libraries do.
    pub fn calls<const KINDS: usize>(&mut self, name: &str, cases: usize, kinds: [Call; KINDS]) -> [Times; KINDS] {
        for kind in kinds {
            (0..cases).for_each(|case| self.look(name, case, kind));
        }
        let mut times = [(); KINDS].map(|()| Times(vec![f64::INFINITY; self.libraries.len()]));
        for _ in 0..SLICES {
            for (kind, fastest) in kinds.into_iter().zip(&mut times) {
                for (library, fastest) in fastest.0.iter_mut().enumerate() {
                    *fastest = fastest.min(self.nanoseconds(library, cases, kind));
                }
            }
        }
        times
    }

    pub fn call(&mut self, name: &str, call: Call) -> Times {
        let [times] = self.calls(name, 1, [call]);
        times
    }
}
