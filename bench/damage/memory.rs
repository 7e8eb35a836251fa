//! Memory that ends at pages nobody may touch: what is lent stands against the page before it or the page behind it, and the
//! rest of its own pages is filled with a pattern that must stay.
use crate::archive::{Changes, Lent, Places, Shown};
use crate::layout::{Tables, CHANGES, LENGTHS, LINE_REALS, LINE_TERMS, LINE_WORDS};
use std::sync::atomic::{AtomicU64, Ordering};

const PAGE: usize = 4096;
const NO_ACCESS: i32 = 0;
const READ_WRITE: i32 = 3;
const PRIVATE_ANONYMOUS: i32 = 0x22;
const SEGMENTATION_FAULT: i32 = 11;
const PATTERN: u8 = 0xa5;
/// How many elements a list may have.
pub const MORE: usize = 64;

extern "C" {
    fn mmap(at: *mut u8, length: usize, protection: i32, flags: i32, file: i32, offset: i64) -> *mut u8;
    fn mprotect(at: *mut u8, length: usize, protection: i32) -> i32;
    fn signal(number: i32, handler: extern "C" fn(i32)) -> usize;
}

/// The trial that runs, told if a call touches what it is not lent.
pub static TRIAL: AtomicU64 = AtomicU64::new(0);

extern "C" fn touched(_: i32) {
    println!("trial {}: a call touched memory that it was not lent\ndifferences: 1", TRIAL.load(Ordering::SeqCst));
    std::process::exit(1);
}

pub fn tell_faults() {
    unsafe { signal(SEGMENTATION_FAULT, touched) };
}

/// Room for one table or list.
struct Fenced<T> {
    start: *mut u8,
    bytes: usize,
    lent: (usize, usize),
    kind: std::marker::PhantomData<T>,
}

impl<T: Copy + 'static> Fenced<T> {
    fn new(most: usize) -> Fenced<T> {
        let bytes = (most * std::mem::size_of::<T>()).div_ceil(PAGE) * PAGE;
        let start = unsafe {
            let all = mmap(std::ptr::null_mut(), bytes + 2 * PAGE, NO_ACCESS, PRIVATE_ANONYMOUS, -1, 0);
            assert!(all as isize != -1 && mprotect(all.add(PAGE), bytes, READ_WRITE) == 0, "no memory");
            all.add(PAGE)
        };
        Fenced { start, bytes, lent: (0, 0), kind: std::marker::PhantomData }
    }

    fn all(&mut self) -> &mut [u8] {
        unsafe { std::slice::from_raw_parts_mut(self.start, self.bytes) }
    }

    /// A copy of the content, against the page behind it if `last`.
    fn lend(&mut self, content: &[T], last: bool) {
        let size = std::mem::size_of_val(content);
        let at = if last { self.bytes - size } else { 0 };
        self.lent = (at, at + size);
        self.all().fill(PATTERN);
        unsafe { std::ptr::copy_nonoverlapping(content.as_ptr() as *const u8, self.start.add(at), size) };
    }

    fn slice(&mut self) -> &'static mut [T] {
        let (a, e) = self.lent;
        unsafe { std::slice::from_raw_parts_mut(self.start.add(a) as *mut T, (e - a) / std::mem::size_of::<T>()) }
    }

    /// The same, of a type that says its length.
    fn array<const N: usize>(&mut self) -> &'static mut [T; N] {
        self.slice().try_into().ok().expect("as many as its type has")
    }

    fn rest_stays(&mut self) -> bool {
        let (a, e) = self.lent;
        let all = self.all();
        all[..a].iter().chain(&all[e..]).all(|b| *b == PATTERN)
    }
}

/// Memory for five tables.
pub struct Set {
    words: Fenced<u64>,
    keys: Fenced<u16>,
    bytes: Fenced<u8>,
    reals: Fenced<f64>,
    values: Fenced<f64>,
}

impl Set {
    pub fn new() -> Set {
        let [a, b, c, d, e] = LENGTHS;
        Set { words: Fenced::new(a), keys: Fenced::new(b), bytes: Fenced::new(c), reals: Fenced::new(d), values: Fenced::new(e) }
    }

    pub fn lend(&mut self, t: &Tables, last: bool) -> Lent<'static> {
        self.words.lend(&t.words, last);
        self.keys.lend(&t.keys, last);
        self.bytes.lend(&t.bytes, last);
        self.reals.lend(&t.reals, last);
        self.values.lend(&t.values, last);
        Lent {
            words: self.words.array(),
            keys: self.keys.array(),
            bytes: self.bytes.array(),
            reals: self.reals.array(),
            values: self.values.array(),
        }
    }

    /// What stands there now, or none if something beside it changed.
    pub fn back(&mut self) -> Option<Tables> {
        let stays = self.words.rest_stays() & self.keys.rest_stays() & self.bytes.rest_stays() & self.reals.rest_stays() & self.values.rest_stays();
        let t = Tables {
            words: self.words.slice().to_vec(),
            keys: self.keys.slice().to_vec(),
            bytes: self.bytes.slice().to_vec(),
            reals: self.reals.slice().to_vec(),
            values: self.values.slice().to_vec(),
        };
        Some(t).filter(|_| stays)
    }
}

/// Memory for two lists of a call.
pub struct Lists<A, B>(Fenced<A>, Fenced<B>);

impl<A: Copy + 'static, B: Copy + 'static> Lists<A, B> {
    pub fn new() -> Lists<A, B> {
        Lists(Fenced::new(MORE), Fenced::new(MORE))
    }

    pub fn lend(&mut self, a: &[A], b: &[B], last: bool) -> (&'static mut [A], &'static mut [B]) {
        self.0.lend(a, last);
        self.1.lend(b, last);
        (self.0.slice(), self.1.slice())
    }

    /// The same of arrays.
    pub fn lend_arrays<const M: usize, const N: usize>(&mut self, a: &[A; M], b: &[B; N], last: bool) -> (&'static mut [A; M], &'static mut [B; N]) {
        self.lend(a, b, last);
        (self.0.array(), self.1.array())
    }

    pub fn back(&mut self) -> Option<(Vec<A>, Vec<B>)> {
        let stays = self.0.rest_stays() & self.1.rest_stays();
        Some((self.0.slice().to_vec(), self.1.slice().to_vec())).filter(|_| stays)
    }
}

/// What the three lists of a fetch hold: numbers, values, 1 where one is gone.
pub type Content = ([u64; CHANGES], [f64; CHANGES], [u8; CHANGES]);

/// Memory for them.
pub struct Fetches(Fenced<u64>, Fenced<f64>, Fenced<u8>);

impl Fetches {
    pub fn new() -> Fetches {
        Fetches(Fenced::new(CHANGES), Fenced::new(CHANGES), Fenced::new(CHANGES))
    }

    pub fn lend(&mut self, (numbers, moved, gone): &Content, last: bool) -> Changes<'static> {
        self.0.lend(numbers, last);
        self.1.lend(moved, last);
        self.2.lend(gone, last);
        Changes { numbers: self.0.array(), moved: self.1.array(), gone: self.2.array() }
    }

    pub fn back(&mut self) -> Option<Content> {
        let stays = self.0.rest_stays() & self.1.rest_stays() & self.2.rest_stays();
        Some((*self.0.array(), *self.1.array(), *self.2.array())).filter(|_| stays)
    }
}

/// Memory for the places in which a constraint is shown.
pub struct Shows(Fenced<u64>, Fenced<f64>, Fenced<u32>, Fenced<f64>);

impl Shows {
    pub fn new() -> Shows {
        Shows(Fenced::new(LINE_WORDS), Fenced::new(LINE_REALS), Fenced::new(LINE_TERMS), Fenced::new(LINE_TERMS))
    }

    pub fn lend(&mut self, content: &Shown, last: bool) -> Places<'static> {
        self.0.lend(&content.words, last);
        self.1.lend(&content.reals, last);
        self.2.lend(&content.variables, last);
        self.3.lend(&content.coefficients, last);
        Places { words: self.0.array(), reals: self.1.array(), variables: self.2.array(), coefficients: self.3.array() }
    }

    pub fn back(&mut self) -> Option<Shown> {
        let stays = self.0.rest_stays() & self.1.rest_stays() & self.2.rest_stays() & self.3.rest_stays();
        let s = Shown { words: *self.0.array(), reals: *self.1.array(), variables: *self.2.array(), coefficients: *self.3.array() };
        Some(s).filter(|_| stays)
    }
}
