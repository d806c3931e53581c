//! The same algorithm in plain Rust, as one would write it without proofs: the rows of a point and its generators, one pivot
//! step for each tie, and a record of each step to take it back.

/// Whole numbers modulo a power of a small prime.
trait Ring: Copy {
    fn length(self) -> u32;
    fn step(self) -> u32;
    fn reduce(self, x: u64) -> u32;
    fn split(self, a: u32) -> (u32, u32);
    fn inverse(self, unit: u32) -> u32;

    fn sum(self, a: u32, b: u32) -> u32 {
        self.reduce(u64::from(a) + u64::from(b))
    }

    fn product(self, a: u32, b: u32) -> u32 {
        self.reduce(u64::from(a) * u64::from(b))
    }

    fn negative(self, a: u32) -> u32;

    fn level(self, a: u32) -> u32 {
        if a == 0 { self.length() } else { self.split(a).0 }
    }

    fn power(self, k: u32) -> u32 {
        (0..k).fold(1, |power, _| self.product(power, self.step()))
    }

    fn quotient(self, a: u32, b: u32) -> Option<u32> {
        if a == 0 {
            return Some(0);
        }
        if b == 0 {
            return None;
        }
        let (level, unit) = self.split(b);
        let power = self.whole_power(level);
        (a % power == 0).then(|| self.product(a / power, self.inverse(unit)))
    }

    fn whole_power(self, level: u32) -> u32;
}

#[derive(Clone, Copy)]
struct Binary {
    length: u32,
    mask: u32,
}

impl Ring for Binary {
    fn length(self) -> u32 {
        self.length
    }
    fn step(self) -> u32 {
        2 & self.mask
    }
    fn reduce(self, x: u64) -> u32 {
        x as u32 & self.mask
    }
    fn negative(self, a: u32) -> u32 {
        a.wrapping_neg() & self.mask
    }
    fn split(self, a: u32) -> (u32, u32) {
        let level = a.trailing_zeros();
        (level, a >> level)
    }
    fn inverse(self, unit: u32) -> u32 {
        let mut inverse = 1u32;
        for _ in 0..5 {
            inverse = inverse.wrapping_mul(2u32.wrapping_sub(unit.wrapping_mul(inverse)));
        }
        inverse & self.mask
    }
    fn whole_power(self, level: u32) -> u32 {
        1 << level
    }
}

#[derive(Clone, Copy)]
struct Prime {
    base: u32,
    length: u32,
    size: u32,
}

impl Ring for Prime {
    fn length(self) -> u32 {
        self.length
    }
    fn step(self) -> u32 {
        self.base % self.size
    }
    fn reduce(self, x: u64) -> u32 {
        (x % u64::from(self.size)) as u32
    }
    fn negative(self, a: u32) -> u32 {
        if a == 0 { 0 } else { self.size - a }
    }
    fn split(self, mut a: u32) -> (u32, u32) {
        let mut level = 0;
        while a % self.base == 0 {
            a /= self.base;
            level += 1;
        }
        (level, a)
    }
    fn inverse(self, unit: u32) -> u32 {
        let mut inverse = (unit % self.base).pow(self.base - 2);
        let mut exact = 1;
        while exact < self.length {
            let near = self.product(unit, inverse);
            inverse = self.product(inverse, self.size + 2 - near);
            exact *= 2;
        }
        inverse
    }
    fn whole_power(self, level: u32) -> u32 {
        self.base.pow(level)
    }
}

#[derive(Clone)]
struct Tie {
    width: u32,
    right: u32,
    terms: Vec<(usize, u32)>,
}

struct Step {
    tie: Tie,
    pivot: usize,
    row: Vec<u32>,
    divisor: u32,
    quotients: Vec<u32>,
    shift: u32,
    free: u32,
}

struct Book<R> {
    ring: R,
    places: usize,
    rows: Vec<u32>,
    steps: Vec<Step>,
    free: u32,
}

impl<R: Ring> Book<R> {
    fn new(ring: R, heads: usize, widths: &[u8]) -> Self {
        let places = heads * widths.len();
        let mut rows = vec![0; places + places * places];
        for i in 0..places {
            rows[places + i * places + i] = 1;
        }
        let free = heads as u32 * widths.iter().map(|w| u32::from(*w)).sum::<u32>();
        Book { ring, places, rows, steps: Vec::with_capacity(64), free }
    }

    fn total(&self, tie: &Tie, row: &[u32]) -> u32 {
        let mut total = 0;
        for &(place, factor) in &tie.terms {
            total = self.ring.sum(total, self.ring.product(factor, row[place]));
        }
        total
    }

    fn add_multiple(ring: R, to: &mut [u32], from: &[u32], by: u32) {
        if by != 0 {
            for (a, b) in to.iter_mut().zip(from) {
                *a = ring.sum(*a, ring.product(by, *b));
            }
        }
    }

    fn raise(&self, tie: &Tie) -> u32 {
        self.ring.power(self.ring.length() - tie.width)
    }

    /// The digits that the tie fixed, or multipliers.
    fn post(&mut self, tie: &Tie) -> Result<u32, Vec<u32>> {
        let ring = self.ring;
        let n = self.places;
        let raise = self.raise(tie);
        let products: Vec<u32> =
            self.rows[n..].chunks_exact(n).map(|row| ring.product(raise, self.total(tie, row))).collect();
        let mut pivot = 0;
        for (i, product) in products.iter().enumerate() {
            if ring.level(*product) < ring.level(products[pivot]) {
                pivot = i;
            }
        }
        let divisor = products[pivot];
        let reached = ring.product(raise, self.total(tie, &self.rows[..n]));
        let rest = ring.sum(ring.product(raise, tie.right), ring.negative(reached));
        let Some(shift) = ring.quotient(rest, divisor) else {
            return Err(self.multipliers(tie, divisor));
        };
        let quotients: Vec<u32> = products.iter().map(|p| ring.quotient(*p, divisor).unwrap()).collect();
        let row = self.rows[n + pivot * n..][..n].to_vec();
        Self::add_multiple(ring, &mut self.rows[..n], &row, shift);
        for (i, quotient) in quotients.iter().enumerate() {
            if i != pivot {
                Self::add_multiple(ring, &mut self.rows[n + i * n..][..n], &row, ring.negative(*quotient));
            }
        }
        let fixed = ring.length() - ring.level(divisor);
        let power = ring.power(fixed);
        for code in &mut self.rows[n + pivot * n..][..n] {
            *code = ring.product(power, *code);
        }
        let free = self.free;
        self.steps.push(Step { tie: tie.clone(), pivot, row, divisor, quotients, shift, free });
        self.free -= fixed;
        Ok(fixed)
    }

    fn withdraw(&mut self) {
        let n = self.places;
        if let Some(step) = self.steps.pop() {
            self.rows[n + step.pivot * n..][..n].copy_from_slice(&step.row);
            Self::add_multiple(self.ring, &mut self.rows[..n], &step.row, self.ring.negative(step.shift));
            for (i, quotient) in step.quotients.iter().enumerate() {
                if i != step.pivot {
                    Self::add_multiple(self.ring, &mut self.rows[n + i * n..][..n], &step.row, *quotient);
                }
            }
            self.free = step.free;
        }
    }

    fn add_terms(&self, row: &mut [u32], tie: &Tie, by: u32) {
        for &(place, factor) in &tie.terms {
            row[place] = self.ring.sum(row[place], self.ring.product(by, factor));
        }
    }

    fn multipliers(&self, tie: &Tie, divisor: u32) -> Vec<u32> {
        let ring = self.ring;
        let lead = ring.power(ring.length() - ring.level(divisor));
        let mut row = vec![0; self.places];
        self.add_terms(&mut row, tie, ring.product(lead, self.raise(tie)));
        let mut multipliers = vec![0; self.steps.len() + 1];
        multipliers[self.steps.len()] = lead;
        for (k, step) in self.steps.iter().enumerate().rev() {
            let mut product = 0;
            for (a, b) in row.iter().zip(&step.row) {
                product = ring.sum(product, ring.product(*a, *b));
            }
            let multiplier = ring.negative(ring.quotient(product, step.divisor).unwrap());
            self.add_terms(&mut row, &step.tie, ring.product(multiplier, self.raise(&step.tie)));
            multipliers[k] = multiplier;
        }
        multipliers
    }
}

struct System {
    mark: [u8; 3],
    heads: usize,
    widths: Vec<u8>,
    ties: Vec<Tie>,
}

fn long(bytes: &[u8]) -> u32 {
    u32::from_le_bytes([bytes[0], bytes[1], bytes[2], bytes[3]])
}

/// Reads a file that is right.
fn read(file: &[u8]) -> System {
    let entries = usize::from(file[0]);
    let body = |i: usize| {
        let line = &file[1 + 5 * i..][..5];
        let start = usize::from(u16::from_le_bytes([line[1], line[2]]));
        &file[start..][..usize::from(u16::from_le_bytes([line[3], line[4]]))]
    };
    let layout = body(0);
    let widths = layout[5..].to_vec();
    let ties = (1..entries)
        .map(|i| {
            let body = body(i);
            let terms = body[5..]
                .chunks_exact(6)
                .map(|t| (usize::from(t[0]) * widths.len() + usize::from(t[1]), long(&t[2..])))
                .collect();
            Tie { width: u32::from(widths[usize::from(body[0])]), right: long(&body[1..]), terms }
        })
        .collect();
    System { mark: [layout[0], layout[1], layout[2]], heads: usize::from(layout[3]), widths, ties }
}

fn solved<R: Ring>(ring: R, system: &System) -> Book<R> {
    let mut book = Book::new(ring, system.heads, &system.widths);
    for tie in &system.ties {
        if book.post(tie).is_err() {
            break;
        }
    }
    book
}

#[derive(Clone, Copy)]
enum Task {
    Whole,
    Unload,
    Refuse,
}

fn perform<R: Ring>(ring: R, file: &[u8], task: Task, times: u32) -> u32 {
    let mut system = read(file);
    match task {
        Task::Whole => {
            let mut free = u32::MAX;
            for _ in 0..times {
                let book = solved(ring, &read(file));
                free = draw(&book);
            }
            free
        }
        Task::Unload => {
            let mut free = u32::MAX;
            for _ in 0..times {
                system = read(file);
                let mut book = solved(ring, &system);
                for _ in 0..system.ties.len() {
                    book.withdraw();
                }
                free = draw(&book);
            }
            free
        }
        Task::Refuse => {
            let mut book = solved(ring, &system);
            let mut other = system.ties[system.ties.len() - 1].clone();
            other.right = ring.sum(other.right, 1);
            book.withdraw();
            book.withdraw();
            for _ in 0..times {
                let _ = std::hint::black_box(book.post(&other));
            }
            draw(&book)
        }
    }
}

/// Writes the sheet to a list of the caller's, and answers the free digits.
fn draw<R: Ring>(book: &Book<R>) -> u32 {
    let mut sheet = [0; 1056];
    sheet[..book.rows.len()].copy_from_slice(&book.rows);
    std::hint::black_box(&sheet);
    book.free
}

fn with_ring(file: &[u8], task: Task, times: u32) -> u32 {
    let [kind, base, length] = read(file).mark.map(u32::from);
    if kind == 1 {
        perform(Binary { length, mask: ((1u64 << length) - 1) as u32 }, file, task, times)
    } else {
        perform(Prime { base, length, size: base.pow(length) }, file, task, times)
    }
}

/// # Safety
/// `file` points to `length` bytes of a file that is right.
unsafe fn call(file: *const u8, length: usize, task: Task, times: u32) -> u32 {
    with_ring(unsafe { std::slice::from_raw_parts(file, length) }, task, times)
}

macro_rules! export {
    ($name:ident, $task:ident) => {
        /// # Safety
        /// `file` points to `length` bytes of a file that is right.
        #[no_mangle]
        pub unsafe extern "C" fn $name(file: *const u8, length: usize, times: u32) -> u32 {
            unsafe { call(file, length, Task::$task, times) }
        }
    };
}

export!(plain_whole, Whole);
export!(plain_unload, Unload);
export!(plain_refuse, Refuse);
