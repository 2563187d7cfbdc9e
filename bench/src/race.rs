//! The same work done by all rivals: a row of the table.

use crate::clock::{shortest, turn, Turn};

pub struct Race<'a> {
    work: String,
    core: Turn<'a>,
    plain: Turn<'a>,
    tuned: Option<Turn<'a>>,
    by_value: Option<Turn<'a>>,
    rpcgen: Option<Turn<'a>>,
}

/// Nanoseconds a call.
#[derive(Clone, Debug)]
pub struct Row {
    pub work: String,
    pub core: f64,
    pub plain: f64,
    pub tuned: Option<f64>,
    pub by_value: Option<f64>,
    pub rpcgen: Option<f64>,
}

impl<'a> Race<'a> {
    pub fn new<A, B>(work: &str, core: impl FnMut() -> A + 'a, plain: impl FnMut() -> B + 'a) -> Self {
        Race { work: work.to_string(), core: turn(core), plain: turn(plain), tuned: None, by_value: None, rpcgen: None }
    }

    pub fn tuned<T>(mut self, work: impl FnMut() -> T + 'a) -> Self {
        self.tuned = Some(turn(work));
        self
    }

    /// The tuned Rust with the core's boundary.
    pub fn by_value<T>(mut self, work: impl FnMut() -> T + 'a) -> Self {
        self.by_value = Some(turn(work));
        self
    }

    /// Takes part only where rpcgen and libtirpc were there.
    pub fn rpcgen<T>(mut self, work: impl FnMut() -> T + 'a) -> Self {
        self.rpcgen = cfg!(rpcgen).then(|| turn(work));
        self
    }

    pub fn run(mut self) -> Row {
        let mut rivals = vec![&mut self.core, &mut self.plain];
        rivals.extend(&mut self.tuned);
        rivals.extend(&mut self.by_value);
        rivals.extend(&mut self.rpcgen);
        let mut times = shortest(&mut rivals).into_iter();
        let mut next = || times.next().unwrap_or(f64::NAN);
        let (core, plain) = (next(), next());
        let [tuned, by_value, rpcgen] = [self.tuned, self.by_value, self.rpcgen].map(|rival| rival.map(|_| next()));
        let row = Row { work: self.work, core, plain, tuned, by_value, rpcgen };
        row.print();
        row
    }
}

impl Row {
    pub fn print_head() {
        println!("| work | core, ns | plain, ns | tuned, ns | tuned by value, ns | rpcgen, ns | core / plain | core / tuned | core / tuned by value | core / rpcgen |");
        println!("|---|---|---|---|---|---|---|---|---|---|");
    }

    pub fn print(&self) {
        let time = |time: Option<f64>| time.map_or("-".to_string(), |time| format!("{time:.0}"));
        let ratio = |rival: Option<f64>| rival.map_or("-".to_string(), |rival| format!("{:.2}", self.core / rival));
        let times = [Some(self.core), Some(self.plain), self.tuned, self.by_value, self.rpcgen].map(time).join(" | ");
        let ratios = [Some(self.plain), self.tuned, self.by_value, self.rpcgen].map(ratio).join(" | ");
        println!("| {} | {times} | {ratios} |", self.work);
    }
}
