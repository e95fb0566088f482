//! The tables in memory: what a caller lends, and a sheet found admissible.

use crate::limits;
use crate::refusal::Refusal;
use crate::window::{Kind, Window};

/// The table value that means "no window".
pub const NO_WINDOW: i32 = i32::MIN;

/// What a caller lends to the writer, Ask, Ends and the checks. Nothing is known of it.
#[derive(Clone, Copy, Debug)]
pub struct Lent<'a> {
    /// Events per mode.
    pub n: u64,
    /// Modes.
    pub m: u64,
    /// Positions of the schedule.
    pub v: u64,
    /// The tables; those beyond 4·m·n² are surplus.
    pub tables: &'a [i32],
    /// The schedule; what lies beyond V is surplus.
    pub schedule: &'a [u64],
}

impl Lent<'_> {
    /// The sheet that was lent, or refusal 4, 5 or 6, in this order.
    ///
    /// "Longer buffers than needed are allowed; the surplus is neither read nor
    /// written."
    pub fn admit(self) -> Result<Sheet, Refusal> {
        let n = limits::events(self.n)?;
        let m = limits::modes(self.m)?;
        let v = limits::positions(self.v)?;
        let tables = self.tables.get(..4 * m * n * n).ok_or(Refusal::Size)?;
        let schedule = self.schedule.get(..v).ok_or(Refusal::Size)?;
        let schedule = schedule
            .iter()
            .map(|&mode| limits::mode(mode, m))
            .collect::<Result<Vec<u64>, Refusal>>()?;
        for &entry in tables {
            if entry != NO_WINDOW {
                limits::value(i64::from(entry))?;
            }
        }
        Ok(Sheet {
            n,
            m,
            schedule,
            tables: tables.to_vec(),
        })
    }
}

/// A sheet within all limits.
///
/// Its fields are private so that every `Sheet` is admissible: none of the
/// questions asked of it has to be refused for the sheet's sake.
#[derive(Clone, Debug, PartialEq, Eq)]
pub struct Sheet {
    n: usize,
    m: usize,
    schedule: Vec<u64>,
    tables: Vec<i32>,
}

impl Sheet {
    /// A sheet of n events and m modes that has no windows yet.
    pub fn without_windows(n: usize, m: usize, schedule: &[u64]) -> Result<Sheet, Refusal> {
        limits::events(n as u64)?;
        limits::modes(m as u64)?;
        limits::positions(schedule.len() as u64)?;
        for &mode in schedule {
            limits::mode(mode, m)?;
        }
        Ok(Sheet {
            n,
            m,
            schedule: schedule.to_vec(),
            tables: vec![NO_WINDOW; 4 * m * n * n],
        })
    }

    /// Sets one window of a mode, in the place of any that stood there.
    pub fn put(&mut self, mode: usize, window: Window) -> Result<(), Refusal> {
        limits::mode(mode as u64, self.m)?;
        limits::event(window.to as u64, self.n)?;
        limits::event(window.from as u64, self.n)?;
        limits::value(i64::from(window.w))?;
        let place = self.place(mode, window.kind, window.to, window.from);
        self.tables[place] = window.w;
        Ok(())
    }

    /// n, the events per mode.
    pub fn n(&self) -> usize {
        self.n
    }

    /// m, the modes.
    pub fn m(&self) -> usize {
        self.m
    }

    /// V, the positions of the schedule.
    pub fn v(&self) -> usize {
        self.schedule.len()
    }

    /// N = V·n, the nodes.
    pub fn nodes(&self) -> usize {
        self.v() * self.n
    }

    /// The schedule: V mode numbers from 0.
    pub fn schedule(&self) -> &[u64] {
        &self.schedule
    }

    /// The tables: 4·m·n² entries, each a w or [`NO_WINDOW`].
    pub fn tables(&self) -> &[i32] {
        &self.tables
    }

    /// This sheet as a caller would lend it, without surplus.
    pub fn lend(&self) -> Lent<'_> {
        Lent {
            n: self.n as u64,
            m: self.m as u64,
            v: self.v() as u64,
            tables: &self.tables,
            schedule: &self.schedule,
        }
    }

    /// The mode at a position, positions counted from 1.
    pub fn mode_at(&self, position: usize) -> usize {
        self.schedule[position - 1] as usize
    }

    /// The position after this one; "after position V comes position 1 of the
    /// next period".
    pub fn next_position(&self, position: usize) -> usize {
        position % self.v() + 1
    }

    /// The node of an event at a position, counted from 0: one less than 01's
    /// (h-1)·n + i, so that it can be an index.
    pub fn node(&self, position: usize, event: usize) -> usize {
        (position - 1) * self.n + event - 1
    }

    /// The window of a mode at a place, if it is present.
    pub fn window(&self, mode: usize, kind: Kind, to: usize, from: usize) -> Option<Window> {
        let w = self.tables[self.place(mode, kind, to, from)];
        (w != NO_WINDOW).then_some(Window { kind, to, from, w })
    }

    /// The windows present in a mode, rising by kind, then to, then from.
    pub fn windows(&self, mode: usize) -> impl Iterator<Item = Window> + '_ {
        let n = self.n;
        let part = 4 * n * n;
        let tables = &self.tables[mode * part..(mode + 1) * part];
        let present = tables.iter().enumerate().filter(|(_, &w)| w != NO_WINDOW);
        present.map(move |(place, &w)| Window {
            kind: Kind::ALL[place / (n * n)],
            to: place / n % n + 1,
            from: place % n + 1,
            w,
        })
    }

    /// "The window of mode t (from 0), kind, to, from stands at
    /// ((4t + kind)·n + to - 1)·n + from - 1."
    fn place(&self, mode: usize, kind: Kind, to: usize, from: usize) -> usize {
        ((4 * mode + kind.number()) * self.n + to - 1) * self.n + from - 1
    }
}

#[cfg(test)]
mod tests {
    use super::*;

    #[test]
    fn windows_stand_at_their_places() {
        let mut sheet = Sheet::without_windows(3, 2, &[0, 1]).unwrap();
        let window = Window {
            kind: Kind::A1,
            to: 3,
            from: 2,
            w: -7,
        };
        sheet.put(1, window).unwrap();
        assert_eq!(sheet.tables()[((4 + 2) * 3 + 3 - 1) * 3 + 2 - 1], -7);
        assert_eq!(sheet.windows(1).collect::<Vec<_>>(), [window]);
        assert_eq!(sheet.windows(0).count(), 0);
        assert_eq!(sheet.window(1, Kind::A1, 3, 2), Some(window));
        assert_eq!(sheet.window(0, Kind::A1, 3, 2), None);
    }

    #[test]
    fn sizes_past_their_limits_are_refused() {
        assert_eq!(Sheet::without_windows(0, 1, &[0]), Err(Refusal::Size));
        assert_eq!(
            Sheet::without_windows(usize::MAX, 8, &[0]),
            Err(Refusal::Size)
        );
        assert_eq!(Sheet::without_windows(12, 9, &[0]), Err(Refusal::Size));
        assert_eq!(Sheet::without_windows(12, 8, &[]), Err(Refusal::Size));
        assert_eq!(Sheet::without_windows(12, 8, &[8]), Err(Refusal::Schedule));
        assert!(Sheet::without_windows(12, 8, &[7; 16]).is_ok());
    }
}
