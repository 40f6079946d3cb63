//! A grid of doors.

use crate::places::Places;

pub struct Door {
    door: usize,
    row: usize,
    column: usize,
    stage: u8,
}

pub struct Grid {
    x: Vec<u64>,
    y: Vec<bool>,
}

impl Places for Grid {
    type Way = Door;
    type Walk = u32;

    fn new(m: usize) -> Self {
        Grid { x: vec![0; Self::most(m)], y: vec![false; Self::most(m)] }
    }
    fn most(m: usize) -> usize {
        m * (m + 1) / 2
    }
    fn way() -> Door {
        Door { door: 0, row: 0, column: 0, stage: 0 }
    }
    #[inline(always)]
    fn place(&mut self, way: &mut Door, identity: u64) -> Option<usize> {
        match way.stage {
            0 => {
                self.x[way.door] = identity;
                way.stage = 1;
                return None;
            }
            1 if !self.y[way.door] => {
                way.stage = 2;
                return None;
            }
            1 => way.row += 1,
            2 => {
                self.y[way.door] = true;
                way.stage = 3;
                return None;
            }
            _ if self.x[way.door] == identity => return Some(way.door),
            _ => way.column += 1,
        }
        let depth = way.row + way.column;
        way.door = depth * (depth + 1) / 2 + way.column;
        way.stage = 0;
        None
    }
    fn walk() -> u32 {
        0
    }
    #[inline(always)]
    fn reads(walk: u32) -> Option<usize> {
        Some(walk as usize)
    }
    #[inline(always)]
    fn next(&self, walk: u32) -> Option<u32> {
        Some(walk + 1).filter(|it| (*it as usize) < self.x.len())
    }
    fn number(&self, place: usize) -> u128 {
        place as u128
    }
}
