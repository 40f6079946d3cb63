// Erased by bindings/rust/erase from crates/text_checker/src/judge.rt, sha256 f2ec984269a0fa4cc815879a308bc85dae548520cde4d7e3b2237c031da7cb8c.
//! Judges a record whose bytes are given part by part.

use crate::kit::alloc::{AllocError, Global};
use crate::kit::Vec;
use crate::proved::text_checker::row_judge::RowJudge;
use crate::proved::text_checker::verdict::Verdict;
use crate::proved::text_lines::words::cut;
use crate::proved::text_records::record_line::read_header;
use crate::proved::text_records::seals::opened_line;

/// How far the lines of a record are judged.
pub enum JudgeStage {
    /// There is no line yet.
    Opening,
    /// The lines so far can follow one another.
    Judging(RowJudge),
    /// The verdict is known, whatever lines follow.
    Over(Verdict),
}

/// Judges a record whose bytes are given part by part. It holds the state of the objects and the bytes of the present
/// line.
pub struct Judge {
    alloc: Global,
    held: Vec<u8>,
    stage: JudgeStage,
}

// The stage after the first line.
fn opened(alloc: Global, line: &[u8]) -> Result<JudgeStage, AllocError> {
    match read_header(alloc, line)? {
        Some(header) => Ok(JudgeStage::Judging(RowJudge::new(alloc, header)?)),
        None => Ok(JudgeStage::Over(Verdict::BadRecord(1))),
    }
}

// Takes the first line. It is a function of its own, since the new stage is a kilobyte, for which each line would clear room.
#[inline(never)]
fn take_first(alloc: Global, stage: &mut JudgeStage, line: &[u8]) -> Result<(), AllocError> {
    *stage = opened(alloc, line)?;
    Ok(())
}

// Stores a verdict. It is a function of its own for the same reason.
#[inline(never)]
fn conclude(stage: &mut JudgeStage, verdict: Verdict) {
    *stage = JudgeStage::Over(verdict);
}

// Judges one more line, without its LF.
fn judge_line(alloc: Global, stage: &mut JudgeStage, line: &[u8]) -> Result<(), AllocError> {
    match stage {
        JudgeStage::Opening => take_first(alloc, stage, line),
        JudgeStage::Judging(judge) => match judge.take(alloc, line)? {
            Some(verdict) => {
                conclude(stage, verdict);
                Ok(())
            }
            None => Ok(()),
        },
        JudgeStage::Over(_) => Ok(()),
    }
}

// The same of a line as it stands in the record, which may be sealed.
#[inline(always)]
fn judge_row(alloc: Global, stage: &mut JudgeStage, line: &[u8]) -> Result<(), AllocError> {
    judge_line(alloc, stage, opened_line(line))
}

// The verdict if no line follows.
fn verdict_of(stage: &JudgeStage) -> Verdict {
    match stage {
        JudgeStage::Opening => Verdict::BadRecord(1),
        JudgeStage::Judging(_) => Verdict::Yes,
        JudgeStage::Over(verdict) => *verdict,
    }
}

impl Judge {
    /// Makes a judge that has taken no byte. This allocates nothing.
    pub fn new(alloc: Global) -> Judge {
        Judge {
            alloc,
            held: Vec::new(alloc),
            stage: JudgeStage::Opening,
        }
    }

    // Judges a line at its end.
    fn end_line(&mut self, line: &[u8]) -> Result<(), AllocError> {
        if self.held.is_empty() {
            return judge_row(self.alloc, &mut self.stage, line);
        }
        self.held.extend_from_slice(line)?;
        let judged = judge_row(self.alloc, &mut self.stage, &self.held);
        self.held.clear();
        judged
    }

    /// Takes more bytes of the record, and judges the lines that end in them.
    ///
    /// # Errors
    ///
    /// `AllocError`: the allocation failed. The judge is then of no use.
    pub fn take(&mut self, bytes: &[u8]) -> Result<(), AllocError> {
        let mut left = Some(bytes);
        while let Some(bytes) = left {
            let (line, rest) = cut(bytes, b'\n');
            match rest {
                Some(_) => self.end_line(line)?,
                None => self.held.extend_from_slice(line)?,
            }
            left = rest;
        }
        Ok(())
    }

    // Judges the end of the record: the bytes before it with no LF are a line too, if there are any.
    fn end_last(&mut self) -> Result<(), AllocError> {
        if self.held.is_empty() {
            return Ok(());
        }
        judge_row(self.alloc, &mut self.stage, &self.held)
    }

    /// Returns the verdict on all bytes that were taken.
    ///
    /// # Errors
    ///
    /// `AllocError`: the allocation failed.
    pub fn verdict(self) -> Result<Verdict, AllocError> {
        let mut judge = self;
        judge.end_last()?;
        Ok(verdict_of(&judge.stage))
    }
}
