//! The proved library through its entry points for C, as safe functions on bytes.

/// What reading, writing, explaining and finding a pattern answer: refusal 0 and a count,
/// or a refusal with its number and line.
#[repr(C)]
#[derive(Clone, Copy, Debug, PartialEq, Eq)]
pub struct Reply {
    pub refusal: u32,
    pub line: usize,
    pub count: usize,
}

/// What judging answers: refusal 0 and the figures, or a refusal with its number and line.
#[repr(C)]
#[derive(Clone, Copy, Debug, PartialEq, Eq)]
pub struct JudgeReply {
    pub refusal: u32,
    pub line: usize,
    pub verdict: usize,
    pub deepest: usize,
    pub shapes: usize,
    pub fired: usize,
    pub share: usize,
    pub row: usize,
    pub trail: usize,
    pub turns: usize,
}

/// What carrying out answers: refusal 0 and the counts, or a refusal with its number and line.
#[repr(C)]
#[derive(Clone, Copy, Debug, PartialEq, Eq)]
pub struct CarryReply {
    pub refusal: u32,
    pub line: usize,
    pub records: usize,
    pub firings: usize,
}

/// What forecasting answers: refusal 0 and the figures, 4,294,967,296 for one that is beyond,
/// or a refusal with its number and line.
#[repr(C)]
#[derive(Clone, Copy, Debug, PartialEq, Eq)]
pub struct ForecastReply {
    pub refusal: u32,
    pub line: usize,
    pub values: u64,
    pub records: u64,
    pub pairs: u64,
}

/// A step as a record.
#[repr(C)]
#[derive(Clone, Copy, Debug, PartialEq, Eq)]
pub struct Step {
    pub rule: u16,
    pub head: u16,
    pub from: u16,
    pub to: u16,
    pub fresh: u16,
}

/// Where a line stands in a text.
#[repr(C)]
#[derive(Clone, Copy, Debug, PartialEq, Eq)]
pub struct Span {
    pub start: usize,
    pub end: usize,
}

extern "C" {
    fn followup_read_v1(
        text: *const u8,
        text_len: usize,
        lines: *mut u8,
        lines_len: usize,
    ) -> Reply;
    fn followup_write_v1(
        lines: *const u8,
        lines_len: usize,
        text: *mut u8,
        text_len: usize,
    ) -> Reply;
    fn followup_pattern_v1(fields: *const u8, fields_len: usize) -> Reply;
    fn followup_judge_v1(
        lines: *const u8,
        lines_len: usize,
        steps: *mut u8,
        steps_len: usize,
    ) -> JudgeReply;
    fn followup_judge_text_v1(
        text: *const u8,
        text_len: usize,
        steps: *mut u8,
        steps_len: usize,
    ) -> JudgeReply;
    fn followup_explain_v1(
        lines: *const u8,
        lines_len: usize,
        text: *mut u8,
        text_len: usize,
    ) -> Reply;
    fn followup_carry_v1(
        lines: *const u8,
        lines_len: usize,
        records: *mut u8,
        records_len: usize,
    ) -> CarryReply;
    fn followup_forecast_v1(lines: *const u8, lines_len: usize) -> ForecastReply;
    fn followup_step_at_v1(steps: *const u8, steps_len: usize, k: usize) -> Step;
    fn followup_line_span_v1(text: *const u8, text_len: usize, number: usize) -> Span;
}

// Safety, here and below: each pointer and length come from one slice, and the
// library reads and writes within them. A slice's pointer is never null.

/// Reads a text into lent lines, 32 bytes each.
pub fn read(text: &[u8], lines: &mut [u8]) -> Reply {
    unsafe { followup_read_v1(text.as_ptr(), text.len(), lines.as_mut_ptr(), lines.len()) }
}

/// Writes lent lines, 32 bytes each, as text.
pub fn write(lines: &[u8], text: &mut [u8]) -> Reply {
    unsafe { followup_write_v1(lines.as_ptr(), lines.len(), text.as_mut_ptr(), text.len()) }
}

/// The number of a record's pattern; its fields are four bytes each.
pub fn pattern(fields: &[u8]) -> Reply {
    unsafe { followup_pattern_v1(fields.as_ptr(), fields.len()) }
}

/// Judges lent lines, 32 bytes each; steps are ten bytes each.
pub fn judge(lines: &[u8], steps: &mut [u8]) -> JudgeReply {
    unsafe { followup_judge_v1(lines.as_ptr(), lines.len(), steps.as_mut_ptr(), steps.len()) }
}

/// Judges a text; steps are ten bytes each.
pub fn judge_text(text: &[u8], steps: &mut [u8]) -> JudgeReply {
    unsafe { followup_judge_text_v1(text.as_ptr(), text.len(), steps.as_mut_ptr(), steps.len()) }
}

/// Explains lent lines, 32 bytes each, in a lent text.
pub fn explain(lines: &[u8], text: &mut [u8]) -> Reply {
    unsafe { followup_explain_v1(lines.as_ptr(), lines.len(), text.as_mut_ptr(), text.len()) }
}

/// Carries lent lines out, 32 bytes each; records are 32 bytes each too.
pub fn carry(lines: &[u8], records: &mut [u8]) -> CarryReply {
    let (lent, size) = (records.as_mut_ptr(), records.len());
    unsafe { followup_carry_v1(lines.as_ptr(), lines.len(), lent, size) }
}

/// Forecasts lent lines, 32 bytes each.
pub fn forecast(lines: &[u8]) -> ForecastReply {
    unsafe { followup_forecast_v1(lines.as_ptr(), lines.len()) }
}

/// Step `k`, counted from 0, of lent steps.
pub fn step_at(steps: &[u8], k: usize) -> Step {
    unsafe { followup_step_at_v1(steps.as_ptr(), steps.len(), k) }
}

/// Where line `number`, counted from 1, begins and ends.
pub fn line_span(text: &[u8], number: usize) -> Span {
    unsafe { followup_line_span_v1(text.as_ptr(), text.len(), number) }
}
