//! The clip at a tick by request [2] of document 02, written once more and by brute force: records for `probe`, and the
//! lines that it must print.
//!
//!     ticks SEED COUNT RECORDS LINES
//!
//! It makes COUNT calls that SEED chooses, of ops 8, 13, 14 and 28, and writes their records to the file RECORDS and the
//! lines to the file LINES. Nothing here comes from the library, nor from `tools/oracle/clock`: the sentences are quoted
//! where they are followed. Where a list's start ticks are swept, all pairs of its 1,000,000 turns are looked at, one by
//! one. `tools/ticks` builds this by plain rustc and runs the library beside it.
mod calls;

use calls::Argument::{Number, Words};
use calls::{Dice, Run};

// 01: "a lent table of 64-bit words, seventeen to a clip: .. 2 length in ns"
const CLIP_WORDS: usize = 17;
const LENGTH: usize = 2;
const SECOND: u128 = 1_000_000_000;
const TURNS: u64 = 1_000_000;
const MOST_NS: u64 = 1_000_000_000_000_000;
const LENGTH_LIMIT: u64 = 1_000_000_000_000_000_000;
const MOST_RATE: u64 = 90_000;
// the most words that a record of the probe may have
const MOST_WORDS: usize = 70_000;

// ---------------------------------------------------------------------------------------------------------------
// The clock
// ---------------------------------------------------------------------------------------------------------------

/// A turn and a clip; they are ordered as 02 has it, "by turn then clip".
type Pair = (u64, usize);

/// The lengths of a list that 9 does not refuse.
struct List {
    /// Of each clip its start within a turn, and behind them the total.
    starts: Vec<u128>,
}

impl List {
    fn new(lengths: &[u64]) -> List {
        let mut starts = vec![0];
        for &length in lengths {
            starts.push(starts[starts.len() - 1] + u128::from(length));
        }
        List { starts }
    }

    fn clips(&self) -> usize {
        self.starts.len() - 1
    }

    fn total(&self) -> u128 {
        self.starts[self.clips()]
    }

    /// 01: "Tick t of a moment m (ns) at rate r: t x 10^9 <= m x r < (t+1) x 10^9." The moment is that of the clip's start
    /// in that turn; for the clip behind the last one it is the next turn's.
    fn start_tick(&self, rate: u64, turn: u64, clip: usize) -> u64 {
        let moment = u128::from(turn) * self.total() + self.starts[clip];
        (moment * u128::from(rate) / SECOND) as u64
    }

    /// The start tick of turn 1,000,000.
    fn end(&self, rate: u64) -> u64 {
        self.start_tick(rate, TURNS, 0)
    }
}

// ---------------------------------------------------------------------------------------------------------------
// "the last pair, by turn then clip, up to turn 999,999, whose start tick is not after t"
// ---------------------------------------------------------------------------------------------------------------

/// For each of these rising ticks the last pair not after it, by a look at every pair. That start ticks never fall is not
/// used for the answer, only for speed.
fn sweep(list: &List, rate: u64, ticks: &[u64]) -> Vec<Pair> {
    // of the pairs that are not after ticks[k], and after all earlier ones, the last; behind the ticks, of those after all
    let mut last: Vec<Option<Pair>> = vec![None; ticks.len() + 1];
    let mut k = 0;
    for turn in 0..TURNS {
        for clip in 0..list.clips() {
            let start = list.start_tick(rate, turn, clip);
            while k < ticks.len() && ticks[k] < start {
                k += 1;
            }
            while k > 0 && ticks[k - 1] >= start {
                k -= 1;
            }
            last[k] = Some((turn, clip));
        }
    }
    let mut so_far = None;
    let mut answers = Vec::new();
    for (k, &tick) in ticks.iter().enumerate() {
        so_far = so_far.max(last[k]);
        answers.push(so_far.unwrap_or_else(|| panic!("no pair is before tick {tick}")));
    }
    answers
}

/// The same for one tick, from the last pair backwards: the first one met that is not after the tick.
fn from_the_end(list: &List, rate: u64, tick: u64) -> Pair {
    for turn in (0..TURNS).rev() {
        for clip in (0..list.clips()).rev() {
            if list.start_tick(rate, turn, clip) <= tick {
                return (turn, clip);
            }
        }
    }
    panic!("no pair is before tick {tick}")
}

/// The same from the first pair on. A length is never below 0, so start ticks never fall: once a pair is after the tick,
/// all later ones are, and the last that was not after it is the answer.
fn from_the_front(list: &List, rate: u64, tick: u64) -> Pair {
    let mut answer = (0, 0);
    for turn in 0..TURNS {
        for clip in 0..list.clips() {
            if list.start_tick(rate, turn, clip) > tick {
                return answer;
            }
            answer = (turn, clip);
        }
    }
    answer
}

/// From the end that is nearer; both give the same.
fn on_at(list: &List, rate: u64, tick: u64) -> Pair {
    if tick >= list.end(rate) / 2 {
        from_the_end(list, rate, tick)
    } else {
        from_the_front(list, rate, tick)
    }
}

// ---------------------------------------------------------------------------------------------------------------
// The calls: refusals from the top down, and what is printed
// ---------------------------------------------------------------------------------------------------------------

/// What all four calls are given: how many clips there are said to be, and the words.
struct Table {
    clips: u64,
    words: Vec<u64>,
}

enum Call {
    /// 8
    ClipAt { rate: u64, tick: u64 },
    /// 13
    SinceAndLeft { rate: u64, tick: u64 },
    /// 14
    AllStarts { rate: u64, turn: u64, out: Vec<u64> },
    /// 28
    StartNs { clip: u64 },
}

/// The list of a table; 9 or 11 where there is none.
fn list_of(table: &Table) -> Result<List, u64> {
    // 01, rule 9: "Clock: the clip count fits, each word 2 below 10^18."
    if u128::from(table.clips) * CLIP_WORDS as u128 > table.words.len() as u128 {
        return Err(9);
    }
    let lengths: Vec<u64> = (0..table.clips as usize).map(|k| table.words[CLIP_WORDS * k + LENGTH]).collect();
    if lengths.iter().any(|&length| length >= LENGTH_LIMIT) {
        return Err(9);
    }
    // 11: "total above 10^15 ns"
    let list = List::new(&lengths);
    if list.total() > u128::from(MOST_NS) {
        return Err(11);
    }
    Ok(list)
}

/// 12: "rate not 1 to 90,000"
fn judge_rate(rate: u64) -> Result<(), u64> {
    if rate == 0 || rate > MOST_RATE {
        return Err(12);
    }
    Ok(())
}

/// 02 [2]: "the clock's 9, 11, 12; then 17, no clips or total 0; then 18, t at or past the start tick of turn 1,000,000"
fn judge_tick(table: &Table, rate: u64, tick: u64) -> Result<List, u64> {
    let list = list_of(table)?;
    judge_rate(rate)?;
    if list.clips() == 0 || list.total() == 0 {
        return Err(17);
    }
    if tick >= list.end(rate) {
        return Err(18);
    }
    Ok(list)
}

/// What op 14 leaves in `out`: for each clip its start in ns within the turn, then its start tick in that turn; words past
/// the last pair unchanged. Refusals 9, 11, 12, 13 (turn above 999,999), then 10 where two words a clip have no room.
fn all_starts(table: &Table, rate: u64, turn: u64, out: &[u64]) -> Result<(usize, Vec<u64>), u64> {
    let list = list_of(table)?;
    judge_rate(rate)?;
    if turn >= TURNS {
        return Err(13);
    }
    if out.len() < 2 * list.clips() {
        return Err(10);
    }
    let mut after = out.to_vec();
    for clip in 0..list.clips() {
        after[2 * clip] = list.starts[clip] as u64;
        after[2 * clip + 1] = list.start_tick(rate, turn, clip);
    }
    Ok((list.clips(), after))
}

/// Op 28, a clip's start in ns: 9, 11, then 14, "no such clip".
fn start_ns(table: &Table, clip: u64) -> Result<u64, u64> {
    let list = list_of(table)?;
    if clip >= list.clips() as u64 {
        return Err(14);
    }
    Ok(list.starts[clip as usize] as u64)
}

impl Run {
    /// Makes a call. Where the pair at its tick is known from a sweep, it is not searched again.
    fn make(&mut self, table: &Table, call: &Call, known: Option<Pair>) {
        if self.done() {
            return;
        }
        match call {
            Call::ClipAt { rate, tick } => {
                self.record(8, &[Number(table.clips), Words(&table.words), Number(*rate), Number(*tick)]);
                match judge_tick(table, *rate, *tick) {
                    Err(number) => self.line(8, number, &[0, 0], None),
                    Ok(list) => {
                        let (turn, clip) = known.unwrap_or_else(|| on_at(&list, *rate, *tick));
                        self.line(8, 0, &[turn, clip as u64], None);
                    }
                }
            }
            Call::SinceAndLeft { rate, tick } => {
                self.record(13, &[Number(table.clips), Words(&table.words), Number(*rate), Number(*tick)]);
                match judge_tick(table, *rate, *tick) {
                    Err(number) => self.line(13, number, &[0, 0, 0, 0], None),
                    Ok(list) => {
                        let (turn, clip) = known.unwrap_or_else(|| on_at(&list, *rate, *tick));
                        // the next pair is the next clip, or the next turn's first
                        let next = if clip + 1 < list.clips() { (turn, clip + 1) } else { (turn + 1, 0) };
                        let since = tick - list.start_tick(*rate, turn, clip);
                        let left = list.start_tick(*rate, next.0, next.1) - tick;
                        self.line(13, 0, &[turn, clip as u64, since, left], None);
                    }
                }
            }
            Call::AllStarts { rate, turn, out } => {
                self.record(14, &[Number(table.clips), Words(&table.words), Number(*rate), Number(*turn), Words(out)]);
                match all_starts(table, *rate, *turn, out) {
                    Err(number) => self.line(14, number, &[0], Some(out)),
                    Ok((clips, after)) => self.line(14, 0, &[clips as u64], Some(&after)),
                }
            }
            Call::StartNs { clip } => {
                self.record(28, &[Number(table.clips), Words(&table.words), Number(*clip)]);
                match start_ns(table, *clip) {
                    Err(number) => self.line(28, number, &[0], None),
                    Ok(ns) => self.line(28, 0, &[ns], None),
                }
            }
        }
    }
}

// ---------------------------------------------------------------------------------------------------------------
// Lists, by dice
// ---------------------------------------------------------------------------------------------------------------

impl Dice {
    fn rate(&mut self) -> u64 {
        match self.below(8) {
            0 => 1,
            1 => MOST_RATE,
            2 => self.of(&[10, 24, 25, 30, 60, 100, 1000, 44_100, 48_000, 89_999]),
            3 | 4 => self.any_size(MOST_RATE),
            _ => 1 + self.below(MOST_RATE),
        }
    }

    /// So many lengths that add up to the total, a part of them perhaps 0.
    fn split(&mut self, total: u64, clips: usize) -> Vec<u64> {
        let empty = self.of(&[0, 0, 3, 2]);
        let mut cuts: Vec<u64> = (1..clips).map(|_| self.below(total + 1)).collect();
        cuts.push(0);
        cuts.push(total);
        cuts.sort_unstable();
        let mut lengths: Vec<u64> = cuts.windows(2).map(|ends| ends[1] - ends[0]).collect();
        for k in 0..clips {
            // its length goes to some other clip
            if empty > 0 && self.one_in(empty) {
                let other = self.below(clips as u64) as usize;
                let length = lengths[k];
                lengths[k] = 0;
                lengths[other] += length;
            }
        }
        lengths
    }

    /// A table with these lengths. All other words are anything, and so are words behind the last clip's.
    fn table(&mut self, lengths: &[u64]) -> Table {
        let mut words = Vec::new();
        for &length in lengths {
            for word in 0..CLIP_WORDS {
                words.push(if word == LENGTH { length } else { self.noise() });
            }
        }
        if self.one_in(8) {
            for _ in 0..self.below(40) {
                words.push(self.noise());
            }
        }
        Table { clips: lengths.len() as u64, words }
    }

    fn clip_at(&mut self, rate: u64, tick: u64) -> Call {
        if self.one_in(2) {
            Call::ClipAt { rate, tick }
        } else {
            Call::SinceAndLeft { rate, tick }
        }
    }

    fn turn(&mut self) -> u64 {
        match self.below(6) {
            0 => self.below(3),
            1 => TURNS - 1 - self.below(3),
            2 => self.any_size(TURNS - 1),
            _ => self.below(TURNS),
        }
    }
}

/// Ticks below the list's end: about starts of pairs, about both ends, about where a product of 64 bits would wrap,
/// anywhere. They rise, and none comes twice.
fn chosen_ticks(dice: &mut Dice, list: &List, rate: u64, many: u64) -> Vec<u64> {
    let end = list.end(rate);
    if end <= many {
        return (0..end).collect();
    }
    let mut ticks = Vec::new();
    for _ in 0..many {
        let tick = match dice.below(8) {
            0..=3 => {
                let turn = dice.turn();
                let clip = dice.below(list.clips() as u64 + 1) as usize;
                let start = list.start_tick(rate, turn, clip);
                (start + dice.below(4)).saturating_sub(2)
            }
            4 => dice.any_size(end) - 1,
            5 => end - dice.any_size(end),
            6 => (u64::MAX / 1_000_000_000 + dice.below(5)).saturating_sub(2),
            _ => dice.below(end),
        };
        ticks.push(tick.min(end - 1));
    }
    ticks.sort_unstable();
    ticks.dedup();
    ticks
}

/// Ticks of the first turns and of the last, for walks that are short.
fn near_ticks(dice: &mut Dice, list: &List, rate: u64) -> Vec<u64> {
    let end = list.end(rate);
    let mut ticks = vec![end, end + dice.below(3), 0];
    for _ in 0..6 {
        let turn = dice.below(20);
        let clip = dice.below(list.clips() as u64 + 1) as usize;
        let far = list.start_tick(rate, turn, clip) + dice.below(3);
        ticks.push(far.saturating_sub(1));
        ticks.push(end.saturating_sub(far));
    }
    ticks
}

// ---------------------------------------------------------------------------------------------------------------
// What is called
// ---------------------------------------------------------------------------------------------------------------

/// Ops 14 and 28 on a list, with room for all starts and without.
fn other_calls(run: &mut Run, dice: &mut Dice, table: &Table, rate: u64) {
    let clips = table.clips;
    let rooms = [
        2 * clips,
        2 * clips,
        2 * clips + 1,
        2 * clips + dice.below(7),
        (2 * clips).saturating_sub(1),
        dice.below(2 * clips + 1),
    ];
    let words = dice.of(&rooms);
    let starts = Call::AllStarts { rate, turn: dice.turn(), out: dice.out(words) };
    run.make(table, &starts, None);
    let clip = dice.below(clips + 1);
    run.make(table, &Call::StartNs { clip }, None);
}

/// A list swept whole, and asked at each of these ticks and at the first that are refused. To one of them it is walked too.
fn swept(run: &mut Run, dice: &mut Dice, lengths: &[u64], rate: u64, ticks: &[u64]) {
    let list = List::new(lengths);
    let table = dice.table(lengths);
    let pairs = sweep(&list, rate, ticks);
    if !ticks.is_empty() {
        let k = dice.below(ticks.len() as u64) as usize;
        assert_eq!(pairs[k], on_at(&list, rate, ticks[k]), "lengths {lengths:?}, rate {rate}, tick {}", ticks[k]);
    }
    for (&tick, &pair) in ticks.iter().zip(&pairs) {
        let call = dice.clip_at(rate, tick);
        run.make(&table, &call, Some(pair));
        if dice.one_in(40) {
            other_calls(run, dice, &table, rate);
        }
    }
    let end = list.end(rate);
    for tick in [end, end + 1, u64::MAX] {
        let call = dice.clip_at(rate, tick);
        run.make(&table, &call, None);
    }
}

/// A list of so few ns that a million turns have some hundred ticks: every tick is asked.
fn every_tick(run: &mut Run, dice: &mut Dice) {
    let ticks = if dice.one_in(2) { dice.any_size(1_500) } else { 1 + dice.below(1_500) };
    let rate = dice.rate();
    // the end is total x rate / 1000
    let most = ((ticks + 1) * 1_000 - 1) / rate;
    let least = (ticks * 1_000) / rate;
    let total = (least + dice.below(most - least + 1)).max(1);
    let clips = 1 + dice.of(&[0, 0, 1, 1, 2, 3, 6]);
    let lengths = dice.split(total, clips);
    let end = List::new(&lengths).end(rate);
    swept(run, dice, &lengths, rate, &(0..end).collect::<Vec<_>>());
}

/// A list of any size up to the largest total, at some hundred ticks of all turns.
fn any_turn(run: &mut Run, dice: &mut Dice) {
    let clips = 1 + dice.of(&[0, 1, 1, 2, 3, 4, 6]);
    let total = match dice.below(6) {
        0 => MOST_NS,
        1 => MOST_NS - dice.any_size(1_000_000),
        2 => (1 + dice.below(7_200)) * 1_000_000_000,
        _ => dice.any_size(MOST_NS),
    };
    let lengths = dice.split(total, clips);
    let rate = dice.rate();
    let ticks = chosen_ticks(dice, &List::new(&lengths), rate, 600);
    swept(run, dice, &lengths, rate, &ticks);
}

/// Many lists, each at a few ticks of its first and last turns. Some hundred turns a tick are the most, so that the walks
/// are short.
fn first_and_last_turns(run: &mut Run, dice: &mut Dice) {
    for _ in 0..20 {
        let most_clips = dice.of(&[6, 6, 6, 6, 6, 6, 6, 60]);
        let clips = dice.any_size(most_clips) as usize;
        let most = dice.of(&[MOST_NS, 100_000_000_000, 10_000_000]);
        let rate = dice.rate();
        let total = dice.any_size(most).max(10_000_000 / rate);
        let lengths = dice.split(total, clips);
        let table = dice.table(&lengths);
        for tick in near_ticks(dice, &List::new(&lengths), rate) {
            let call = dice.clip_at(rate, tick);
            run.make(&table, &call, None);
        }
        other_calls(run, dice, &table, rate);
    }
}

/// One thing of a table is made hostile.
fn break_table(dice: &mut Dice, table: &mut Table) {
    let clips = table.words.len() / CLIP_WORDS;
    let some_clip = dice.below(clips.max(1) as u64) as usize;
    match dice.below(6) {
        // a count: fewer, one too many, or one whose seventeenfold, cut to 64 bits, is within the table
        0 => {
            let wraps = dice.below(table.words.len() as u64 + 1).wrapping_mul(0xf0f0_f0f0_f0f0_f0f1);
            let counts =
                [0, some_clip as u64, clips as u64 + 1, u64::MAX, 1 << 60, u64::MAX / 17 + 1, wraps, wraps, 1 << 32];
            table.clips = dice.of(&counts);
        }
        // a table that is short by a word, or by more
        1 => {
            let left = table.words.len() as u64;
            let gone = if dice.one_in(2) { 1 } else { dice.below(left + 1) };
            table.words.truncate(left.saturating_sub(gone) as usize);
        }
        2 if clips > 0 => {
            let lengths = [LENGTH_LIMIT, LENGTH_LIMIT - 1, u64::MAX, MOST_NS, MOST_NS + 1, dice.roll(), 1 << 63];
            table.words[CLIP_WORDS * some_clip + LENGTH] = dice.of(&lengths);
        }
        // a total of 10^15 ns, or 1 ns more
        3 if clips > 0 => {
            let others: u128 =
                (0..clips).filter(|&k| k != some_clip).map(|k| u128::from(table.words[CLIP_WORDS * k + LENGTH])).sum();
            let full = u128::from(MOST_NS) + u128::from(dice.below(2));
            table.words[CLIP_WORDS * some_clip + LENGTH] = full.saturating_sub(others) as u64;
        }
        // lengths that fit, whose sum is 2^64 and a little
        4 => {
            let most = LENGTH_LIMIT - 1;
            let mut lengths = vec![most; 18];
            lengths.push(((1 << 64) - 18 * u128::from(most)) as u64 + dice.below(MOST_NS));
            *table = dice.table(&lengths);
        }
        // no length at all
        _ => {
            for k in 0..clips {
                table.words[CLIP_WORDS * k + LENGTH] = 0;
            }
        }
    }
}

/// A rate, tick, turn, clip or room is made hostile.
fn break_number(dice: &mut Dice, clips: u64, call: &mut Call) {
    let rates = [0, MOST_RATE + 1, 1 << 32, (1 << 32) + 100, u64::MAX, dice.roll()];
    let other_rate = dice.of(&rates);
    let first = dice.one_in(2);
    match call {
        Call::ClipAt { rate, tick } | Call::SinceAndLeft { rate, tick } => {
            let ticks =
                [u64::MAX, u64::MAX - 1, 1 << 63, 90_000_000_000_000_000, 89_999_999_999_999_999, dice.roll(), 0];
            if first {
                *rate = other_rate;
            } else {
                *tick = dice.of(&ticks);
            }
        }
        Call::AllStarts { rate, turn, out } => {
            if first {
                *rate = other_rate;
            } else if dice.one_in(2) {
                *turn = dice.of(&[TURNS, TURNS - 1, u64::MAX, 1 << 32, (1 << 32) + 5]);
            } else {
                out.truncate(dice.below(out.len() as u64 + 1) as usize);
            }
        }
        Call::StartNs { clip } => *clip = dice.of(&[clips, clips.wrapping_add(1), u64::MAX, 1 << 32, 1 << 63]),
    }
}

/// Calls with up to four things wrong, or right all the same.
fn hostile(run: &mut Run, dice: &mut Dice) {
    for _ in 0..250 {
        let clips = dice.below(5) as usize;
        let most = dice.of(&[MOST_NS, 20_000_000_000, 1_000_000]);
        let total = dice.any_size(most);
        let lengths = if clips == 0 { Vec::new() } else { dice.split(total, clips) };
        let mut table = dice.table(&lengths);
        for _ in 0..dice.below(3) {
            break_table(dice, &mut table);
        }
        // a tick of the first turn or of the last, of the list that it is now
        let list = list_of(&table).unwrap_or_else(|_| List::new(&lengths));
        let rate = dice.rate();
        let far = dice.below(list.start_tick(rate, 1, 0) + 1);
        let tick = if dice.one_in(2) { far } else { list.end(rate).saturating_sub(far) };
        let room = dice.of(&[2, 2, 3]) * list.clips() as u64 + dice.below(3);
        let mut call = match dice.below(8) {
            0..=2 => Call::ClipAt { rate, tick },
            3 | 4 => Call::SinceAndLeft { rate, tick },
            5 | 6 => Call::AllStarts { rate, turn: dice.turn(), out: dice.out(room) },
            _ => Call::StartNs { clip: dice.below(list.clips() as u64 + 1) },
        };
        for _ in 0..dice.below(3) {
            break_number(dice, table.clips, &mut call);
        }
        run.make(&table, &call, None);
    }
}

/// 01's own list at rate 100: every tick of turns 0 and 1, and of the last turn; then the largest list that a record can
/// have.
fn known_lists(run: &mut Run, dice: &mut Dice) {
    let sheet = [9_009_000_000, 4_000_000, 3_003_000_000];
    let list = List::new(&sheet);
    let first = 0..list.start_tick(100, 2, 0);
    let last = list.start_tick(100, TURNS - 1, 0)..list.end(100);
    swept(run, dice, &sheet, 100, &first.chain(last).collect::<Vec<_>>());
    let clips = MOST_WORDS / CLIP_WORDS;
    let lengths = dice.split(MOST_NS, clips);
    let rate = dice.rate();
    let mut table = dice.table(&lengths);
    table.words.truncate(CLIP_WORDS * clips);
    for tick in near_ticks(dice, &List::new(&lengths), rate) {
        let call = dice.clip_at(rate, tick);
        run.make(&table, &call, None);
    }
    for words in [2 * clips - 1, 2 * clips, MOST_WORDS] {
        let starts = Call::AllStarts { rate, turn: dice.turn(), out: dice.out(words as u64) };
        run.make(&table, &starts, None);
    }
    for clip in [1, clips - 1, clips] {
        run.make(&table, &Call::StartNs { clip: clip as u64 }, None);
    }
}

fn main() {
    let (mut run, mut dice) = Run::of_arguments("ticks");
    // a short run has more use for other lists
    if run.count >= 50_000 {
        known_lists(&mut run, &mut dice);
    }
    while !run.done() {
        match dice.below(16) {
            0..=6 => every_tick(&mut run, &mut dice),
            7..=9 => any_turn(&mut run, &mut dice),
            10..=12 => first_and_last_turns(&mut run, &mut dice),
            _ => hostile(&mut run, &mut dice),
        }
    }
    run.end();
}
