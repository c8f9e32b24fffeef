//! Traces of step searches: document 02's Orders 1, 2, 7, 8, 9 and 13. A [`Trace`] reads bytes, a [`TraceBuffer`] writes into them, a
//! [`Recorder`] searches and writes.
use crate::{face, Cone, Found, Refusal, Rule, Settings};

/// The most records that a trace can hold.
pub const MOST_RECORDS: usize = 4096;

/// The largest file that the programs `replay`, `rescue`, `thin` and `sheet` take. A recorder's buffer of this length never grows above it.
pub const FILE_BYTES: usize = 65_536;

/// The edition of a new trace. Every trace of it or of an earlier one, from 1 on, is known.
pub const NEWEST_EDITION: u32 = 3;

/// Bytes that are a trace: step searches, in the order in which they were recorded.
///
/// ```
/// use spindle::{Cone, Recorder, Trace};
///
/// let mut bytes = [0; 400];
/// let mut recorder = Recorder::create(&mut bytes)?;
/// let (mut dual, mut primal) = ([0.0; 3], [0.0; 3]);
/// let (dz, ds, z, s) = ([0.5, -2.0, 0.25], [0.25, -4.0, 0.5], [-1.0, 0.5, 1.0], [-1.0, 0.5, 1.0]);
/// let (_, found) = recorder.step_length(&Cone::exponential(), &dz, &ds, &z, &s, &mut dual, &mut primal, 1.0)?;
///
/// // these bytes go into a file, and come back from there
/// let trace = Trace::open(recorder.bytes())?;
/// for record in trace {
///     assert_eq!((record.z(), record.ds(), record.primal()), (&z[..], &ds[..], found));
/// }
/// # Ok::<(), spindle::Refusal>(())
/// ```
///
/// Opening a trace walks over the heads of all its records; reading a record afterwards touches that record alone.
#[derive(Clone, Copy, Debug)]
pub struct Trace<'a> {
    bytes: &'a [u8],
    edition: u32,
    records: u32,
}

impl<'a> Trace<'a> {
    /// Judges all of the bytes. [`Refusal::BadTrace`] if they are no trace, whatever they are.
    pub fn open(bytes: &'a [u8]) -> Result<Trace<'a>, Refusal> {
        let out = unsafe { face::spindle_trace_open(bytes.as_ptr(), bytes.len()) };
        Refusal::check(out.code)?;
        Ok(Trace { bytes, edition: out.edition, records: out.records })
    }

    /// Which default settings the trace has, and whether its records have their cone's rule: step 0.8 in edition 1, 0.5 in editions 2 and
    /// 3; edition 3 has the rule, and cones of the other two are under rule 1. A new trace is of edition [`NEWEST_EDITION`].
    pub fn edition(&self) -> u32 {
        self.edition
    }

    /// How many records there are, at most [`MOST_RECORDS`].
    pub fn len(&self) -> usize {
        self.records as usize
    }

    /// Whether there is none.
    pub fn is_empty(&self) -> bool {
        self.records == 0
    }

    /// The bytes of the trace.
    pub fn bytes(&self) -> &'a [u8] {
        self.bytes
    }

    /// Record i, counted from 0; none from [`Trace::len`] on.
    pub fn get(&self, i: usize) -> Option<Recorded> {
        if i >= self.len() {
            return None;
        }
        // the trace was judged: where record i begins, the list says
        let at = word(self.bytes, list_of(self.bytes) + 8 * i);
        let out = unsafe { face::spindle_record_at(self.bytes.as_ptr(), self.bytes.len(), self.edition, at) };
        (out.code == 0).then_some(out)
    }

    /// Runs the search of every record again and compares both steps and both counts, bit for bit. The offsets of the records that differ
    /// stand in `at` afterwards, in the order of the trace, and are handed back with the counts; `at` is left alone behind them.
    /// [`Refusal::NoRoom`] where it has fewer places than there are such records, and then nothing was written: [`Trace::len`] places are
    /// enough.
    ///
    /// A record whose cone, numbers or settings a search refuses differs.
    ///
    /// ```
    /// # use spindle::{Cone, Recorder, Trace};
    /// # let mut bytes = [0; 400];
    /// # let mut recorder = Recorder::create(&mut bytes)?;
    /// # let (mut dual, mut primal) = ([0.0; 3], [0.0; 3]);
    /// # let (dz, ds, z, s) = ([0.5, -2.0, 0.25], [0.25, -4.0, 0.5], [-1.0, 0.5, 1.0], [-1.0, 0.5, 1.0]);
    /// recorder.step_length(&Cone::exponential(), &dz, &ds, &z, &s, &mut dual, &mut primal, 1.0)?;
    /// let mut at = [0; 16];
    /// let replay = recorder.trace().replay(&mut at)?;
    /// assert_eq!((replay.records, replay.same, replay.differ), (1, 1, &[][..]));
    /// # Ok::<(), spindle::Refusal>(())
    /// ```
    pub fn replay<'b>(&self, at: &'b mut [u64]) -> Result<Replay<'b>, Refusal> {
        let out = unsafe { face::spindle_replay(self.bytes.as_ptr(), self.bytes.len(), at.as_mut_ptr(), at.len()) };
        Refusal::check(out.code)?;
        let at: &'b [u64] = at;
        let differ = at.get(..out.differ as usize).unwrap_or(at);
        Ok(Replay { records: out.records as usize, same: out.same as usize, differ })
    }

    /// The records in their order.
    pub fn iter(&self) -> Records<'a> {
        Records { trace: *self, next: 0, end: self.len() }
    }
}

impl<'a> IntoIterator for Trace<'a> {
    type Item = Recorded;
    type IntoIter = Records<'a>;

    fn into_iter(self) -> Records<'a> {
        self.iter()
    }
}

impl<'a> IntoIterator for &Trace<'a> {
    type Item = Recorded;
    type IntoIter = Records<'a>;

    fn into_iter(self) -> Records<'a> {
        self.iter()
    }
}

/// The records of a [`Trace`], one by one, from either end.
#[derive(Clone, Debug)]
pub struct Records<'a> {
    trace: Trace<'a>,
    next: usize,
    end: usize,
}

impl Iterator for Records<'_> {
    type Item = Recorded;

    fn next(&mut self) -> Option<Recorded> {
        if self.next == self.end {
            return None;
        }
        self.next += 1;
        self.trace.get(self.next - 1)
    }

    fn nth(&mut self, n: usize) -> Option<Recorded> {
        self.next = self.next.saturating_add(n).min(self.end);
        self.next()
    }

    fn size_hint(&self) -> (usize, Option<usize>) {
        (self.end - self.next, Some(self.end - self.next))
    }
}

impl DoubleEndedIterator for Records<'_> {
    fn next_back(&mut self) -> Option<Recorded> {
        if self.next == self.end {
            return None;
        }
        self.end -= 1;
        self.trace.get(self.end)
    }
}

impl ExactSizeIterator for Records<'_> {}

impl core::iter::FusedIterator for Records<'_> {}

/// What the replay of a [`Trace`] found: how many records it has, how many are the same, and where the others begin.
#[derive(Clone, Copy, Debug, PartialEq, Eq)]
pub struct Replay<'a> {
    /// All records of the trace.
    pub records: usize,
    /// Those whose search answers now what the record holds.
    pub same: usize,
    /// The offsets of the others, in the order of the trace.
    pub differ: &'a [u64],
}

/// Makes a trace of what is left of one: walks from byte 0, keeps every whole record, byte for byte, until the first that is cut or
/// malformed, and writes them to `output` with a good list and trailer behind them. A good trace comes out byte for byte. Any bytes are
/// taken, none at all too.
///
/// The new trace has the edition that the input ends in, if it ends in a known edition and `BACK`, and else `edition`, which is not looked
/// at otherwise.
///
/// [`Refusal::BadTrace`] where `edition` is needed and not known. [`Refusal::NoRoom`] where `output` is too short. Then nothing was
/// written; behind the new trace it is left alone.
///
/// ```
/// # use spindle::{rescue, Cone, Recorder, NEWEST_EDITION};
/// # let mut bytes = [0; 400];
/// # let mut recorder = Recorder::create(&mut bytes)?;
/// # let (mut dual, mut primal) = ([0.0; 3], [0.0; 3]);
/// # let (dz, ds, z, s) = ([0.5, -2.0, 0.25], [0.25, -4.0, 0.5], [-1.0, 0.5, 1.0], [-1.0, 0.5, 1.0]);
/// recorder.step_length(&Cone::exponential(), &dz, &ds, &z, &s, &mut dual, &mut primal, 1.0)?;
/// let whole = recorder.bytes();
///
/// // the power went while the trailer was written
/// let mut output = [0; 400];
/// let rescued = rescue(&whole[..whole.len() - 7], &mut output, NEWEST_EDITION)?;
/// assert_eq!(rescued.trace.bytes(), whole);
/// assert_eq!((rescued.trace.len(), rescued.dropped, rescued.right), (1, 21, false));
/// # Ok::<(), spindle::Refusal>(())
/// ```
pub fn rescue<'b>(input: &[u8], output: &'b mut [u8], edition: u32) -> Result<Rescue<'b>, Refusal> {
    let out = unsafe { face::spindle_rescue(input.as_ptr(), input.len(), output.as_mut_ptr(), output.len(), edition) };
    Refusal::check(out.code)?;
    let output: &'b [u8] = output;
    let trace = Trace::open(output.get(..out.length as usize).unwrap_or(output))?;
    Ok(Rescue { trace, dropped: out.dropped, right: out.right })
}

/// What [`rescue`] made: the new trace, whose records are those that were kept, and what it found.
#[derive(Clone, Copy, Debug)]
pub struct Rescue<'a> {
    /// The new trace, at the front of the output.
    pub trace: Trace<'a>,
    /// How many bytes of the input are not in it.
    pub dropped: u64,
    /// Whether the input was a good trace, so that its list and trailer did not have to be rebuilt.
    pub right: bool,
}

/// Writes a trace to `output` without the records that are equal to an earlier one in all their bytes: the first of each kind, in their old
/// order, and the edition as it was. Thinning it again drops none.
///
/// [`Refusal::NoRoom`] where `output` is too short; as many bytes as `trace` has are always enough. Then nothing was written; behind the
/// new trace it is left alone.
///
/// ```
/// # use spindle::{thin, Cone, Recorder, Trace};
/// # let mut bytes = [0; 800];
/// # let mut recorder = Recorder::create(&mut bytes)?;
/// # let (mut dual, mut primal) = ([0.0; 3], [0.0; 3]);
/// # let (dz, ds, z, s) = ([0.5, -2.0, 0.25], [0.25, -4.0, 0.5], [-1.0, 0.5, 1.0], [-1.0, 0.5, 1.0]);
/// // the same search three times
/// for _ in 0..3 {
///     recorder.step_length(&Cone::exponential(), &dz, &ds, &z, &s, &mut dual, &mut primal, 1.0)?;
/// }
/// let mut output = [0; 800];
/// let thinned = thin(recorder.trace(), &mut output)?;
/// assert_eq!((thinned.trace.len(), thinned.dropped), (1, 2));
/// # Ok::<(), spindle::Refusal>(())
/// ```
pub fn thin<'b>(trace: Trace<'_>, output: &'b mut [u8]) -> Result<Thin<'b>, Refusal> {
    let bytes = trace.bytes();
    let out = unsafe { face::spindle_thin(bytes.as_ptr(), bytes.len(), output.as_mut_ptr(), output.len()) };
    thinned(out, output)
}

/// Thins a trace inside its buffer, as [`thin`] does into another one: the new trace stands at the front, and all bytes behind it are zero.
///
/// [`Refusal::BadTrace`] where `bytes` are no trace. Then they are as they were.
pub fn thin_in_place(bytes: &mut [u8]) -> Result<Thin<'_>, Refusal> {
    let out = unsafe { face::spindle_thin_in_place(bytes.as_mut_ptr(), bytes.len()) };
    thinned(out, bytes)
}

fn thinned(out: face::Thinned, bytes: &mut [u8]) -> Result<Thin<'_>, Refusal> {
    Refusal::check(out.code)?;
    let bytes: &[u8] = bytes;
    let trace = Trace::open(bytes.get(..out.length as usize).unwrap_or(bytes))?;
    Ok(Thin { trace, dropped: out.dropped as usize })
}

/// What [`thin`] or [`thin_in_place`] made: the new trace, whose records are those that were kept.
#[derive(Clone, Copy, Debug)]
pub struct Thin<'a> {
    /// The new trace.
    pub trace: Trace<'a>,
    /// How many records of the old one are not in it.
    pub dropped: usize,
}

/// A record of a trace: what a step search was given, and what it answered. Numbers that a search would refuse may stand in it.
#[derive(Clone, Copy)]
#[repr(C)]
pub struct Recorded {
    code: u32,
    flag: u32,
    at: u64,
    next: u64,
    cone: Cone,
    settings: Settings,
    dz: [f64; 64],
    ds: [f64; 64],
    z: [f64; 64],
    s: [f64; 64],
    steps: face::Steps,
}

// the C struct's size
const _: () = assert!(core::mem::size_of::<Recorded>() == 2400);

impl Recorded {
    /// The byte of the trace at which the record begins.
    pub fn offset(&self) -> u64 {
        self.at
    }

    /// The byte behind the record: where the next one begins, or, behind the last one, the list.
    pub fn next_offset(&self) -> u64 {
        self.next
    }

    /// The cone of the search, judged, under the rule that the record has: [`Refusal::BadCone`] where that is none, or its exponents are
    /// none of a cone.
    pub fn cone(&self) -> Result<Cone, Refusal> {
        // kinds 1 and 2 are recorded with the dims 3 and 0, which they do not use
        let (dim1, dim2) = if self.cone.kind == 3 { (self.cone.dim1, self.cone.dim2) } else { (0, 0) };
        Cone { dim1, dim2, ..self.cone }.judged()
    }

    /// The number of the rule that the record's cone is under: 1 in a trace of edition 1 or 2; in one of edition 3 whatever the record has,
    /// which may be no rule's.
    pub fn rule(&self) -> u32 {
        self.cone.rule
    }

    /// The cone's kind: 1 exponential, 2 power, 3 generalized.
    pub fn kind(&self) -> u32 {
        self.cone.kind
    }

    /// The cone's exponents, whatever they are: none, one, or as many as the first dim.
    pub fn exponents(&self) -> &[f64] {
        let n = match self.cone.kind {
            2 => 1,
            3 => self.cone.dim1 as usize,
            _ => 0,
        };
        &self.cone.exps[..n]
    }

    /// Whether the search ran with the default settings of the trace's edition, so that only its start was kept.
    pub fn by_default(&self) -> bool {
        self.flag == 1
    }

    /// The settings of the search, those that [`Recorded::by_default`] stands for included.
    pub fn settings(&self) -> Settings {
        self.settings
    }

    /// The direction of z.
    pub fn dz(&self) -> &[f64] {
        &self.dz[..self.cone.numel()]
    }

    /// The direction of s.
    pub fn ds(&self) -> &[f64] {
        &self.ds[..self.cone.numel()]
    }

    /// The point of the dual side.
    pub fn z(&self) -> &[f64] {
        &self.z[..self.cone.numel()]
    }

    /// The point of the primal side.
    pub fn s(&self) -> &[f64] {
        &self.s[..self.cone.numel()]
    }

    /// What the search of the dual side found.
    pub fn dual(&self) -> Found {
        self.steps.found().0
    }

    /// What the search of the primal side found.
    pub fn primal(&self) -> Found {
        self.steps.found().1
    }
}

impl core::fmt::Debug for Recorded {
    fn fmt(&self, f: &mut core::fmt::Formatter<'_>) -> core::fmt::Result {
        f.debug_struct("Recorded")
            .field("offset", &self.offset())
            .field("kind", &self.kind())
            .field("rule", &self.rule())
            .field("exponents", &self.exponents())
            .field("by_default", &self.by_default())
            .field("settings", &self.settings())
            .field("dz", &self.dz())
            .field("ds", &self.ds())
            .field("z", &self.z())
            .field("s", &self.s())
            .field("dual", &self.dual())
            .field("primal", &self.primal())
            .finish()
    }
}

/// A trace in the caller's buffer, to which records can be added, each in the same time. The buffer's front is a trace once [`TraceBuffer::bytes`] or
/// [`TraceBuffer::trace`] has sealed it; until then the records stand there, and [`rescue`] would keep them. Bytes behind the trace stay as
/// they were.
#[derive(Debug)]
pub struct TraceBuffer<'a> {
    bytes: &'a mut [u8],
    // the place behind the records, and the length of the trace once they are sealed
    at: usize,
    sealed: Option<usize>,
    edition: u32,
    records: u32,
    defaults: Settings,
}

/// The number of eight bytes at a place of a trace that was judged.
fn word(bytes: &[u8], place: usize) -> usize {
    let mut eight = [0; 8];
    eight.copy_from_slice(&bytes[place..place + 8]);
    u64::from_le_bytes(eight) as usize
}

/// Where the list of a trace stands, which is where its records end: the trailer's first number.
fn list_of(trace: &[u8]) -> usize {
    word(trace, trace.len() - TRAILER)
}

/// The list's bytes for one record, and the trailer's.
const ENTRY: usize = 8;
const TRAILER: usize = 20;

/// What a record by default means in a trace of the edition, as the library itself reads one: the table of editions stands there alone.
fn defaults(edition: u32) -> Settings {
    let (mut bytes, zeros) = ([0; 160], [0.0; 3]);
    let (x, n) = (zeros.as_ptr(), zeros.len());
    // every edition keeps a cone of rule 1
    let cone = Cone { rule: Rule::One as u32, ..Cone::exponential() };
    unsafe {
        face::spindle_record_put(
            bytes.as_mut_ptr(),
            bytes.len(),
            0,
            edition,
            cone,
            1,
            Settings::house(1.0),
            x,
            n,
            x,
            n,
            x,
            n,
            x,
            n,
            face::Steps::default(),
        );
        face::spindle_record_at(bytes.as_ptr(), bytes.len(), edition, 0).settings
    }
}

impl<'a> TraceBuffer<'a> {
    /// Begins with the trace of no record, 20 bytes. [`Refusal::NoRoom`] where the buffer has fewer.
    pub fn create(bytes: &'a mut [u8]) -> Result<TraceBuffer<'a>, Refusal> {
        let out = unsafe { face::spindle_trace_create(bytes.as_mut_ptr(), bytes.len()) };
        Refusal::check(out.code)?;
        TraceBuffer::open(bytes, out.length as usize)
    }

    /// Goes on with the trace that the first `used` bytes are. [`Refusal::BadTrace`] if they are none, or the buffer is shorter.
    pub fn open(bytes: &'a mut [u8], used: usize) -> Result<TraceBuffer<'a>, Refusal> {
        let Trace { bytes: trace, edition, records } = Trace::open(bytes.get(..used).ok_or(Refusal::BadTrace)?)?;
        let at = list_of(trace);
        Ok(TraceBuffer { bytes, at, sealed: Some(used), edition, records, defaults: defaults(edition) })
    }

    /// Adds a record of another trace; every NaN of it is written as 7FF8000000000000. A search by default keeps its settings: where
    /// this trace's edition means others, they are written outright. Its cone keeps its rule: [`Refusal::BadTrace`] where that is not rule
    /// 1 and this trace is of edition 1 or 2, which have no place for it. [`Refusal::NoRoom`] where the buffer has no room for it, or
    /// [`MOST_RECORDS`] are there.
    pub fn append(&mut self, record: &Recorded) -> Result<(), Refusal> {
        self.put(&record.cone, record.flag, record.settings, [record.dz(), record.ds(), record.z(), record.s()], record.steps)
    }

    // By default only what this edition means by it: an older one has another default than the house.
    fn put(&mut self, cone: &Cone, flag: u32, settings: Settings, [dz, ds, z, s]: [&[f64]; 4], steps: face::Steps) -> Result<(), Refusal> {
        let meant = (settings.step, settings.smallest) == (self.defaults.step, self.defaults.smallest);
        let flag = if meant { flag } else { 0 };
        let out = unsafe {
            face::spindle_record_put(
                self.bytes.as_mut_ptr(),
                self.room(),
                self.at,
                self.edition,
                *cone,
                flag,
                settings,
                dz.as_ptr(),
                dz.len(),
                ds.as_ptr(),
                ds.len(),
                z.as_ptr(),
                z.len(),
                s.as_ptr(),
                s.len(),
                steps,
            )
        };
        Refusal::check(out.code)?;
        self.at = out.length as usize;
        self.sealed = None;
        self.records += 1;
        Ok(())
    }

    // Up to where one record more may stand, so that a seal has room behind it: nowhere, if there are as many as a trace may have.
    fn room(&self) -> usize {
        let behind = ENTRY * (self.records as usize + 1) + TRAILER;
        if self.records as usize == MOST_RECORDS {
            self.at
        } else {
            self.bytes.len().saturating_sub(behind).max(self.at)
        }
    }

    /// The bytes of the trace: what goes into a file. Their count is the `used` of [`TraceBuffer::open`].
    pub fn bytes(&mut self) -> &[u8] {
        let used = match self.sealed {
            Some(used) => used,
            // every put left room for it
            None => unsafe { face::spindle_trace_seal(self.bytes.as_mut_ptr(), self.bytes.len(), self.at, self.edition).length as usize },
        };
        self.sealed = Some(used);
        &self.bytes[..used]
    }

    /// The trace as it stands now.
    pub fn trace(&mut self) -> Trace<'_> {
        let (edition, records) = (self.edition, self.records);
        Trace { bytes: self.bytes(), edition, records }
    }

    /// The records' bytes, without list and trailer: a host may write them to a file as they come, and the rest of [`TraceBuffer::bytes`] at
    /// the end.
    pub fn records(&self) -> &[u8] {
        &self.bytes[..self.at]
    }
}

/// Searches steps, and records each search that was done in a trace: the very arguments and the very answer, since nobody but the recorder
/// holds them in between. A search that is refused is not recorded.
#[derive(Debug)]
pub struct Recorder<'a> {
    buffer: TraceBuffer<'a>,
}

impl<'a> Recorder<'a> {
    /// A recorder into a new trace: see [`TraceBuffer::create`].
    pub fn create(bytes: &'a mut [u8]) -> Result<Recorder<'a>, Refusal> {
        Ok(Recorder { buffer: TraceBuffer::create(bytes)? })
    }

    /// A recorder that goes on with the trace of the first `used` bytes: see [`TraceBuffer::open`].
    pub fn open(bytes: &'a mut [u8], used: usize) -> Result<Recorder<'a>, Refusal> {
        Ok(Recorder { buffer: TraceBuffer::open(bytes, used)? })
    }

    /// [`Cone::step_length`] with the house's settings, [`Settings::house`] of `start`, recorded as a search by default. Into a trace of an
    /// older edition, which means other settings by that, they are recorded outright.
    ///
    /// [`Refusal::NoRoom`] where the search could be made and not recorded: then as at every refusal nothing that was passed has changed, and
    /// [`Cone::step_length`] makes the search without a record. So it is with [`Refusal::BadTrace`], where the recorder goes on with a
    /// trace of edition 1 or 2 and the cone is under rule 2: such a trace keeps cones of rule 1 alone, and every cone that rule 2 takes can
    /// be put under it ([`Cone::under`]) with the same answers.
    #[allow(clippy::too_many_arguments)]
    pub fn step_length(
        &mut self, cone: &Cone, dz: &[f64], ds: &[f64], z: &[f64], s: &[f64], dual_point: &mut [f64], primal_point: &mut [f64], start: f64,
    ) -> Result<(Found, Found), Refusal> {
        self.search(cone, 1, Settings::house(start), [dz, ds, z, s], dual_point, primal_point)
    }

    /// The same with settings that are told outright, and recorded so.
    #[allow(clippy::too_many_arguments)]
    pub fn step_length_with(
        &mut self, cone: &Cone, dz: &[f64], ds: &[f64], z: &[f64], s: &[f64], dual_point: &mut [f64], primal_point: &mut [f64],
        settings: Settings,
    ) -> Result<(Found, Found), Refusal> {
        self.search(cone, 0, settings, [dz, ds, z, s], dual_point, primal_point)
    }

    fn search(
        &mut self, cone: &Cone, flag: u32, settings: Settings, [dz, ds, z, s]: [&[f64]; 4], dual_point: &mut [f64],
        primal_point: &mut [f64],
    ) -> Result<(Found, Found), Refusal> {
        // The points are tried out aside, since the trace may have no room. No cone has 65 numbers: a longer slice is refused as one of 65
        // is.
        let (mut dual, mut primal) = ([0.0; 65], [0.0; 65]);
        let (dual, primal) = (&mut dual[..dual_point.len().min(65)], &mut primal[..primal_point.len().min(65)]);
        let steps = cone.steps(dz, ds, z, s, dual, primal, settings)?;
        self.buffer.put(cone, flag, settings, [dz, ds, z, s], steps)?;
        dual_point.copy_from_slice(dual);
        primal_point.copy_from_slice(primal);
        Ok(steps.found())
    }

    /// Begins a new trace in the same buffer, of the newest edition: once the bytes of the old one are in a file, after [`Refusal::NoRoom`].
    /// A recorder whose buffer has [`FILE_BYTES`] bytes makes files that every program takes.
    pub fn roll(self) -> Recorder<'a> {
        let buffer =
            TraceBuffer { at: 0, sealed: None, edition: NEWEST_EDITION, records: 0, defaults: defaults(NEWEST_EDITION), ..self.buffer };
        Recorder { buffer }
    }

    /// The records' bytes, without list and trailer: see [`TraceBuffer::records`].
    pub fn records(&self) -> &[u8] {
        self.buffer.records()
    }

    /// The bytes of the trace: see [`TraceBuffer::bytes`].
    pub fn bytes(&mut self) -> &[u8] {
        self.buffer.bytes()
    }

    /// The trace as it stands now.
    pub fn trace(&mut self) -> Trace<'_> {
        self.buffer.trace()
    }
}
