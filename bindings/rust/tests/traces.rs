//! Traces: what a recorder searched is what a trace reads, for every kind and both ways to give settings; every refusal, and bytes that
//! stay.
use spindle::{
    rescue, thin, thin_in_place, Cone, Found, Recorded, Recorder, Refusal, Rule, Settings, Trace, TraceBuffer, Trouble, FILE_BYTES,
    MOST_RECORDS, NEWEST_EDITION,
};

/// A cone with directions and points for a search.
struct Search {
    cone: Cone,
    dz: Vec<f64>,
    ds: Vec<f64>,
    z: Vec<f64>,
    s: Vec<f64>,
}

fn searches() -> Vec<Search> {
    searches_under(Rule::NEWEST)
}

fn searches_under(rule: Rule) -> Vec<Search> {
    [Cone::exponential(), Cone::power(0.3).unwrap(), Cone::generalized(&[0.25, 0.75], 2).unwrap()]
        .into_iter()
        .map(|cone| {
            let cone = cone.under(rule).unwrap();
            let n = cone.numel();
            let (mut z, mut s) = (vec![0.0; n], vec![0.0; n]);
            cone.unit_initialization(&mut z, &mut s).unwrap();
            let row = |by: f64| (0..n).map(|i| by * (i as f64 - 1.5)).collect::<Vec<_>>();
            Search { cone, dz: row(-2.0), ds: row(3.0), z, s }
        })
        .collect()
}

/// What a call left: its answer, the dual point, the primal point.
type Left = (Result<(Found, Found), Refusal>, Vec<f64>, Vec<f64>);

const OUTRIGHT: Settings = Settings { start: 0.9, step: 0.7, smallest: 1e-5 };

impl Search {
    /// The search without a record.
    fn plain(&self, settings: Settings) -> Left {
        let n = self.cone.numel();
        let (mut dual, mut primal) = (vec![0.0; n], vec![0.0; n]);
        let found = self.cone.step_length(&self.dz, &self.ds, &self.z, &self.s, &mut dual, &mut primal, settings);
        (found, dual, primal)
    }

    /// The same through a recorder: with the house's settings for this start, or with OUTRIGHT.
    fn recorded(&self, to: &mut Recorder, start: Option<f64>) -> Left {
        let n = self.cone.numel();
        let (mut dual, mut primal) = (vec![7.0; n], vec![8.0; n]);
        let (cone, dz, ds, z, s) = (&self.cone, &self.dz, &self.ds, &self.z, &self.s);
        let found = match start {
            Some(start) => to.step_length(cone, dz, ds, z, s, &mut dual, &mut primal, start),
            None => to.step_length_with(cone, dz, ds, z, s, &mut dual, &mut primal, OUTRIGHT),
        };
        (found, dual, primal)
    }

    fn is(&self, record: &Recorded, by_default: bool, settings: Settings) {
        assert_eq!(record.cone(), Ok(self.cone));
        assert_eq!((record.by_default(), record.settings()), (by_default, settings));
        assert_eq!((record.dz(), record.ds(), record.z(), record.s()), (&self.dz[..], &self.ds[..], &self.z[..], &self.s[..]));
        assert_eq!(Ok((record.dual(), record.primal())), self.plain(settings).0);
    }
}

/// A trace of each search, twice: by default and outright.
fn bytes_of_all() -> Vec<u8> {
    bytes_of(NEWEST_EDITION, Rule::NEWEST)
}

/// The trace with no record, of the edition: list, count, edition, `BACK`.
fn empty(bytes: &mut [u8], edition: u8) -> usize {
    let used = TraceBuffer::create(bytes).unwrap().bytes().len();
    bytes[used - 8] = edition;
    used
}

fn bytes_of(edition: u32, rule: Rule) -> Vec<u8> {
    let mut bytes = vec![0; 4000];
    let used = empty(&mut bytes, edition as u8);
    let mut recorder = Recorder::open(&mut bytes, used).unwrap();
    for search in searches_under(rule) {
        search.recorded(&mut recorder, Some(1.0)).0.unwrap();
        search.recorded(&mut recorder, None).0.unwrap();
    }
    recorder.bytes().to_vec()
}

#[test]
fn what_was_searched_is_what_is_read() {
    let mut bytes = vec![0xA5; 4000];
    let mut recorder = Recorder::create(&mut bytes).unwrap();
    assert_eq!((recorder.bytes().len(), recorder.trace().len(), recorder.trace().is_empty()), (20, 0, true));
    for search in searches() {
        assert_eq!(search.recorded(&mut recorder, Some(0.5)), search.plain(Settings::house(0.5)));
        assert_eq!(search.recorded(&mut recorder, None), search.plain(OUTRIGHT));
    }
    let used = recorder.bytes().len();
    let trace = recorder.trace();
    assert_eq!((trace.len(), trace.edition(), trace.bytes().len()), (6, NEWEST_EDITION, used));
    for (i, record) in trace.iter().enumerate() {
        let settings = if i % 2 == 0 { Settings::house(0.5) } else { OUTRIGHT };
        searches()[i / 2].is(&record, i % 2 == 0, settings);
    }
    assert!(bytes[used..].iter().all(|&b| b == 0xA5), "bytes behind the trace");

    // and goes on with it later
    let mut recorder = Recorder::open(&mut bytes, used).unwrap();
    searches()[1].recorded(&mut recorder, Some(0.25)).0.unwrap();
    let last = recorder.trace().iter().next_back().unwrap();
    searches()[1].is(&last, true, Settings::house(0.25));
    assert_eq!(recorder.trace().len(), 7);
}

#[test]
fn a_recorder_rolls_to_the_next_file() {
    let mut bytes = vec![0xA5; FILE_BYTES];
    let mut recorder = Recorder::create(&mut bytes).unwrap();
    let (search, mut files) = (&searches()[2], Vec::new());
    for i in 0..1000 {
        let start = 0.5 + f64::from(i) / 4096.0;
        let mut found = search.recorded(&mut recorder, Some(start));
        if found.0 == Err(Refusal::NoRoom) {
            // what was recorded and not sealed is what a rescue keeps
            let unsealed = recorder.records().to_vec();
            let file = recorder.bytes().to_vec();
            let mut output = vec![0; FILE_BYTES];
            let rescued = rescue(&unsealed, &mut output, NEWEST_EDITION).unwrap();
            assert_eq!((rescued.trace.bytes(), rescued.dropped), (&file[..], 0));
            files.push(file);
            recorder = recorder.roll();
            assert_eq!((recorder.bytes().len(), recorder.trace().len()), (20, 0));
            found = search.recorded(&mut recorder, Some(start));
        }
        assert_eq!(found, search.plain(Settings::house(start)));
    }
    files.push(recorder.bytes().to_vec());
    assert!(files.len() > 2 && files.iter().all(|file| file.len() <= FILE_BYTES));
    // one record more would not have had room
    assert!(files[..files.len() - 1].iter().all(|file| FILE_BYTES - file.len() < 204 + 8));
    let starts: Vec<_> =
        files.iter().flat_map(|file| Trace::open(file).unwrap().into_iter()).map(|record| record.settings().start).collect();
    assert_eq!(starts, (0..1000).map(|i| 0.5 + f64::from(i) / 4096.0).collect::<Vec<_>>());
    for file in &files {
        let trace = Trace::open(file).unwrap();
        let ends: Vec<_> = trace.iter().map(|record| record.next_offset()).collect();
        assert_eq!(trace.iter().skip(1).map(|record| record.offset()).collect::<Vec<_>>(), ends[..ends.len() - 1]);
    }
}

#[test]
fn records_by_number_and_one_by_one() {
    let bytes = bytes_of_all();
    let trace = Trace::open(&bytes).unwrap();
    let offsets: Vec<_> = trace.iter().map(|r| r.offset()).collect();
    assert_eq!(offsets, [0, 156, 328, 492, 672, 876]);
    assert_eq!((0..6).map(|i| trace.get(i).unwrap().offset()).collect::<Vec<_>>(), offsets);
    assert!(trace.get(6).is_none() && trace.get(usize::MAX).is_none() && trace.get(1 << 32).is_none());
    assert_eq!(trace.iter().map(|r| r.kind()).collect::<Vec<_>>(), [1, 1, 2, 2, 3, 3]);
    assert_eq!(trace.iter().map(|r| r.exponents().len()).collect::<Vec<_>>(), [0, 0, 1, 1, 2, 2]);

    let mut records = trace.iter();
    assert_eq!(records.len(), 6);
    assert_eq!(records.nth(1).unwrap().offset(), 156);
    assert_eq!(records.next_back().unwrap().offset(), 876);
    assert_eq!(records.by_ref().rev().map(|r| r.offset()).collect::<Vec<_>>(), [672, 492, 328]);
    assert!(records.next().is_none() && records.next_back().is_none() && trace.iter().nth(6).is_none());
    assert_eq!((trace.into_iter().count(), (&trace).into_iter().count()), (6, 6));
}

#[test]
fn records_are_copied() {
    let bytes = bytes_of_all();
    let mut copy = vec![0; bytes.len()];
    let mut buffer = TraceBuffer::create(&mut copy).unwrap();
    for record in Trace::open(&bytes).unwrap() {
        buffer.append(&record).unwrap();
    }
    assert_eq!(buffer.trace().len(), 6);
    assert_eq!(buffer.bytes(), bytes);
    let record = buffer.trace().get(0).unwrap();
    assert_eq!(buffer.append(&record), Err(Refusal::NoRoom));
    assert_eq!(buffer.bytes(), bytes);
}

#[test]
fn a_refused_search_is_not_recorded() {
    let mut bytes = vec![0; 400];
    let mut recorder = Recorder::create(&mut bytes).unwrap();
    let mut all = searches();
    let exponential = &mut all[0];
    let untouched = |why| (Err(why), vec![7.0; 3], vec![8.0; 3]);
    assert_eq!(exponential.recorded(&mut recorder, Some(0.0)), untouched(Refusal::BadSettings));
    assert_eq!(exponential.recorded(&mut recorder, Some(f64::NAN)), untouched(Refusal::NotFinite));
    exponential.ds[1] = f64::INFINITY;
    assert_eq!(exponential.recorded(&mut recorder, None), untouched(Refusal::NotFinite));
    exponential.ds.pop();
    assert_eq!(exponential.recorded(&mut recorder, None), untouched(Refusal::BadLength));
    assert_eq!(recorder.bytes().len(), 20);

    // the points' lengths are judged as the search judges them, however long
    let power = &all[1];
    for n in [0, 2, 4, 64, 65, 66, 1000] {
        let (mut dual, mut primal) = (vec![7.0; n], vec![8.0; 3]);
        let refused = recorder.step_length(&power.cone, &power.dz, &power.ds, &power.z, &power.s, &mut dual, &mut primal, 1.0);
        assert_eq!((refused, dual, primal), (Err(Refusal::BadLength), vec![7.0; n], vec![8.0; 3]));
        let (mut dual, mut primal) = (vec![7.0; 3], vec![8.0; n]);
        let refused = recorder.step_length(&power.cone, &power.dz, &power.ds, &power.z, &power.s, &mut dual, &mut primal, 1.0);
        assert_eq!((refused, dual, primal), (Err(Refusal::BadLength), vec![7.0; 3], vec![8.0; n]));
    }
}

#[test]
fn without_room_nothing_changes() {
    let search = &searches()[0];
    for room in [20, 27, 28, 183] {
        let mut bytes = vec![0xA5; room];
        let mut recorder = Recorder::create(&mut bytes).unwrap();
        assert_eq!(search.recorded(&mut recorder, Some(1.0)), (Err(Refusal::NoRoom), vec![7.0; 3], vec![8.0; 3]));
        assert_eq!((recorder.bytes().len(), recorder.trace().len()), (20, 0));
        assert!(bytes[20..].iter().all(|&b| b == 0xA5));
    }
    let mut bytes = vec![0xA5; 184];
    let mut recorder = Recorder::create(&mut bytes).unwrap();
    search.recorded(&mut recorder, Some(1.0)).0.unwrap();
    assert_eq!(recorder.bytes().len(), 184);
    assert_eq!(TraceBuffer::create(&mut [0xA5; 19]).map(|_| ()), Err(Refusal::NoRoom));
}

#[test]
fn broken_bytes_are_refused() {
    let bytes = bytes_of_all();
    for n in 0..bytes.len() {
        assert_eq!(Trace::open(&bytes[..n]).map(|_| ()), Err(Refusal::BadTrace));
    }
    let mut lent = bytes.clone();
    for used in [0, 19, 20, bytes.len() - 1, bytes.len() + 1, usize::MAX] {
        assert_eq!(TraceBuffer::open(&mut lent, used).map(|_| ()), Err(Refusal::BadTrace));
        assert_eq!(Recorder::open(&mut lent, used).map(|_| ()), Err(Refusal::BadTrace));
    }
    assert_eq!(lent, bytes);
    // a record's mark, length, kind, dims and flag; the list; the trailer
    for place in [0, 3, 4, 8, 12, 16, 32, 1096, bytes.len() - 68, bytes.len() - 20, bytes.len() - 12, bytes.len() - 8, bytes.len() - 1] {
        let mut broken = bytes.clone();
        broken[place] ^= 2;
        assert_eq!(Trace::open(&broken).map(|_| ()), Err(Refusal::BadTrace), "byte {place}");
    }
    let mut count = bytes.clone();
    count[bytes.len() - 12..bytes.len() - 8].copy_from_slice(&(MOST_RECORDS as u32 + 1).to_le_bytes());
    assert_eq!(Trace::open(&count).map(|_| ()), Err(Refusal::BadTrace));
}

#[test]
fn a_record_may_hold_what_a_search_refuses() {
    let mut bytes = bytes_of_all();
    // the power cone's exponent, a NaN with a payload; and the start before the flag of the search by default
    bytes[328 + 24..328 + 32].copy_from_slice(&0xfff0_0000_0000_0001u64.to_le_bytes());
    bytes[328 + 32..328 + 40].copy_from_slice(&f64::NEG_INFINITY.to_le_bytes());
    let record = Trace::open(&bytes).unwrap().get(2).unwrap();
    assert_eq!(record.cone(), Err(Refusal::BadCone(Trouble::PowerExponent { bits: 0x7ff8_0000_0000_0000 })));
    assert_eq!((record.kind(), record.exponents()[0].to_bits()), (2, 0x7ff8_0000_0000_0000));
    assert_eq!((record.settings().start, record.settings().step), (f64::NEG_INFINITY, Settings::house(1.0).step));
    let shown = format!("{record:?}");
    assert!(shown.starts_with("Recorded { offset: 328, kind: 2, rule: 2, exponents: [NaN]") && shown.len() < 600, "{shown}");
}

/// A rule is no layout fault: whatever it is, it is read; what is none makes no cone, and its record differs.
#[test]
fn a_record_may_hold_any_rule() {
    let bytes = bytes_of_all();
    for i in 0..6 {
        let at = Trace::open(&bytes).unwrap().get(i).unwrap().offset();
        for rule in [0, 1, 2, 3, 257, u32::MAX] {
            let mut changed = bytes.clone();
            changed[at as usize + 20..at as usize + 24].copy_from_slice(&rule.to_le_bytes());
            let trace = Trace::open(&changed).unwrap();
            let record = trace.get(i).unwrap();
            assert_eq!(record.rule(), rule);
            let under = match rule {
                1 => Ok(Rule::One),
                2 => Ok(Rule::Two),
                _ => Err(Refusal::BadCone(Trouble::Rule(rule))),
            };
            assert_eq!(record.cone().map(|cone| cone.rule()), under);
            let mut differ = [7; 6];
            let replay = trace.replay(&mut differ).unwrap();
            assert_eq!(replay.differ, if under.is_ok() { vec![] } else { vec![at] });
            // and is copied as it is
            let mut copy = vec![0; bytes.len()];
            let mut buffer = TraceBuffer::create(&mut copy).unwrap();
            trace.iter().for_each(|record| buffer.append(&record).unwrap());
            assert_eq!(buffer.bytes(), changed);
        }
    }
}

#[test]
fn what_was_recorded_replays_the_same() {
    let bytes = bytes_of_all();
    let trace = Trace::open(&bytes).unwrap();
    let mut at = [7; 8];
    let replay = trace.replay(&mut at).unwrap();
    assert_eq!((replay.records, replay.same, replay.differ), (6, 6, &[][..]));
    assert_eq!(at, [7; 8]);
    assert_eq!(trace.replay(&mut []).unwrap().same, 6);
}

#[test]
fn a_changed_answer_differs_and_nothing_else() {
    let bytes = bytes_of_all();
    let offsets: Vec<u64> = Trace::open(&bytes).unwrap().iter().map(|r| r.offset()).collect();
    let mut ends: Vec<usize> = offsets[1..].iter().map(|&o| o as usize).collect();
    ends.push(bytes.len() - 20 - 8 * offsets.len());
    for (i, &end) in ends.iter().enumerate() {
        // the lowest byte of each of the last four numbers: dual step, dual count, primal step, primal count
        for back in [24, 16, 12, 4] {
            let mut changed = bytes.clone();
            changed[end - back] ^= 1;
            let mut at = [7; 2];
            let replay = Trace::open(&changed).unwrap().replay(&mut at).unwrap();
            assert_eq!((replay.records, replay.same, replay.differ), (6, 5, &offsets[i..=i]));
            assert_eq!(at[1], 7);
        }
    }
}

#[test]
fn a_refused_search_differs_and_offsets_need_room() {
    let mut bytes = bytes_of_all();
    let second = Trace::open(&bytes).unwrap().get(1).unwrap().offset() as usize;
    // the starts of the first two records, both of kind 1, become NaN: the vectors follow
    for at in [24, second + 24] {
        bytes[at..at + 8].copy_from_slice(&f64::NAN.to_le_bytes());
    }
    let trace = Trace::open(&bytes).unwrap();
    let mut at = [7; 3];
    let replay = trace.replay(&mut at).unwrap();
    assert_eq!((replay.records, replay.same, replay.differ), (6, 4, &[0, second as u64][..]));
    let mut at = [7];
    assert_eq!(trace.replay(&mut at), Err(Refusal::NoRoom));
    assert_eq!(at, [7]);
}

#[test]
fn a_recorder_goes_on_with_an_old_trace() {
    let mut bytes = vec![0; 4000];
    let used = empty(&mut bytes, 1);
    let mut recorder = Recorder::open(&mut bytes, used).unwrap();
    for search in searches_under(Rule::One) {
        // the search is the house's, whatever the trace means by default, and so it is written outright
        assert_eq!(search.recorded(&mut recorder, Some(1.0)), search.plain(Settings::house(1.0)));
        search.is(&recorder.trace().iter().next_back().unwrap(), false, Settings::house(1.0));
        assert_eq!(search.recorded(&mut recorder, None), search.plain(OUTRIGHT));
    }
    let trace = recorder.trace();
    let mut at = [0; 6];
    assert_eq!((trace.edition(), trace.replay(&mut at).unwrap().same), (1, 6));
}

/// Editions 1 and 2 have no place for a rule: a search under rule 2 is refused there, and nothing that was lent has changed.
#[test]
fn an_old_trace_keeps_cones_of_rule_1_alone() {
    for edition in [1, 2] {
        let before = bytes_of(edition, Rule::One);
        let mut bytes = before.clone();
        bytes.resize(4000, 0xA5);
        let mut recorder = Recorder::open(&mut bytes, before.len()).unwrap();
        assert_eq!(recorder.trace().iter().map(|r| r.rule()).collect::<Vec<_>>(), [1; 6]);
        for search in searches() {
            let n = search.cone.numel();
            for start in [Some(1.0), None] {
                assert_eq!(search.recorded(&mut recorder, start), (Err(Refusal::BadTrace), vec![7.0; n], vec![8.0; n]));
            }
            // the same cone under rule 1 has the same answers
            let answer = search.plain(OUTRIGHT);
            assert_eq!(Search { cone: search.cone.under(Rule::One).unwrap(), ..search }.plain(OUTRIGHT), answer);
        }
        assert_eq!(recorder.bytes(), before);
        let mut buffer = TraceBuffer::open(&mut bytes, before.len()).unwrap();
        let newest = bytes_of_all();
        for record in Trace::open(&newest).unwrap() {
            assert_eq!(buffer.append(&record), Err(Refusal::BadTrace));
        }
        assert_eq!(buffer.bytes(), before);
        assert!(bytes[before.len()..].iter().all(|&b| b == 0xA5));
        // the other way round every record is kept, under rule 1
        let mut copy = vec![0; 4000];
        let mut buffer = TraceBuffer::create(&mut copy).unwrap();
        for record in Trace::open(&before).unwrap() {
            buffer.append(&record).unwrap();
            let last = buffer.trace().iter().next_back().unwrap();
            assert_eq!((last.rule(), last.cone(), last.settings()), (1, record.cone(), record.settings()));
        }
        let mut at = [0; 6];
        assert_eq!((buffer.trace().edition(), buffer.trace().replay(&mut at).unwrap().same), (NEWEST_EDITION, 6));
    }
}

#[test]
fn a_search_by_default_keeps_its_settings_in_another_edition() {
    // six records of edition 2, those by default turned into searches of edition 1 by their trailer
    let mut bytes = bytes_of(2, Rule::One);
    let end = bytes.len() - 8;
    bytes[end] = 1;
    let old = Trace::open(&bytes).unwrap();
    assert_eq!((old.edition(), old.get(0).unwrap().by_default(), old.get(0).unwrap().settings().step), (1, true, 0.8));
    let mut copy = vec![0; 4000];
    let mut buffer = TraceBuffer::create(&mut copy).unwrap();
    for record in old {
        buffer.append(&record).unwrap();
        let last = buffer.trace().iter().next_back().unwrap();
        assert_eq!((last.by_default(), last.settings()), (false, record.settings()));
    }
    // and by default again, where it goes back
    let mut back = vec![0; 4000];
    let used = empty(&mut back, 1);
    let mut again = TraceBuffer::open(&mut back, used).unwrap();
    for record in old {
        again.append(&record).unwrap();
    }
    assert_eq!(again.bytes(), bytes);
}

#[test]
fn a_trace_cut_anywhere_is_rescued() {
    let bytes = bytes_of_all();
    let trace = Trace::open(&bytes).unwrap();
    let mut ends: Vec<usize> = trace.iter().skip(1).map(|r| r.offset() as usize).collect();
    ends.push(bytes.len() - 20 - 8 * trace.len());
    for n in 0..bytes.len() {
        let kept = ends.iter().filter(|&&end| end <= n).count();
        let end = if kept == 0 { 0 } else { ends[kept - 1] };
        let mut output = vec![7; end + 8 * kept + 20 + 1];
        let rescued = rescue(&bytes[..n], &mut output, NEWEST_EDITION).unwrap();
        assert_eq!((rescued.trace.len(), rescued.dropped, rescued.right), (kept, (n - end) as u64, false));
        assert_eq!(rescued.trace.bytes()[..end], bytes[..end]);
        assert_eq!(rescued.trace.bytes().len() + 1, end + 8 * kept + 21);
        assert_eq!(output.last(), Some(&7));
    }
}

#[test]
fn a_good_trace_is_right_and_comes_out_the_same() {
    let bytes = bytes_of_all();
    let mut output = vec![7; bytes.len() + 3];
    let rescued = rescue(&bytes, &mut output, 0).unwrap();
    assert_eq!((rescued.trace.bytes(), rescued.dropped, rescued.right), (&bytes[..], 0, true));
    assert_eq!(output[bytes.len()..], [7; 3]);
    // a byte of the trailer was lost: the same trace is built anew
    let rescued = rescue(&bytes[..bytes.len() - 1], &mut output, NEWEST_EDITION).unwrap();
    assert_eq!((rescued.trace.bytes(), rescued.right), (&bytes[..], false));
}

#[test]
fn a_rescue_needs_room_and_an_edition() {
    let bytes = bytes_of_all();
    let mut output = vec![7; bytes.len() - 1];
    assert_eq!(rescue(&bytes, &mut output, 0).map(|r| r.dropped), Err(Refusal::NoRoom));
    assert!(output.iter().all(|&byte| byte == 7));
    assert_eq!(rescue(&[], &mut output[..19], 1).map(|r| r.dropped), Err(Refusal::NoRoom));
    for unknown in [0, NEWEST_EDITION + 1, u32::MAX] {
        assert_eq!(rescue(&bytes[..200], &mut output[..19], unknown).map(|r| r.dropped), Err(Refusal::BadTrace));
    }
    assert!(output.iter().all(|&byte| byte == 7));
    for edition in 1..=NEWEST_EDITION {
        let none = rescue(&[], &mut output, edition).unwrap();
        assert_eq!((none.trace.is_empty(), none.dropped, none.right, none.trace.edition()), (true, 0, false, edition));
    }
    // cut traces of every edition: by one of the other layout nothing is kept
    for edition in 1..=NEWEST_EDITION {
        let whole = bytes_of(edition, Rule::One);
        for given in 1..=NEWEST_EDITION {
            let mut output = vec![7; 4000];
            let rescued = rescue(&whole[..whole.len() - 1], &mut output, given).unwrap();
            let kept = if (edition < 3) == (given < 3) { 6 } else { 0 };
            assert_eq!((rescued.trace.len(), rescued.trace.edition()), (kept, given));
        }
    }
    // the list is gone, and the edition still stands before `BACK`
    let mut broken = bytes;
    let end = broken.len() - 8;
    broken[end] = 1;
    broken.splice(end - 30..end, []);
    let mut output = vec![7; 4000];
    assert_eq!(rescue(&broken, &mut output, NEWEST_EDITION).unwrap().trace.edition(), 1);
}

/// The six records of a trace, again in this order.
fn again<'b>(bytes: &[u8], order: &[usize], buffer: &'b mut [u8]) -> TraceBuffer<'b> {
    let trace = Trace::open(bytes).unwrap();
    let mut to = TraceBuffer::create(buffer).unwrap();
    for &i in order {
        to.append(&trace.get(i).unwrap()).unwrap();
    }
    to
}

#[test]
fn equal_records_are_dropped_and_the_first_stay_in_their_order() {
    let bytes = bytes_of_all();
    let (mut buffer, mut other) = (vec![0; 8000], vec![0; 8000]);
    let mut many = again(&bytes, &[3, 0, 3, 5, 0, 0, 1, 5, 3], &mut buffer);
    let mut few = again(&bytes, &[3, 0, 5, 1], &mut other);
    let mut output = vec![7; few.bytes().len() + 2];
    let thinned = thin(many.trace(), &mut output).unwrap();
    assert_eq!((thinned.trace.bytes(), thinned.trace.len(), thinned.dropped), (few.bytes(), 4, 5));
    assert_eq!(output[few.bytes().len()..], [7, 7]);
    // thinning the result again drops none
    let mut once_more = vec![7; few.bytes().len()];
    let thinned = thin(few.trace(), &mut once_more).unwrap();
    assert_eq!((thinned.trace.bytes(), thinned.dropped), (few.bytes(), 0));
    // inside one buffer, whose freed bytes are cleared
    let mut place = many.bytes().to_vec();
    let thinned = thin_in_place(&mut place).unwrap();
    assert_eq!((thinned.trace.bytes(), thinned.trace.len(), thinned.dropped), (few.bytes(), 4, 5));
    assert!(place[few.bytes().len()..].iter().all(|&byte| byte == 0));
}

#[test]
fn a_thinning_needs_room_or_a_trace() {
    let bytes = bytes_of_all();
    let mut output = vec![7; bytes.len() - 1];
    assert_eq!(thin(Trace::open(&bytes).unwrap(), &mut output).map(|t| t.dropped), Err(Refusal::NoRoom));
    assert!(output.iter().all(|&byte| byte == 7));
    let mut broken = bytes[..bytes.len() - 1].to_vec();
    assert_eq!(thin_in_place(&mut broken).map(|t| t.dropped), Err(Refusal::BadTrace));
    assert_eq!(broken, bytes[..bytes.len() - 1]);
    assert_eq!(thin_in_place(&mut []).map(|t| t.dropped), Err(Refusal::BadTrace));
    // an edition stays as it was
    for edition in 1..=3u8 {
        let mut old = vec![0; 4000];
        let used = empty(&mut old, edition);
        let thinned = thin_in_place(&mut old[..used]).unwrap();
        assert_eq!((thinned.trace.edition(), thinned.trace.is_empty(), thinned.dropped), (u32::from(edition), true, 0));
    }
}
