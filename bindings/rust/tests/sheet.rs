//! A sheet over traces: in one row, in two groups, and as text.
use spindle::{Cone, Recorder, Refusal, Sheet, Side, MOST_FILES, SHEET_TEXT};

/// A trace of one search of the exponential cone, from this start.
fn trace(bytes: &mut [u8], start: f64) -> &[u8] {
    let (dz, ds, z, s) = ([0.5, -2.0, 0.25], [0.25, -4.0, 0.5], [-1.0, 0.5, 1.0], [-1.0, 0.5, 1.0]);
    let (mut dual, mut primal) = ([0.0; 3], [0.0; 3]);
    let mut recorder = Recorder::create(bytes).unwrap();
    recorder.step_length(&Cone::exponential(), &dz, &ds, &z, &s, &mut dual, &mut primal, start).unwrap();
    let used = recorder.bytes().len();
    &bytes[..used]
}

fn text(sheet: &Sheet) -> String {
    let mut room = vec![0; SHEET_TEXT];
    sheet.text(&mut room).unwrap().to_owned()
}

#[test]
fn two_groups_are_the_whole() {
    let (mut first, mut second) = ([0; 400], [0; 400]);
    let files = [trace(&mut first, 1.0).to_vec(), b"no trace".to_vec(), trace(&mut second, 0.01).to_vec(), Vec::new()];
    let mut whole = Sheet::new();
    files.iter().for_each(|file| whole.add(file).unwrap());
    for cut in 0..=files.len() {
        let (mut front, mut behind) = (Sheet::new(), Sheet::default());
        files[..cut].iter().for_each(|file| front.add(file).unwrap());
        files[cut..].iter().for_each(|file| behind.add(file).unwrap());
        front.join(&behind).unwrap();
        assert_eq!(text(&front), text(&whole));
        assert_eq!((front.files(), front.records()), (4, 2));
    }
    let lines = text(&whole);
    assert!(lines.starts_with("skipped file 2\nskipped file 4\ndual records 2\ndual zero "));
    assert_eq!((1..=5).map(|file| whole.skipped(file)).collect::<Vec<_>>(), [false, true, false, true, false]);
    for side in [Side::Dual, Side::Primal] {
        let normal: u64 = (-1100..1100).map(|exponent| whole.exponent(side, exponent)).sum();
        assert_eq!(whole.zero(side) + whole.subnormal(side) + normal, whole.records());
        let most = whole.most(side).unwrap();
        assert!(most.at == 0 && lines.contains(&format!("most {} file {} at 0\n", most.tests, most.file)));
    }
}

#[test]
fn refusals_change_nothing() {
    let mut sheet = Sheet::new();
    assert_eq!(sheet.most(Side::Dual), None);
    for _ in 0..MOST_FILES {
        sheet.add(b"").unwrap();
    }
    let before = text(&sheet);
    assert_eq!(sheet.add(b""), Err(Refusal::NoRoom));
    let mut one = Sheet::new();
    one.add(b"").unwrap();
    assert_eq!(sheet.join(&one), Err(Refusal::NoRoom));
    assert_eq!(text(&sheet), before);
    assert_eq!(before.matches("skipped file ").count(), MOST_FILES);
    assert_eq!(one.text(&mut [0; SHEET_TEXT - 1]), Err(Refusal::NoRoom));
    assert!(!sheet.skipped(0) && sheet.skipped(1000) && !sheet.skipped(1001));
}
