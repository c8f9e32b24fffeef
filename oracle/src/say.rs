// Lines of text, by the C library: core's own formatting is not linked (build.sh).

extern "C" {
    fn say_text(text: *const u8, length: usize);
    fn say_whole(n: u64);
    fn say_double(x: f64);
    fn say_bits(bits: u64);
    fn say_flush();
}

pub fn text(words: &str) {
    unsafe { say_text(words.as_ptr(), words.len()) }
}

pub fn line(words: &str) {
    text(words);
    text("\n");
}

pub fn whole(n: u64) {
    unsafe { say_whole(n) }
}

pub fn bits(n: u64) {
    unsafe { say_bits(n) }
}

// its bits, then its decimal spelling
pub fn double(x: f64) {
    bits(x.to_bits());
    text(" (");
    unsafe { say_double(x) }
    text(")");
}

pub fn flush() {
    unsafe { say_flush() }
}

// n in a column
pub fn column(n: u64, width: usize) {
    let mut digits = 1;
    let mut rest = n / 10;
    while rest > 0 {
        digits += 1;
        rest /= 10;
    }
    for _ in digits..width {
        text(" ");
    }
    whole(n);
}
