
// What follows is the benchmark; it stands in the Rust's own module so that it sees private fields. Ours is called through the exported C functions.
pub mod bench {
    use super::*;
    use std::hint::black_box;
    use std::time::Instant;

    unsafe extern "C" {
        fn glyvrask_load(tape: *const u8, n: usize, model: u32, blocks: *mut u64, bn: usize, tones: *mut u64, tn: usize, answer: *mut u64, an: usize) -> u32;
        fn glyvrask_play(tape: *const u8, n: usize, blocks: *const u64, bn: usize, tones: *const u64, tn: usize, count: u64, at: *const u64, pn: usize, d: u32, answer: *mut u64, an: usize) -> u32;
        fn glyvrask_play_measured(tape: *const u8, n: usize, blocks: *const u64, bn: usize, tones: *const u64, tn: usize, count: u64, at: *const u64, pn: usize, d: u32, answer: *mut u64, an: usize) -> u32;
        fn glyvrask_play_run(tape: *const u8, n: usize, blocks: *const u64, bn: usize, tones: *const u64, tn: usize, count: u64, at: *const u64, pn: usize, measured: u32, counts: *const u32, cn: usize, answers: *mut u64, an: usize) -> u32;
        fn glyvrask_block_time(tape: *const u8, n: usize, blocks: *const u64, bn: usize, tones: *const u64, tn: usize, count: u64, i: u64, answer: *mut u64, an: usize) -> u32;
        fn glyvrask_loading_time(tape: *const u8, n: usize, blocks: *const u64, bn: usize, tones: *const u64, tn: usize, count: u64, answer: *mut u64, an: usize) -> u32;
        fn glyvrask_listing(tape: *const u8, n: usize, model: u32, out: *mut u8, on: usize) -> u32;
    }

    // `run` adds BLOCK_WORDS and TONE_WORDS, the words of a row, from include/glyvrask.h
    const MOST_BLOCKS: usize = 4096 * BLOCK_WORDS;
    const MOST_TONES: usize = 65536 * TONE_WORDS;
    const POSITION_WORDS: usize = 7;
    const ENDED: u64 = 2;
    // a run's calls and a call's words
    const CALLS: usize = 1000;
    const ANSWER_WORDS: usize = 10;

    // A tape loaded by ours.
    struct Ours {
        bytes: Vec<u8>,
        blocks: Vec<u64>,
        tones: Vec<u64>,
        count: u64,
    }

    impl Ours {
        fn new(bytes: &[u8]) -> Ours {
            Ours { bytes: bytes.to_vec(), blocks: vec![0; MOST_BLOCKS], tones: vec![0; MOST_TONES], count: 0 }
        }
        fn load(&mut self, block_words: usize, tone_words: usize) -> u32 {
            let mut answer = [0u64; 3];
            let k = unsafe {
                glyvrask_load(self.bytes.as_ptr(), self.bytes.len(), 0, self.blocks.as_mut_ptr(), block_words, self.tones.as_mut_ptr(), tone_words, answer.as_mut_ptr(), 3)
            };
            self.count = answer[1];
            k
        }
        // Calls of d from the start to the end; how many there were.
        fn play(&self, measured: bool, d: u32) -> u64 {
            let mut at = [0u64; POSITION_WORDS];
            let mut answer = [0u64; 16];
            let mut calls = 0;
            loop {
                let k = unsafe {
                    let f = if measured { glyvrask_play_measured } else { glyvrask_play };
                    f(self.bytes.as_ptr(), self.bytes.len(), self.blocks.as_ptr(), self.blocks.len(), self.tones.as_ptr(), self.tones.len(), self.count, at.as_ptr(), POSITION_WORDS, d, answer.as_mut_ptr(), 16)
                };
                assert_eq!(k, 0);
                calls += 1;
                if answer[0] == ENDED {
                    return calls;
                }
                at.copy_from_slice(&answer[FIRST..FIRST + POSITION_WORDS]);
            }
        }
        // The same in runs of calls; the table of answers is lent.
        fn run(&self, measured: bool, d: u32, answers: &mut [u64]) -> u64 {
            let counts = [d; CALLS];
            let mut at = [0u64; POSITION_WORDS];
            let mut calls = 0;
            loop {
                let k = unsafe {
                    glyvrask_play_run(self.bytes.as_ptr(), self.bytes.len(), self.blocks.as_ptr(), self.blocks.len(), self.tones.as_ptr(), self.tones.len(), self.count, at.as_ptr(), POSITION_WORDS, measured as u32, counts.as_ptr(), CALLS, answers.as_mut_ptr(), answers.len())
                };
                assert_eq!(k, 0);
                let last = &answers[(CALLS - 1) * ANSWER_WORDS..];
                if last[0] == ENDED {
                    let first = (0..CALLS).find(|&i| answers[i * ANSWER_WORDS] == ENDED).unwrap();
                    return calls + first as u64 + 1;
                }
                calls += CALLS as u64;
                at.copy_from_slice(&last[FIRST..FIRST + POSITION_WORDS]);
            }
        }
        // What a page tells of a loaded tape: each block's time and the loading time, added up.
        fn times(&self) -> u64 {
            let mut answer = [0u64; 2];
            let mut sum = 0;
            for i in 0..self.count {
                let k = unsafe {
                    glyvrask_block_time(self.bytes.as_ptr(), self.bytes.len(), self.blocks.as_ptr(), self.blocks.len(), self.tones.as_ptr(), self.tones.len(), self.count, i, answer.as_mut_ptr(), 2)
                };
                assert_eq!(k, 0);
                sum += answer[1];
            }
            let k = unsafe {
                glyvrask_loading_time(self.bytes.as_ptr(), self.bytes.len(), self.blocks.as_ptr(), self.blocks.len(), self.tones.as_ptr(), self.tones.len(), self.count, answer.as_mut_ptr(), 2)
            };
            assert_eq!(k, 0);
            sum + answer[0]
        }
        fn list(&self, out: &mut [u8]) -> u32 {
            unsafe { glyvrask_listing(self.bytes.as_ptr(), self.bytes.len(), 0, out.as_mut_ptr(), out.len()) }
        }
    }
    // where the position stands in a player's answer
    const FIRST: usize = 3;

    fn rust_load(bytes: &[u8]) -> Tape {
        crate::tally::start(4096, 65536);
        Tape::new(std::io::Cursor::new(bytes), Model::Spec48k).unwrap()
    }

    fn rust_play(tape: &Tape, d: u32) -> u64 {
        let mut at = TapePos::new_at_block(0);
        let mut calls = 0;
        loop {
            calls += 1;
            match tape.play(d, at) {
                Some(next) => at = next,
                None => return calls,
            }
        }
    }

    // The best of several runs, in microseconds.
    fn best<T>(mut f: impl FnMut() -> T) -> f64 {
        let mut least = f64::INFINITY;
        let began = Instant::now();
        let mut runs = 0;
        while runs < 5 || (began.elapsed().as_millis() < 300 && runs < 10000) {
            let t = Instant::now();
            black_box(f());
            least = least.min(t.elapsed().as_secs_f64() * 1e6);
            runs += 1;
            if began.elapsed().as_secs() > 20 {
                break;
            }
        }
        least
    }

    fn row(what: &str, rust: f64, ours: f64) {
        println!("| {what} | {rust:.1} | {ours:.1} | {:.2} |", ours / rust);
    }

    const SIGNATURE: &[u8] = b"ZXTape!\x1a\x01\x14";

    fn standard(data: &[u8]) -> Vec<u8> {
        let mut p = vec![0x10, 0xe8, 0x03];
        p.extend((data.len() as u16).to_le_bytes());
        p.extend(data);
        p
    }

    fn tzx(pieces: &[Vec<u8>]) -> Vec<u8> {
        let mut t = SIGNATURE.to_vec();
        for p in pieces {
            t.extend(p);
        }
        t
    }

    fn game(size: usize) -> Vec<u8> {
        let mut header = vec![0u8, 3];
        header.extend(b"benchmark \x00\x00\x00\x00\x00\x00\x00");
        let mut code = vec![0xffu8];
        let mut x = 1u32;
        for _ in 0..size {
            x = x.wrapping_mul(1664525).wrapping_add(1013904223);
            code.push((x >> 24) as u8);
        }
        tzx(&[standard(&header), standard(&code)])
    }

    fn pieces(n: usize) -> Vec<u8> {
        let mut all = Vec::new();
        for i in 0..n {
            all.push(match i % 5 {
                0 => vec![0x20, 1, 0],
                1 => vec![0x12, 100, 0, 4, 0],
                2 => standard(&[0; 19]),
                3 => vec![0x30, 4, b't', b'e', b'x', b't'],
                _ => vec![0x14, 10, 0, 20, 0, 8, 0, 0, 2, 0, 0, 0x55, 0xaa],
            });
        }
        tzx(&all)
    }

    fn general(symbols: u32) -> Vec<u8> {
        let mut p = vec![0x19, 0, 0, 0, 0, 0, 0, 0, 0, 0, 0, 0, 0];
        p.extend(symbols.to_le_bytes());
        p.extend([2, 4]);
        for s in 0..4u16 {
            p.push(0);
            p.extend((100 + s).to_le_bytes());
            p.extend((200 + s).to_le_bytes());
        }
        p.extend((0..symbols.div_ceil(4)).map(|i| (i * 37) as u8));
        tzx(&[p])
    }

    fn looped(n: u16, piece: &[u8]) -> Vec<u8> {
        let mut p = vec![0x24];
        p.extend((n - 1).to_le_bytes());
        p.extend(piece);
        p.push(0x25);
        tzx(&[p])
    }

    fn empty_data(size: usize) -> Vec<u8> {
        let mut p = vec![0x14, 0, 0, 0, 0, 8, 0, 0];
        p.extend(&(size as u32).to_le_bytes()[..3]);
        p.extend(vec![0x55; size]);
        tzx(&[p])
    }

    // All but the last line: the driver's is the sum of all entries, ours the loading time.
    fn rows(text: &[u8]) -> &[u8] {
        let end = text[..text.len() - 1].iter().rposition(|b| *b == b'\n').unwrap();
        &text[..end]
    }

    fn loads(what: &str, bytes: &[u8]) {
        let mut ours = Ours::new(bytes);
        let rust = rust_load(bytes);
        assert_eq!(ours.load(MOST_BLOCKS, MOST_TONES), 0);
        assert_eq!(ours.count as usize, rust.len());
        let r = best(|| rust_load(bytes));
        row(&format!("load {what}, tables of 4,096 and 65,536 rows"), r, best(|| ours.load(MOST_BLOCKS, MOST_TONES)));
        if ours.load(512 * BLOCK_WORDS, 2048 * TONE_WORDS) == 0 {
            row(&format!("load {what}, tables of 512 and 2,048 rows"), r, best(|| ours.load(512 * BLOCK_WORDS, 2048 * TONE_WORDS)));
            let mut out = vec![0u8; 300_000];
            let wanted = driver::listing(&driver::Loaded { tzx: true, tape: rust_load(bytes) }, Model::Spec48k);
            let n = ours.list(&mut out) as usize;
            assert_eq!(rows(&out[..n]), rows(wanted.as_bytes()));
            row(
                &format!("list {what}"),
                best(|| driver::listing(&driver::Loaded { tzx: true, tape: rust_load(bytes) }, Model::Spec48k)),
                best(|| ours.list(&mut out)),
            );
            let loaded = driver::Loaded { tzx: true, tape: rust_load(bytes) };
            row(&format!("times of {what}, loaded (the Rust: its listing)"), best(|| driver::listing(&loaded, Model::Spec48k)), best(|| ours.times()));
        }
    }

    fn plays(what: &str, bytes: &[u8], d: u32) {
        let mut ours = Ours::new(bytes);
        let rust = rust_load(bytes);
        assert_eq!(ours.load(MOST_BLOCKS, MOST_TONES), 0);
        assert_eq!(rust_play(&rust, d), ours.play(false, d));
        let r = best(|| rust_play(&rust, d));
        row(&format!("{what}, calls of {d}: the source's play"), r, best(|| ours.play(false, d)));
        row(&format!("{what}, calls of {d}: the measured player against the Rust's play"), r, best(|| ours.play(true, d)));
        let mut answers = vec![0u64; CALLS * ANSWER_WORDS];
        assert_eq!(rust_play(&rust, d), ours.run(false, d, &mut answers));
        row(&format!("{what}, runs of {CALLS} calls of {d}: the source's play"), r, best(|| ours.run(false, d, &mut answers)));
        row(&format!("{what}, runs of {CALLS} calls of {d}: the measured player against the Rust's play"), r, best(|| ours.run(true, d, &mut answers)));
    }

    pub fn main() {
        println!("| what | the Rust, µs | ours, µs | ratio |");
        println!("|---|---|---|---|");
        loads("a standard game of 48 KB", &game(48 * 1024));
        loads("500 pieces", &pieces(500));
        loads("a generalised piece of 60,000 symbols", &general(60000));
        loads("a loop of 4,000 copies", &looped(4000, &[0x12, 100, 0, 4, 0]));
        plays("2 KB played whole", &game(2 * 1024), 11);
        plays("48 KB played whole", &game(48 * 1024), 69888);
        plays("4,096 blocks of 65,534 empty pulses", &looped(4096, &[0x12, 0, 0, 0xfe, 0xff]), 1);
        plays("1,000,000 bytes of no length", &empty_data(1_000_000), 1);
        plays("a block of 60,000 tone rows", &general(60000), 69888);
        for n in [12, 24, 48, 96] {
            loads(&format!("(growth) {n} KB"), &game(n * 1024 / 2));
        }
        for n in [500, 1000, 2000] {
            loads(&format!("(growth) {n} pieces"), &pieces(n));
        }
    }
}
