//! Document 02, M-113, "Back on its feet after noise": "From the byte after that STX, every answer is the one a freshly
//! opened line of the same mode gives when fed from the same STX, whatever went before. The answer at the STX itself may
//! differ, being 5 or none, and so may frame numbers. It holds for each mode .. and for the station, comparing answers in
//! order, not round by round."

use crate::wire::{frame, group, wire, CR, EOT, ETX, LF, STX};
use espandim::{Mode, Station};
use std::collections::BTreeSet;
use std::ops::RangeBounds;

use Mode::{Business, Historic, Standard};

/// STX without its parity bit, which is no STX.
const DAMAGED_STX: u8 = STX & 0x7F;

/// Contents, and what a line says of them.
type Groups = [(&'static [u8], &'static str); 2];

/// Of each mode right groups and refused ones: figures that other tests have too.
const MODES: [(Mode, Groups, Groups); 3] = [
    (
        Historic,
        [
            (b"PAPP 00750 -", "1 PAPP - 00750"),
            (b"IINST 002 Y", "1 IINST - 002"),
        ],
        [(b"PAPP 00750 M", "10"), (b"PAPP 0075a ^", "14 9")],
    ),
    (
        Standard,
        [
            (b"URMS1\t230\t?", "1 URMS1 - 230"),
            (
                b"SMAXSN\tH081225223518\t01200\t7",
                "1 SMAXSN H081225223518 01200",
            ),
        ],
        [(b"URMS1\t230\t6", "10"), (b"SMAXSN\t01200\t?", "12 7")],
    ),
    (
        Business,
        [
            (b"DATE 25/12/08 22:35:18 7", "1 DATE - 25/12/08 22:35:18"),
            (b"PREAVIS DEP 3", "1 PREAVIS - DEP"),
        ],
        [(b"PREAVIS DEP S", "10"), (b"PA1_s 123456kW K", "14 11")],
    ),
];

/// Numbers from a fixed beginning.
struct Drawn(u32);

impl Drawn {
    fn below(&mut self, bound: usize) -> usize {
        self.0 = self.0.wrapping_mul(1_103_515_245).wrapping_add(12_345);
        (self.0 >> 16) as usize % bound
    }

    fn bytes(&mut self, count: usize) -> Vec<u8> {
        (0..count).map(|_| self.below(256) as u8).collect()
    }
}

/// What may go before. `right` is the content of a right group.
fn pasts(right: &[u8]) -> [Vec<u8>; 12] {
    let noise = Drawn(113).bytes(2500);
    assert!((0..=u8::MAX).all(|byte| noise.contains(&byte)));
    let mut false_stx = Drawn(1).bytes(200);
    false_stx.retain(|&byte| byte != STX);
    false_stx[100] = STX;
    let broken_off = [&[STX], &group(right)[..6]].concat();
    let mut damaged = broken_off.clone();
    damaged[4] ^= 0x80;
    [
        Vec::new(),
        noise,
        false_stx,
        broken_off,
        damaged,
        [&[STX, LF][..], &[wire(b'A'); 129]].concat(), // overlong
        vec![STX, CR],                                 // flawed
        [&[STX][..], &group(b"AB")].concat(),          // flawed by a refused group
        frame(&[right]),                               // ended by ETX
        [&[STX][..], &group(right), &[EOT]].concat(),
        vec![STX; 20],
        vec![DAMAGED_STX, LF, CR, ETX], // outside all the while
    ]
}

/// Of each mode and each past: the past and, behind it, a frame of right groups and one that has refused ones too; how long
/// the past is; and what is said of the two frames.
fn captures() -> Vec<(Mode, Vec<u8>, usize, Vec<&'static str>)> {
    let mut captures = Vec::new();
    for (mode, [one, other], [refused, refused_too]) in MODES {
        let sound = frame(&[one.0, other.0]);
        let flawed = frame(&[one.0, refused.0, refused_too.0, other.0]);
        let said = [
            one.1,
            other.1,
            "2",
            one.1,
            refused.1,
            refused_too.1,
            other.1,
            "3",
        ];
        for past in pasts(one.0) {
            let bytes = [&past[..], &sound, &flawed].concat();
            captures.push((mode, bytes, past.len(), said.to_vec()));
        }
    }
    captures
}

/// Where a capture has a sound STX: in its past, be it noise, and behind it.
fn restarts(bytes: &[u8]) -> impl Iterator<Item = usize> + '_ {
    (0..bytes.len()).filter(|&at| bytes[at] == STX)
}

/// An answer of a line, the number of its frame, and which of the line's bytes since its opening it is the answer to,
/// counted from 0: the last one that its turn took.
struct Told {
    byte: usize,
    frame: u16,
    answer: String,
}

/// What was seen of a line since its opening: how many bytes its turns took, and its answers.
struct Heard {
    taken: usize,
    told: Vec<Told>,
}

impl Heard {
    /// Opens a line among seven busy ones and delivers these bytes to it. The seed chooses the line, the pieces, and where
    /// rounds and deliveries to other lines come between them. It ends when all is taken, or after so many rounds.
    fn new(mode: Mode, bytes: &[u8], seed: usize, most_rounds: usize) -> Heard {
        let mut drawn = Drawn((seed + 10 * bytes.len()) as u32);
        let mut station = Station::new();
        for line in 0..8 {
            station.open_raw(line, drawn.below(3) as u32).unwrap();
            station.deliver(line, &drawn.bytes(200)).unwrap();
        }
        assert!(!station.round().is_idle());
        let line = drawn.below(8);
        let largest = 1 << drawn.below(9); // 1 to 256
        station.open(line as u32, mode).unwrap();

        let (mut rest, mut rounds) = (bytes, 0);
        let (mut taken, mut told) = (0, Vec::new());
        while taken < bytes.len() && rounds < most_rounds {
            match drawn.below(4) {
                0 | 1 => {
                    let some = (1 + drawn.below(largest)).min(rest.len());
                    if station.deliver(line as u32, &rest[..some]).is_ok() {
                        rest = &rest[some..];
                    } // or else there was no room: later again
                }
                2 => {
                    let other = (line + 1 + drawn.below(7)) % 8;
                    let _ = station.deliver(other as u32, &drawn.bytes(largest));
                }
                _ => {
                    let round = station.round();
                    rounds += 1;
                    taken += usize::from(round.counts()[line]);
                    told.extend(round.entry(line as u32).map(|entry| Told {
                        byte: taken - 1,
                        frame: entry.frame,
                        answer: entry.to_string(),
                    }));
                }
            }
        }
        Heard { taken, told }
    }

    /// The answers to these bytes, in order: number, label, stamp, data and place, without the numbers of the frames.
    fn answers(&self, bytes: impl RangeBounds<usize>) -> Vec<&str> {
        let told = self.told.iter().filter(|told| bytes.contains(&told.byte));
        told.map(|told| &told.answer[..]).collect()
    }

    /// The numbers of their frames.
    fn frames(&self, bytes: impl RangeBounds<usize>) -> Vec<u16> {
        let told = self.told.iter().filter(|told| bytes.contains(&told.byte));
        told.map(|told| told.frame).collect()
    }
}

#[test]
fn behind_a_sound_stx_a_line_answers_as_one_freshly_opened() {
    let mut at_stx = BTreeSet::new();
    let mut renumbered = false;
    for (mode, bytes, past, said) in captures() {
        for seed in 0..5 {
            let through = Heard::new(mode, &bytes, seed, usize::MAX);
            assert_eq!(through.answers(past + 1..), said);
            for (before, stx) in restarts(&bytes).enumerate() {
                let fresh = Heard::new(mode, &bytes[stx..], seed + 5, usize::MAX);
                assert_eq!(through.answers(stx + 1..), fresh.answers(1..));
                at_stx.insert((
                    through.answers(stx..=stx).join(" "),
                    fresh.answers(..1).len(),
                ));
                // Each STX before is one number more (M-108).
                let (frames, fresh_frames) = (through.frames(stx + 1..), fresh.frames(1..));
                let more = |frame: &u16| frame + before as u16;
                assert_eq!(frames, fresh_frames.iter().map(more).collect::<Vec<_>>());
                renumbered |= frames != fresh_frames;
            }
        }
    }
    assert!(renumbered);
    // "5 or none", and none at the first byte behind an opening.
    assert_eq!(
        at_stx,
        BTreeSet::from([(String::new(), 0), ("5".to_string(), 0)])
    );
}

/// Where one of the two lines was given fewer rounds, its answers are a beginning of the other's: those to the bytes that it
/// has taken.
#[test]
fn with_fewer_rounds_its_answers_are_a_beginning() {
    let (mut parts_of_fresh, mut parts_of_through) = (0, 0);
    for (mode, bytes, _, _) in captures() {
        let through = Heard::new(mode, &bytes, 0, usize::MAX);
        for stx in restarts(&bytes) {
            let fresh = Heard::new(mode, &bytes[stx..], 1, usize::MAX);
            for rounds in 0..12 {
                let few = Heard::new(mode, &bytes[stx..], 2, rounds);
                let (some, all) = (few.answers(1..), through.answers(stx + 1..));
                assert_eq!(some, all[..some.len()]);
                assert_eq!(some, through.answers(stx + 1..stx + few.taken));
                let part = stx > 0 && !some.is_empty() && some.len() < all.len();
                parts_of_through += usize::from(part);

                let few = Heard::new(mode, &bytes, 3, stx / 8 * rounds + rounds);
                let (some, all) = (few.answers(stx + 1..), fresh.answers(1..));
                assert_eq!(some, all[..some.len()]);
                assert_eq!(some, fresh.answers(1..few.taken.saturating_sub(stx)));
                let part = stx > 0 && !some.is_empty() && some.len() < all.len();
                parts_of_fresh += usize::from(part);
            }
        }
    }
    assert!(parts_of_fresh > 0 && parts_of_through > 0);
}

/// "Sound": behind a damaged STX a line is still where it was, here in a flawed frame, and one freshly opened is in none.
#[test]
fn a_damaged_stx_puts_nothing_right() {
    for (mode, [right, _], _) in MODES {
        let mut bytes = [&[STX, CR][..], &frame(&[right.0])].concat();
        bytes[2] = DAMAGED_STX;
        let through = Heard::new(mode, &bytes, 0, usize::MAX);
        assert_eq!(through.answers(3..), [right.1, "3"]);
        let fresh = Heard::new(mode, &bytes[2..], 5, usize::MAX);
        assert_eq!(fresh.taken, bytes.len() - 2);
        assert!(fresh.told.is_empty());
    }
}
