//! The match of `make run`: it ends equal, prints the same every time, and a build that deals one wrong slot, places a block elsewhere, or
//! has another capacity, is found out.

use vizturel::Answer;
use vizturel::play::{Build, CAPACITY, Call, Ending, Failure, Library, Rust, Written, play};

fn printed(builds: [&mut dyn Build; 3]) -> (String, Result<Ending, Failure>) {
    let mut out = Vec::new();
    let ended = play(&mut out, builds);
    (String::from_utf8(out).unwrap(), ended)
}

fn library() -> Library {
    Library::with_capacity(CAPACITY).unwrap()
}

/// The library, but that the n-th slot that it deals is the next free one after the lowest, or the n-th block that it places is in the
/// next gap.
struct Wrong {
    inner: Library,
    blocks: bool,
    left: u32,
}

impl Build for Wrong {
    fn call(&mut self, call: &Call) -> Answer<Option<u64>> {
        let counted = match call {
            Call::Spawn(_) => !self.blocks,
            Call::Block(..) => self.blocks,
            _ => false,
        };
        if counted {
            self.left = self.left.wrapping_sub(1);
            if self.left == 0 {
                self.inner.call(call)?;
            }
        }
        self.inner.call(call)
    }

    fn runs(&self) -> Answer<[u64; 4]> {
        self.inner.runs()
    }

    fn write(&self) -> Answer<Written> {
        self.inner.write()
    }

    fn load(&mut self, written: &Written) -> Answer<()> {
        self.inner.load(written)
    }
}

fn wrong(blocks: bool) -> Wrong {
    Wrong { inner: library(), blocks, left: 0 }
}

#[test]
fn the_match_ends_equal() {
    let once = || printed([&mut library(), &mut Rust::default(), &mut library()]);
    let (text, ended) = once();
    let Ending { dealt, blocks, refused, bytes } = ended.unwrap();
    assert!(dealt > 60 && blocks > 5 && refused > 5 && bytes > 20);
    // Blocks in a gap between bodies, after the last one, and in none.
    for block in ["n[3-6]", "s[21-24]", "south: no gap of 6"] {
        assert!(text.contains(block), "{block}");
    }
    // By the ceiling, by what the others claim, and where a floor was all that was left.
    for why in
        ["are its ceiling", "it has 5 runs, and the others claim", "it has its floor of 4 runs, and the others claim"]
    {
        assert!(text.contains(why), "{why}");
    }
    let last = format!(
        "{dealt} slots dealt, those of {blocks} blocks among them, equal in all builds; written sets of {bytes} bytes admitted the late player"
    );
    assert_eq!(text.lines().last(), Some(last.as_str()));
    assert!((30..=46).contains(&text.lines().count()));
    assert_eq!(once().0, text);
}

#[test]
fn a_wrong_slot_is_found_in_any_build() {
    // The 5th slot is dealt in frame 1; the late player's 5th at the latest four frames after it came.
    for at in 0..3 {
        let mut builds = [wrong(false), wrong(false), wrong(false)];
        builds[at].left = 5;
        let [library, rust, late] = &mut builds;
        let (text, ended) = printed([library, rust, late]);
        let Err(Failure::Unequal { frame, what }) = ended else { panic!("build {at}: no difference was found") };
        assert!(if at < 2 { frame == 1 } else { (12..=16).contains(&frame) }, "build {at}: frame {frame}");
        assert!(what.starts_with("spawn in "), "{what}");
        assert!(!text.contains("slots dealt"));
    }
}

#[test]
fn a_block_elsewhere_is_found_in_any_build() {
    // The 3rd block is placed in frame 10, the late player's 3rd in frame 15.
    for at in 0..3 {
        let mut builds = [wrong(true), wrong(true), wrong(true)];
        builds[at].left = 3;
        let [library, rust, late] = &mut builds;
        let (text, ended) = printed([library, rust, late]);
        let Err(Failure::Unequal { frame, what }) = ended else { panic!("build {at}: no difference was found") };
        assert_eq!(frame, if at < 2 { 10 } else { 15 }, "build {at}");
        assert!(what.starts_with("block of "), "{what}");
        assert!(!text.contains("slots dealt"));
    }
}

#[test]
fn a_build_that_loads_nothing_is_found() {
    struct Deaf(Library);
    impl Build for Deaf {
        fn call(&mut self, call: &Call) -> Answer<Option<u64>> {
            self.0.call(call)
        }
        fn runs(&self) -> Answer<[u64; 4]> {
            self.0.runs()
        }
        fn write(&self) -> Answer<Written> {
            self.0.write()
        }
        fn load(&mut self, _: &Written) -> Answer<()> {
            Ok(())
        }
    }
    let (_, ended) = printed([&mut library(), &mut Rust::default(), &mut Deaf(library())]);
    assert!(matches!(ended, Err(Failure::Unequal { frame: 12, .. })));
}

#[test]
fn a_build_of_another_capacity_is_found() {
    let mut larger = Library::with_capacity(CAPACITY + 1).unwrap();
    let (_, ended) = printed([&mut larger, &mut Rust::default(), &mut library()]);
    let Err(Failure::Unequal { what, .. }) = ended else { panic!("no difference was found") };
    assert!(what.contains("Err(Capacity)"), "{what}");
}
