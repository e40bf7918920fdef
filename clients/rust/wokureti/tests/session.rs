//! Sessions over stored clips: frames, edits, scripts, refusals, and saved files.
use std::error::Error;
use std::fs;
use std::io::ErrorKind;
use std::path::PathBuf;

use wokureti::{library_version, Cache, Cause, Counts, Fault, FileCause, Frame, Node, Packet, PacketCause, Script, Session};

fn path(name: &str) -> PathBuf {
    PathBuf::from(env!("CARGO_MANIFEST_DIR")).join("../../../crates/gate_clips/data").join(name)
}

fn clip(name: &str) -> Vec<u8> {
    fs::read(path(name)).expect("the clip is there")
}

fn small() -> Session {
    Session::open(path("small.ivf")).expect("an IVF file")
}

fn frames(session: &mut Session) -> Vec<Frame> {
    session.frames(..).collect::<Result<_, _>>().expect("frames")
}

/// The cause of a refusal.
fn cause<T: std::fmt::Debug>(result: Result<T, Fault>) -> Cause {
    result.expect_err("a refusal").refused().expect("a refusal").cause
}

#[test]
fn a_deleted_packet_is_not_shown() {
    let mut session = small();
    let count = session.count().expect("counts");
    let before = frames(&mut session);
    assert_eq!(before.len() as u64, count.frames);
    assert_eq!(session.hold(2), Ok(count.packets + 1));
    let after = frames(&mut session);
    assert_eq!(after[..2], before[..2]);
    assert_eq!(after[2], before[1]);
    assert_eq!(session.delete(2), Ok(count.packets));
    assert_eq!(frames(&mut session), before);
}

#[test]
fn edits_are_those_of_their_request_lines() {
    let (mut typed, mut lines) = (small(), small());
    let packet = typed.packet(3).expect("a packet");
    let hex: String = packet.bytes.iter().map(|byte| format!("{byte:02x}")).collect();
    for (result, line) in [
        (typed.insert(2, 7, &packet.bytes), format!("insert 2 7 {hex}")),
        (typed.insert(3, u64::MAX, &[]), format!("insert 3 {} -", u64::MAX)),
        (typed.replace(5, &packet.bytes), format!("replace 5 {hex}")),
        (typed.replace(6, &[]), "replace 6 -".into()),
        (typed.move_packet(7, 1), "move 7 1".into()),
        (typed.copy(0, 2, 9), "copy 0 2 9".into()),
        (typed.blank(0, 33, 17), "blank 0 33 17".into()),
        (typed.hold(1), "hold 1".into()),
        (typed.hide(4), "hide 4".into()),
        (typed.show(4), "show 4".into()),
        (typed.delete(8), "delete 8".into()),
        (typed.use_source(0), "use 0".into()),
    ] {
        assert_eq!(lines.request(&line), result.map(|packets| format!("ok {packets}")), "{line}");
    }
    assert_eq!(typed.save(false), lines.save(false));
}

#[test]
fn a_packet_is_read_as_it_was_written() {
    let mut session = small();
    let bytes: Vec<u8> = (0..=255).collect();
    session.insert(1, 99, &bytes).expect("a packet");
    assert_eq!(session.packet(1), Ok(Packet { stamp: 99, bytes }));
    session.replace(1, &[]).expect("a packet");
    assert_eq!(session.packet(1), Ok(Packet { stamp: 99, bytes: vec![] }));
}

#[test]
fn a_script_is_built_node_by_node() {
    // The first frame that is served fixes the size, so each size has a session.
    let mut session = Session::open_all([path("small.ivf"), path("small.ivf")]).expect("two IVF files");
    let whole = frames(&mut small());
    let mut script = Script::new();
    assert_eq!((script.to_string(), script.len(), script.is_empty()), ("-".into(), 0, true));
    let other = script.source(1);
    let opening = script.trim(other, 0, 3);
    let both = script.splice(opening, Node::SOURCE_0);
    script.crop(both, 2, 0, 4, 5);
    assert_eq!((script.to_string(), script.len(), script.is_empty()), ("source 1; trim 1 0 3; splice 2 0; crop 3 2 0 4 5".into(), 4, false));
    session.set_script(&script).expect("a script");
    assert_eq!(session.script(), Ok("source 1;trim 1 0 3;splice 2 0;crop 3 2 0 4 5".into()));
    assert_eq!(session.count().map(|counts| counts.frames), Ok(3 + whole.len() as u64));
    let mut again = small();
    again.set_script("crop 0 2 0 4 5").expect("a script");
    let cropped = frames(&mut again);
    assert_eq!(frames(&mut session), [&cropped[..3], &cropped].concat());
    // Rows of the crop are those of the frame.
    let (frame, part) = (&whole[4], &cropped[4]);
    assert_eq!((part.width, part.height), (4, 5));
    for row in 0..5 {
        assert_eq!(part.y[4 * row..4 * row + 4], frame.y[frame.width as usize * row + 2..][..4]);
    }
}

#[test]
fn a_fade_ends_with_the_picture() {
    let mut session = small();
    let whole = frames(&mut session);
    let mut script = Script::new();
    script.fade(Node::SOURCE_0, 0, 2, 0, 256);
    session.set_script(&script).expect("a script");
    let faded = frames(&mut session);
    assert_eq!(faded[2..], whole[2..]);
    assert!(faded[0].y.iter().all(|&sample| sample == 16) && faded[0].cb.iter().chain(&faded[0].cr).all(|&sample| sample == 128));
}

#[test]
fn parts_are_trims_one_after_the_other() {
    let mut script = Script::new();
    script.parts(&[(Node::SOURCE_0, 3, 2), (Node::SOURCE_0, 0, 1)]);
    assert_eq!(script.to_string(), "parts 0 3 2 0 0 1");
    let mut session = small();
    let whole = frames(&mut session);
    let set = session.set_script(&script);
    if library_version() < (0, 15, 0) {
        assert_eq!(cause(set), Cause::Syntax);
        return;
    }
    set.expect("a script");
    assert_eq!(frames(&mut session), [&whole[3..5], &whole[..1]].concat());
    let mut none = Script::new();
    none.parts(&[]);
    assert_eq!(cause(session.set_script(&none)), Cause::Syntax);
}

#[test]
fn frames_come_in_order_and_backward() {
    let mut session = small();
    let whole = frames(&mut session);
    let count = whole.len() as u64;
    let numbers = |session: &mut Session, range: std::ops::Range<u64>| session.frames(range).map(|frame| frame.expect("a frame")).collect::<Vec<_>>();
    assert_eq!(numbers(&mut session, 2..5), whole[2..5]);
    assert_eq!(numbers(&mut session, 2..u64::MAX), whole[2..]);
    assert_eq!(numbers(&mut session, count..u64::MAX), []);
    assert_eq!(session.frames(..=3).count(), 4);
    assert_eq!(session.frames(..=u64::MAX).size_hint(), (whole.len(), Some(whole.len())));
    let backward: Vec<Frame> = session.frames(..).rev().map(|frame| frame.expect("a frame")).collect();
    assert!(backward.iter().eq(whole.iter().rev()));
    assert_eq!(session.frames(..).nth(4).and_then(Result::ok).as_ref(), Some(&whole[4]));
    assert_eq!(session.frames((std::ops::Bound::Excluded(u64::MAX), std::ops::Bound::Unbounded)).count(), 0);
    // A frame that is refused is an error, and the next one follows.
    let key = session.packet(0).expect("a packet").bytes;
    session.replace(3, &[0x10, 0]).expect("a packet");
    session.insert(5, 0, &key).expect("a packet");
    let kinds: Vec<bool> = session.frames(2..7).map(|frame| frame.is_ok()).collect();
    assert_eq!(kinds, [true, false, false, true, true]);
}

#[test]
fn files_are_saved() {
    let (small_file, odd) = (clip("small.ivf"), clip("odd-size.ivf"));
    let mut session = Session::from_bytes(&[&small_file, &odd], 2).expect("two IVF files");
    assert_eq!(session.save(false).expect("memory").len(), small_file.len());
    assert_eq!(session.save_source(0, true, false), session.save(true));
    let saved = session.save_source(1, false, false).expect("memory");
    assert_eq!(saved.len(), odd.len());
    // The size, the rate and the scale are those of its own file.
    assert_eq!(saved[8..24], odd[8..24]);
    assert_eq!(cause(session.save_source(2, false, true)), Cause::Source);
    assert_eq!(cause(session.save_source(usize::MAX, false, true)), Cause::Source);
}

#[test]
fn an_export_has_the_frames_of_the_script() {
    let mut session = small();
    session.set_script("trim 0 3 4").expect("a script");
    let wanted = frames(&mut session);
    let export = session.export(false).expect("an export");
    let mut again = Session::from_bytes(&[&export], 32).expect("an IVF file");
    assert_eq!(again.count().map(|counts| counts.frames), Ok(4));
    assert_eq!(frames(&mut again), wanted);
    session.set_script("fade 0 2 4 256 0").expect("a script");
    assert_eq!(session.export(false), Err(Fault::Changed { frame: 3, node: 1 }));
    session.set_script(Script::new()).expect("a script");
    session.replace(5, &[0x11, 0]).expect("a packet");
    let Err(Fault::Unserved { frame: 5, refused }) = session.export(true) else { panic!("an export of a refused frame") };
    assert_eq!((refused.cause, refused.source, refused.packet), (Cause::Packet(PacketCause::ShortPacket), Some(0), Some(5)));
}

/// The number of packets that are decoded for frame 5 and then frame 0.
fn decoded(cache: impl Into<Cache>) -> Option<u64> {
    let mut session = Session::open_with([path("small.ivf")], cache).expect("an IVF file");
    session.frame(5).expect("a frame");
    session.frame(0).expect("a frame");
    session.decoded().ok()
}

#[test]
fn the_cache_has_its_limit() {
    assert_eq!(Cache::default(), Cache::Bytes(536_870_912));
    assert_eq!(decoded(Cache::default()), Some(6));
    assert_eq!(decoded(Cache::Bytes(1 << 30)), Some(6));
    assert_eq!(decoded(6), Some(6));
    // The newest state alone.
    for least in [Cache::Bytes(0), Cache::Bytes(1), Cache::States(1)] {
        assert_eq!(decoded(least), Some(7));
    }
}

#[test]
fn refusals_have_their_causes() {
    let mut session = Session::open_all([path("small.ivf"), path("odd-size.ivf")]).expect("two IVF files");
    let Counts { packets, frames } = session.count().expect("counts");
    for (result, wanted) in [
        (session.delete(packets), Cause::Place),
        (session.copy(9, 0, 0), Cause::Source),
        (session.use_source(2), Cause::Source),
        (session.blank(0, 0, 16), Cause::Size),
        (session.blank(0, 16, 16384), Cause::Size),
        (session.request("nonsense").map(|_| 0), Cause::Line),
        (session.request("frame 0\nframe 1").map(|_| 0), Cause::Line),
        (session.set_script("trim 0").map(|()| 0), Cause::Syntax),
        (session.set_script("source 1\ndelete 0").map(|()| 0), Cause::Syntax),
        (session.set_script("source 2").map(|()| 0), Cause::Reference),
        (session.set_script("crop 0 1 0 2 2").map(|()| 0), Cause::Number),
        (session.set_script(["source 1"; 17].join(";")).map(|()| 0), Cause::Nodes),
        (session.frame(frames).map(|_| 0), Cause::NoSuchFrame),
        (session.frame(u64::MAX).map(|_| 0), Cause::NoSuchFrame),
    ] {
        assert_eq!(cause(result), wanted);
    }
    let refused = session.delete(packets).expect_err("a refusal");
    assert_eq!(refused.to_string(), format!("refused Place: packet {packets} does not exist: source 0 has {packets} packets"));
    session.insert(0, 0, &[]).expect("a packet");
    assert_eq!(cause(session.hide(0)), Cause::NoBit);
    session.delete(0).expect("a packet");
    session.set_script("crop 0 4 0 4 2").expect("a script");
    assert_eq!(cause(session.frame(0)), Cause::CropOutside);
    session.set_script("source 1;splice 0 1").expect("a script");
    session.frame(0).expect("a frame");
    let sizes = session.frame(frames).expect_err("a refusal").to_string();
    assert_eq!(sizes, "refused SizeDiffers: 175x143 is not 7x5, the size of the first frame served");
}

#[test]
fn a_refused_packet_is_named() {
    let mut session = Session::open_all([path("odd-size.ivf"), path("small.ivf")]).expect("two IVF files");
    session.use_source(1).expect("a source");
    session.set_script("source 1").expect("a script");
    let key = session.packet(0).expect("a packet").bytes;
    let changed = |place: usize, byte: u8| {
        let mut bytes = key.clone();
        bytes[place] = byte;
        bytes
    };
    for (bytes, wanted) in [
        (vec![0x10, 0], PacketCause::ShortPacket),
        (changed(0, key[0] | 0x0e), PacketCause::Version),
        (changed(3, 0x9c), PacketCause::StartCode),
        ([&key[..6], &[0, 0, 0, 0], &key[10..]].concat(), PacketCause::Size),
        (vec![], PacketCause::NoKeyFrame),
        (changed(2, 0xff), PacketCause::FirstPartition),
    ] {
        session.replace(0, &bytes).expect("a packet");
        let Err(Fault::Refused(refused)) = session.frame(1) else { panic!("{wanted:?} is served") };
        assert_eq!((refused.cause, refused.source, refused.packet), (Cause::Packet(wanted), Some(1), Some(0)));
        assert!(refused.to_string().starts_with(&format!("refused source 1 packet 0 {wanted:?}: ")) && !refused.reason.is_empty(), "{refused}");
    }
}

#[test]
fn files_are_refused_with_their_paths() {
    let (small_file, none, folder) = (clip("small.ivf"), path("none.ivf"), path(""));
    let Err(Fault::Read { path: named, kind: ErrorKind::NotFound, .. }) = Session::open(&none) else { panic!("a missing file is opened") };
    assert_eq!(named, none);
    let fault = Session::open_all([path("small.ivf"), none.clone()]).expect_err("a missing file");
    assert!(fault.to_string().starts_with(&format!("cannot read {}: ", none.display())), "{fault}");
    assert!(matches!(Session::open(&folder), Err(Fault::Read { .. })));
    let manifest = PathBuf::from(env!("CARGO_MANIFEST_DIR")).join("Cargo.toml");
    let fault = Session::open_all([path("small.ivf"), manifest.clone()]).expect_err("a text");
    let magic = FileCause::Magic;
    assert_eq!(fault, Fault::File { source: 1, path: Some(manifest.clone()), cause: magic });
    assert_eq!(fault.to_string(), format!("{} is not an IVF, WebM or Matroska file of VP8: Magic", manifest.display()));
    assert_eq!(Session::from_bytes(&[&small_file, &[7; 40]], 2).err(), Some(Fault::File { source: 1, path: None, cause: magic }));
    assert_eq!(Session::from_bytes(&[&small_file[..31]], 2).err(), Some(Fault::File { source: 0, path: None, cause: FileCause::Header }));
    for cache in [Cache::States(0), Cache::States(4097)] {
        assert_eq!(Session::from_bytes(&[&small_file], cache).err(), Some(Fault::Argument), "{cache:?}");
    }
    assert_eq!(Session::from_bytes(&[], 2).err(), Some(Fault::Argument));
    assert_eq!(Session::open_all(Vec::<PathBuf>::new()).err(), Some(Fault::Argument));
    assert_eq!(Session::open_all(vec![path("small.ivf"); 9]).err(), Some(Fault::Argument));
}

#[test]
fn a_frame_of_another_size_gets_its_room() {
    let mut frame = Frame::default();
    for name in ["small.ivf", "odd-size.ivf", "small.ivf"] {
        let mut session = Session::open(path(name)).expect("an IVF file");
        session.frame_into(0, &mut frame).expect("a frame");
        assert_eq!(frame.y.len(), (frame.width * frame.height) as usize);
        assert_eq!(frame, session.frame(0).expect("a frame"));
    }
    // Planes that are not those of the size.
    let mut session = small();
    let wanted = session.frame(0).expect("a frame");
    for (width, height, size) in [(7, 5, 0), (7, 5, 1000), (u32::MAX, u32::MAX, 1), (0, 0, 1 << 16), (7, 5, 35)] {
        let mut frame = Frame { width, height, y: vec![1; size], cb: vec![1; size], cr: vec![1; size] };
        assert_eq!(session.frame_into(0, &mut frame), Ok(()));
        assert_eq!(frame, wanted);
    }
}

#[test]
fn debug_texts_are_short() {
    let mut session = small();
    assert_eq!(format!("{session:?}"), "Session { .. }");
    assert_eq!(format!("{:?}", session.frame(0).expect("a frame")), "Frame { width: 7, height: 5, .. }");
    let packet = session.packet(0).expect("a packet");
    assert_eq!(format!("{packet:?}"), format!("Packet {{ stamp: 0, size: {}, .. }}", packet.bytes.len()));
}

#[test]
fn faults_are_errors() {
    fn fails() -> Result<(), Box<dyn Error + Send + Sync>> {
        small().frame(99)?;
        Ok(())
    }
    let error = fails().expect_err("a refusal");
    assert!(error.to_string().starts_with("refused NoSuchFrame: "), "{error}");
    assert!(error.downcast_ref::<Fault>().and_then(Fault::refused).is_some());
}

/// Numbers in a fixed order that looks random.
struct Chance(u64);

impl Chance {
    fn below(&mut self, most: u64) -> u64 {
        self.0 = self.0.wrapping_mul(6364136223846793005).wrapping_add(1442695040888963407);
        (self.0 >> 33) % most
    }
}

#[test]
fn no_input_panics() {
    let mut chance = Chance(7);
    let file = clip("small.ivf");
    for turn in 0..300 {
        let mut bytes = file.clone();
        for _ in 0..chance.below(6) {
            let place = chance.below(bytes.len() as u64) as usize;
            bytes[place] = chance.below(256) as u8;
        }
        bytes.truncate(file.len() - if turn % 3 == 0 { chance.below(file.len() as u64) as usize } else { 0 });
        let Ok(mut session) = Session::from_bytes(&[&bytes, &file], 1 + chance.below(4) as u16) else { continue };
        for _ in 0..20 {
            let (a, b) = (chance.below(16), chance.below(16));
            let result = match chance.below(8) {
                0 => session.delete(a),
                1 => session.move_packet(a, b),
                2 => session.copy(b as usize % 3, a, b),
                3 => session.replace(a, &bytes[..b as usize]),
                4 => session.use_source(a as usize % 3),
                5 => session.set_script(format!("trim {a} {b} 4;{}", char::from(chance.below(128) as u8))).map(|()| 0),
                6 => session.frame(a).map(|_| 0),
                _ => session.request(&String::from_utf8_lossy(&bytes[a as usize..][..b as usize])).map(|_| 0),
            };
            assert!(!matches!(result, Err(Fault::Memory | Fault::Argument)), "{result:?}");
        }
        assert!(session.frames(..).size_hint().0 < 1 << 20);
        assert!(Session::from_bytes(&[&session.save(true).expect("a file")], 1).is_ok());
    }
}
