//! The command `replay`: the reply to each line of a script of viewers, the passes, who share frames of subtrees.
use crate::request::{cut, lines, number, region_of};
use crate::steps::Steps;
use crate::subtree::Outcome;
use crate::tileset::Layout;
use crate::tree::Region;
use crate::walk::{End, Files, Scene, Tile, PIECE};
use std::collections::{BTreeSet, HashMap};
use std::io::{self, Write};
use std::iter;
use std::mem::{replace, take};

const MOST_PAGE: u32 = 65536;

enum Event {
    Attach(Result<Region, u64>),
    Claim,
    Pin,
    Load,
    Fail,
    Commit,
    Drop,
    Page(usize),
}

// The pass of a line and what the line asks for.
fn event_of(layout: &Layout, line: &[u8]) -> Option<(usize, Event)> {
    let (name, rest) = cut(line)?;
    let (pass, event) = match name {
        b"attach" => {
            let (pass, request) = cut(rest)?;
            (pass, Event::Attach(region_of(layout, request)))
        }
        b"page" => {
            let (pass, count) = cut(rest)?;
            (pass, Event::Page(number(count).filter(|count| *count <= MOST_PAGE)? as usize))
        }
        b"claim" => (rest, Event::Claim),
        b"pin" => (rest, Event::Pin),
        b"load" => (rest, Event::Load),
        b"fail" => (rest, Event::Fail),
        b"commit" => (rest, Event::Commit),
        b"drop" => (rest, Event::Drop),
        _ => return None,
    };
    Some((number(pass)? as usize, event))
}

// A subtree by the level and the index of its root.
type Key = (u32, u64);

// A frame is empty where it has no key, and loading where it has no outcome.
#[derive(Default)]
struct Frame {
    key: Option<Key>,
    outcome: Option<Outcome>,
    pins: usize,
    asked: u64,
}

enum Asked {
    Hit(usize),
    Granted(usize),
    Loading,
    Busy,
}

struct Frames {
    frames: Vec<Frame>,
    places: HashMap<Key, usize>,
    // The frames that may be given up, the first one first: those that are empty, and then those that are ready without a pin, by
    // when they were asked for.
    free: BTreeSet<(u64, usize)>,
    clock: u64,
}

impl Frames {
    fn new(count: usize) -> Frames {
        let frames = iter::repeat_with(Frame::default).take(count).collect();
        Frames { frames, places: HashMap::new(), free: (0..count).map(|place| (0, place)).collect(), clock: 0 }
    }

    fn ask(&mut self, key: Key) -> Asked {
        self.clock += 1;
        if let Some(&place) = self.places.get(&key) {
            let frame = &mut self.frames[place];
            if frame.outcome.is_none() {
                return Asked::Loading;
            }
            if frame.pins == 0 {
                self.free.remove(&(frame.asked, place));
            }
            frame.pins += 1;
            frame.asked = self.clock;
            return Asked::Hit(place);
        }
        let Some((_, place)) = self.free.pop_first() else {
            return Asked::Busy;
        };
        let frame = Frame { key: Some(key), asked: self.clock, ..Frame::default() };
        if let Some(old) = replace(&mut self.frames[place], frame).key {
            self.places.remove(&old);
        }
        self.places.insert(key, place);
        Asked::Granted(place)
    }

    fn load(&mut self, place: usize, outcome: Outcome) {
        self.frames[place].outcome = Some(outcome);
        self.frames[place].pins = 1;
    }

    fn empty(&mut self, place: usize) {
        if let Some(key) = take(&mut self.frames[place]).key {
            self.places.remove(&key);
        }
        self.free.insert((0, place));
    }

    fn unpin(&mut self, place: usize) {
        let frame = &mut self.frames[place];
        frame.pins -= 1;
        if frame.pins == 0 {
            self.free.insert((frame.asked, place));
        }
    }
}

#[derive(Clone, Copy)]
enum Held {
    Nothing,
    Loads(usize),
    Pins(usize),
}

#[derive(Clone)]
struct Pass {
    cursor: Option<usize>,
    place: usize,
    held: Held,
}

struct Cursor {
    steps: Steps,
    tiles: Vec<Tile>,
    holder: Option<usize>,
}

struct Replay<'s, F> {
    scene: &'s Scene<F>,
    frames: Frames,
    passes: Vec<Pass>,
    cursors: Vec<Cursor>,
    plans: HashMap<Region, usize>,
    text: String,
}

impl<F: Files> Replay<'_, F> {
    fn say(&mut self, reply: &str) {
        self.text.push_str(reply);
        self.text.push('\n');
    }

    fn say_number(&mut self, reply: &str, number: usize) {
        self.text.push_str(reply);
        self.text.push('\t');
        self.say(itoa::Buffer::new().format(number));
    }

    fn take_turn(&mut self, pass: usize, event: Event) {
        let Some(Pass { cursor, held, .. }) = self.passes.get(pass).cloned() else {
            return self.say("no");
        };
        let has_work = cursor.is_some_and(|cursor| self.cursors[cursor].holder == Some(pass));
        match (event, cursor, has_work, held) {
            (Event::Attach(asked), _, false, _) => self.attach(pass, asked),
            (Event::Claim, Some(cursor), false, _) => self.claim(pass, cursor),
            (Event::Pin, Some(cursor), true, Held::Nothing) => self.pin(pass, cursor),
            (Event::Load, Some(cursor), _, Held::Loads(frame)) => self.load(pass, cursor, frame),
            (Event::Fail, _, _, Held::Loads(frame)) => self.fail(pass, frame),
            (Event::Commit, Some(cursor), true, Held::Pins(frame)) => self.commit(pass, cursor, frame),
            (Event::Drop, Some(cursor), true, held) => self.drop_work(pass, cursor, held),
            (Event::Page(count), Some(cursor), ..) => self.page(pass, cursor, count),
            _ => self.say("no"),
        }
    }

    fn attach(&mut self, pass: usize, asked: Result<Region, u64>) {
        let region = match asked {
            Ok(region) => region,
            Err(number) => return self.say_number("refused", number as usize),
        };
        let next = self.cursors.len();
        let cursor = *self.plans.entry(region).or_insert(next);
        if cursor == next {
            self.cursors.push(Cursor { steps: Steps::new(region), tiles: Vec::new(), holder: None });
        }
        self.passes[pass] = Pass { cursor: Some(cursor), place: 0, held: Held::Nothing };
        self.say_number("cursor", cursor);
    }

    fn claim(&mut self, pass: usize, cursor: usize) {
        let cursor = &mut self.cursors[cursor];
        if cursor.steps.end().is_some() {
            self.say("end");
        } else if cursor.holder.is_some() {
            self.say("out");
        } else {
            cursor.holder = Some(pass);
            self.say("claimed");
        }
    }

    fn pin(&mut self, pass: usize, cursor: usize) {
        let (level, root) = self.cursors[cursor].steps.root();
        match self.frames.ask((level, root.index)) {
            Asked::Hit(frame) => {
                self.passes[pass].held = Held::Pins(frame);
                self.say_number("hit", frame);
            }
            Asked::Granted(frame) => {
                self.passes[pass].held = Held::Loads(frame);
                self.say_number("granted", frame);
            }
            Asked::Loading => self.say("loading"),
            Asked::Busy => self.say("busy"),
        }
    }

    fn load(&mut self, pass: usize, cursor: usize, frame: usize) {
        let (level, root) = self.cursors[cursor].steps.root();
        match self.scene.read(level, root) {
            Ok(outcome) => {
                self.frames.load(frame, outcome);
                self.passes[pass].held = Held::Pins(frame);
                self.say_number("loaded", frame);
            }
            Err(_) => self.fail(pass, frame),
        }
    }

    fn fail(&mut self, pass: usize, frame: usize) {
        self.frames.empty(frame);
        self.passes[pass].held = Held::Nothing;
        self.say("failed");
    }

    fn commit(&mut self, pass: usize, cursor: usize, frame: usize) {
        let Cursor { steps, tiles, holder } = &mut self.cursors[cursor];
        match self.frames.frames[frame].outcome.as_ref().expect("a loaded frame") {
            Ok(subtree) => steps.step(self.scene, subtree, tiles),
            Err(number) => steps.stop(*number),
        }
        *holder = None;
        let shown = tiles.len();
        self.frames.unpin(frame);
        self.passes[pass].held = Held::Nothing;
        self.say_number("moved", shown);
    }

    fn drop_work(&mut self, pass: usize, cursor: usize, held: Held) {
        match held {
            Held::Nothing => {}
            Held::Loads(frame) => self.frames.empty(frame),
            Held::Pins(frame) => self.frames.unpin(frame),
        }
        self.cursors[cursor].holder = None;
        self.passes[pass].held = Held::Nothing;
        self.say("dropped");
    }

    fn page(&mut self, pass: usize, cursor: usize, count: usize) {
        let Cursor { steps, tiles, .. } = &self.cursors[cursor];
        let rest = &tiles[self.passes[pass].place..];
        let tiles = &rest[..count.min(rest.len())];
        let mut buffer = itoa::Buffer::new();
        self.text.push_str("page\t");
        self.text.push_str(buffer.format(self.passes[pass].place));
        self.text.push('\t');
        self.text.push_str(buffer.format(tiles.len()));
        self.text.push_str(match steps.end() {
            None => "\tpartial\n",
            Some(End::Complete) => "\tcomplete\n",
            Some(End::TooMany) => "\ttoo-many\n",
            Some(End::Fault { .. }) => "\tfault\n",
        });
        for tile in tiles {
            self.scene.append_line(tile, &mut self.text);
        }
        self.passes[pass].place += tiles.len();
    }
}

/// Writes the reply to each line of a script of so many passes who share so many frames.
pub fn replay<F: Files>(scene: &Scene<F>, frames: usize, passes: usize, script: &[u8], mut out: impl Write) -> io::Result<()> {
    let mut replay = Replay {
        scene,
        frames: Frames::new(frames),
        passes: vec![Pass { cursor: None, place: 0, held: Held::Nothing }; passes],
        cursors: Vec::new(),
        plans: HashMap::new(),
        text: String::with_capacity(2 * PIECE),
    };
    for line in lines(script) {
        match event_of(&scene.layout, line) {
            Some((pass, event)) => replay.take_turn(pass, event),
            None => replay.say("bad"),
        }
        if replay.text.len() >= PIECE {
            out.write_all(replay.text.as_bytes())?;
            replay.text.clear();
        }
    }
    out.write_all(replay.text.as_bytes())
}
