//! What the fuzzer of T-11's controllers gives to them is what it says, and what it counts and what it must not meet.

use peer::compare::Lent;
use peer::controller::calls::any_call;
use peer::controller::corners::{Call, Corners};
use peer::controller::damage::Damage;
use peer::controller::message::encode;
use peer::controller::reading::{read, Given, Input};
use peer::controller::records::*;
use peer::controller::share::Cabinet;
use peer::corners::Source;
use peer::list::write_event;
use peer::machine::*;
use peer::numbers::Numbers;
use peer::proved::{node_from_bytes, Library, Own};

fn scenes(numbers: &mut Numbers) -> [Scene; 3] {
    [with_event(numbers), with_message(None, numbers), sending(numbers)]
}

fn answer(scene: &Scene) -> Result<Share, u8> {
    let cabinet = Cabinet { n: scene.n, own: scene.own, record: scene.record };
    match scene.reaches {
        Reaches::Event(event) => cabinet.event(&event),
        Reaches::Message(m) => cabinet.message(&encode(&m)),
    }
}

/// Each scene is in range, as its bytes are in each other form of them, and most are accepted.
#[test]
fn scenes_are_in_range() {
    let mut numbers = Numbers::new(1);
    let (mut accepted, mut all) = (0, 0);
    for _ in 0..4000 {
        for scene in scenes(&mut numbers) {
            let Scene { n, own, record, reaches } = scene;
            assert!(record.in_range(n, own), "{scene:?}");
            if let Reaches::Message(m) = reaches {
                assert!(m.in_range(n) && m.receiver == own, "{scene:?}");
            }
            let bytes = record_bytes(&record);
            let mut form = in_another_form(&bytes, &mut numbers);
            form.resize(29, 0);
            assert_eq!(node_from_bytes(form.first_chunk().unwrap()), record);
            all += 1;
            accepted += u32::from(answer(&scene).is_ok());
        }
    }
    assert!(2 * accepted > all, "{accepted} of {all}");
}

/// Each rule is broken, by the machine's range and by the second reading of it; and what was broken can be told
/// from nothing but the numbers and the record.
#[test]
fn each_rule_is_broken() {
    let mut numbers = Numbers::new(2);
    let mut broken = vec![0; rule_names().count()];
    for _ in 0..8000 {
        for mut scene in scenes(&mut numbers) {
            let before = scene;
            match break_rule(&mut scene, &mut numbers) {
                None => assert_eq!(answer(&scene), answer(&before)),
                Some(rule) => {
                    broken[rule] += 1;
                    let name = rule_names().nth(rule).unwrap();
                    assert_eq!(answer(&scene), Err(1), "{name}: {scene:?}");
                    let record = record_bytes(&scene.record).to_vec();
                    let input = Input::Message(Vec::new());
                    let given = Given { n: scene.n, own: scene.own, record, input };
                    assert_eq!(read(&given, 55).answer, 1, "{name}: {scene:?}");
                }
            }
        }
    }
    assert!(broken.iter().all(|&times| times > 30), "{broken:?}");
}

/// A call of cabinet 1 of 3, and what it is judged to be where it is answered so.
struct Judged {
    given: Given,
    corners: Corners,
}

impl Judged {
    fn new(record: &Node, input: Input) -> Judged {
        let record = record_bytes(record).to_vec();
        Judged { given: Given { n: 3, own: 1, record, input }, corners: Corners::default() }
    }

    fn event(record: &Node, event: Event) -> Judged {
        let mut field = Vec::new();
        write_event(&mut field, &event);
        Judged::new(record, Input::Field(field))
    }

    /// By this program's own controller, with something done to its answer and its buffer.
    fn by(
        &mut self,
        room: usize,
        change: impl FnOnce(&mut u8, &mut [u8]),
        damage: Option<(u8, Damage)>,
        broken: Option<usize>,
    ) -> Result<(), String> {
        let mut lent = Lent::new(room, &mut Numbers::new(3));
        let Given { n, own, record, input } = &self.given;
        let mut answer = match input {
            Input::Field(field) => Own.controller_event(*n, *own, record, field, &mut lent.now),
            Input::Message(bytes) => Own.controller_message(*n, *own, record, bytes, &mut lent.now),
        };
        change(&mut answer, &mut lent.now);
        let given = &self.given;
        let call = Call { given, damage, broken, answer, lent: &lent };
        self.corners.call(Source::Table, &call)
    }

    fn told(&mut self, change: impl FnOnce(&mut u8, &mut [u8])) -> String {
        self.by(60, change, None, None).unwrap_err()
    }

    /// The names of what was met.
    fn met(&mut self, room: usize) -> Vec<String> {
        self.by(room, |_, _| (), None, None).unwrap();
        let text = self.corners.book().text();
        let lines = text.lines().filter_map(|line| line.trim_start().strip_prefix("0 "));
        let mut met: Vec<String> = lines
            .filter_map(|line| line.trim_start().split_once("  "))
            .filter(|(count, _)| count.parse::<u64>().is_ok_and(|count| count > 0))
            .map(|(_, name)| name.to_string())
            .collect();
        met.sort();
        met
    }
}

fn up() -> Node {
    let group = group_number(1, 1);
    Node { status: Status::Normal, counter: 1, group, coordinator: 1, ..Node::START }
}

#[test]
fn what_is_counted() {
    let met = Judged::event(&up(), Event::Check(1)).met(55);
    let expected = [
        "check, accepted, idle",
        "check, sends AreYouCoordinator",
        "event, 55 bytes lent",
        "n = 3",
        "own number 1",
    ];
    assert_eq!(met, expected);
    let met = Judged::event(&Node::START, Event::Finish(2, 5)).met(60);
    let expected = [
        "finish, refused 8",
        "finish, refused 8, 10 too",
        "finish, refused 8, 21 too",
        "finish, refused 8, 9 too",
    ];
    assert_eq!(met, expected);
    let met = Judged::event(&Node::START, Event::Crash(4)).met(54);
    let expected = [
        "event, answered 255, 21 too",
        "event, answered 255, 54 bytes",
        "event, answered 255, 7 too",
        "event, answered 255, 9 too",
    ];
    assert_eq!(met, expected);
    let ends = Node { counter: MAX_COUNTER, last_call: MAX_CALL, ..Node::START };
    let reply = Message { sender: 2, receiver: 3, call: 1, body: Body::Reply { yes: true } };
    let met = Judged::new(&ends, Input::Message(encode(&reply))).met(55);
    let expected = [
        "reply, refused 21",
        "reply, refused 21, 12 too",
        "reply, refused 21, 13 too",
        "reply, refused 21, 9 too",
    ];
    assert_eq!(met, expected);
    let met = Judged::new(&up(), Input::Field(vec![0x17, 0, 1, 1])).met(55);
    assert_eq!(met, ["event, deliver of another length", "no event, refused 4"]);
}

#[test]
fn what_must_not_follow_is_told() {
    let mut check = Judged::event(&up(), Event::Check(1));
    assert_eq!(check.told(|answer, _| *answer = 18), "answered 18, by the grounds 0");
    let words = check.told(|_, out| out[55] ^= 1);
    assert_eq!(words, "accepted, and byte 55 of the buffer has changed");
    for place in 0..29 {
        let words = check.told(|_, out| out[place] ^= 1);
        assert!(words.starts_with("the record after is "), "{words}");
    }
    for place in 29..43 {
        let words = check.told(|_, out| out[place] ^= 1);
        assert!(words.starts_with("the message is "), "{words}");
    }
    assert_eq!(check.by(60, |_, out| out[43] ^= 1, None, None), Ok(()));
    let words = check.told(|_, out| out[29] = 200);
    assert_eq!(words, "the message does not fit there");
    let mut other = Judged::event(&up(), Event::Check(2));
    assert_eq!(other.told(|answer, _| *answer = 0), "answered 0, by the grounds 21");
    let words = other.told(|_, out| out[54] ^= 1);
    assert_eq!(words, "refused, and byte 54 of the buffer has changed");
}

/// What was done to a message or a record says what must be answered, whatever the grounds are read to be.
#[test]
fn what_was_done_says_what_is_answered() {
    let reply = Message { sender: 2, receiver: 1, call: 1, body: Body::Reply { yes: true } };
    let mut right = Judged::new(&up(), Input::Message(encode(&reply)));
    let mut with = |damage| right.by(60, |_, _| (), Some((6, damage)), None);
    assert_eq!(with(Damage::Changed(3)), Ok(()));
    // Sender 0, and the end of a range.
    assert_eq!(with(Damage::Number(33)), Ok(()));
    for damage in [Damage::Cut(5), Damage::Form(0), Damage::Number(0)] {
        assert!(with(damage).unwrap_err().starts_with("answered 0 to "), "{damage:?}");
    }
    let words = right.by(60, |_, _| (), None, Some(0)).unwrap_err();
    assert_eq!(words, "answered 0, and a rule of the range is broken");
    let mut wrong = Judged::new(&up(), Input::Message(encode(&Message { sender: 0, ..reply })));
    let mut with = |damage| wrong.by(60, |_, _| (), Some((6, damage)), None);
    assert_eq!(with(Damage::Number(0)), Ok(()));
    assert!(with(Damage::Number(33)).unwrap_err().starts_with("answered 20 to "));
}

/// What is met too seldom is told by its name, and nothing is met that the papers have no place for.
#[test]
fn seldom_and_impossible() {
    let mut numbers = Numbers::new(4);
    let mut corners = Corners::default();
    let all = corners.book().seldom(1).len();
    for _ in 0..40_000 {
        let (given, made, room) = any_call(&mut numbers);
        let mut judged = Judged { given, corners };
        judged.by(room, |_, _| (), made.damage, made.broken).unwrap();
        corners = judged.corners;
    }
    let seldom = corners.book().seldom(1);
    assert!(all > 980 && seldom.len() < 60, "{} of {all}", seldom.len());
    assert!(seldom.iter().any(|words| words == "queue, deliver, in runs: 0"), "{seldom:?}");
    assert_eq!(corners.book().impossible(), Vec::<String>::new());
    corners.queue_event(Source::Run, TOWER, &Event::Tick(1), 17);
    corners.queue_event(Source::Table, TOWER, &Event::Tick(1), 6);
    assert_eq!(corners.book().impossible(), ["queue, refused 17, in a run", "queue, refused 6"]);
}
