//! The text formats: what is said of slips.

use heat_battery::{text, Call, Card};

fn listed(list: &str) -> Vec<Call> {
    text::calls(list).expect("a list").into_iter().map(|listed| listed.call).collect()
}

fn slip(list: &str) -> String {
    text::calls(list).expect_err("a slip").to_string()
}

#[test]
fn slips_in_calls_are_named() {
    let of = |list: &str, words: &str| {
        let slip = slip(list);
        assert!(slip.contains(words), "{slip:?} has no {words:?}");
    };
    of("\n\nheat power=1", "line 3: 'heat' is no call; the calls are demand, electric");
    of("electric power=1", "line 1: missing: target (0 to 1)");
    of("electric power=1 target=0,5", "target is '0,5', no number (write a point, not a comma)");
    of("electric power=1 power=2 target=0", "power stands twice");
    of("electric power=1 target=1 flow=2", "'flow' is no field; the fields are power, target");
    of("standing_loss now=1", "none is expected");
    of("electric power = 1 target=1", "'power' is no name=value (without blanks)");
    of("electric power=1 target=", "'target=' is no name=value");
    of("demand service=bath", "service is 'bath', not combi, regular, space, direct or a number");
    of("demand commit=2", "commit is '2', not yes or no");
    of("\0\x1b[31m\r\n", "line 1: '\\0\\u{1b}[31m' is no call");
}

#[test]
fn slips_in_cards_are_named() {
    let template = Card::example().to_string();
    let of = |from: &str, to: &str, words: &str| {
        let slips = template.replace(from, to).parse::<Card>().expect_err("a slip").to_string();
        assert!(slips.contains(words), "{slips:?} has no {words:?}");
    };
    of("layers = 8", "layers = 300", "line 3: layers is 300, out of its range 1 to 64");
    of("layers = 8", "layers = 8.5", "layers is '8.5', no whole number");
    of("layers = 8", "", "missing: layers (1 to 64)");
    of("layers = 8", "layers 8", "'layers 8' is no 'name = value'");
    of("units = 1", "layers = 8", "layers stands twice");
    of("max = ", "maximum = ", "'maximum' is no field");
    of("max = 80.0", "max = 80,5", "line 11: max is '80,5', no number");
    let slips = template.replace("max = 80.0", "max = hot").parse::<Card>().expect_err("a slip");
    assert_eq!(slips.first.len(), 1, "what stands there is not missing: {slips}");
    of("simultaneous = no", "simultaneous = 2", "simultaneous is '2', not yes or no");
    of("layers = 8", "layers = 80\nx", "layers is 80, out of its range 1 to 64");
    let many = "x\n".repeat(1000).parse::<Card>().expect_err("slips");
    assert_eq!((many.first.len(), many.more), (20, 981));
}

/// Ends of lines, comments, a mark of order and any order of fields.
#[test]
fn texts_are_read_leniently() {
    let calls = listed("\u{feff}electric target=1 power=2 # night\r\n\r\n  close_timestep\t\r\n");
    assert_eq!(calls, [Call::Electric { power: 2.0, target: 1.0 }, Call::CloseTimestep]);
    let card: Card = Card::example().to_string().replace('\n', "\r\n").parse().expect("a card");
    assert_eq!(card, Card::example());
    assert_eq!(listed(""), []);
}
