//! What is asked of a picture, on one made by hand.

use reference::picture::{compare, xml, Met};

const TRACE: &str = "> lock 2 1\n0 0 accepted\nC 1 0 - 0\nC 2 0 - 0\n> order 1\n1 0 accepted\n\
    > vote 1 willing 5\n2 0 accepted\nC 1 1 - 0\nsent vote 1 2\n> deliver vote 1 2\n3 0 accepted\n";

const PICTURE: &str = "<svg width=\"200\" height=\"100\">\
    <text class=\"head\" x=\"50\" y=\"10\" font-size=\"9\">1</text><text class=\"head\" x=\"150\" y=\"10\" font-size=\"9\">2</text>\
    <text class=\"index\" x=\"5\" y=\"24\" font-size=\"9\">0</text><text class=\"index\" x=\"5\" y=\"44\" font-size=\"9\">1</text>\
    <text class=\"index\" x=\"5\" y=\"64\" font-size=\"9\">2</text><text class=\"index\" x=\"5\" y=\"84\" font-size=\"9\">3</text>\
    <g class=\"vote\"><title>2: vote 1 willing 5</title></g>\
    <g class=\"comes\"><title>vote 1 to 2: sent at 2, comes at 3</title>\
    <line x1=\"50\" y1=\"60\" x2=\"149\" y2=\"80\" stroke=\"#000\"/><path d=\"M149,80 L140,83 L140,77 Z\"/></g></svg>";

fn answer(picture: &str) -> Result<(), String> {
    compare(TRACE, picture, &mut Met::default())
}

#[test]
fn what_the_trace_tells() {
    assert_eq!(answer(PICTURE), Ok(()));
}

/// Each with one place of the picture changed, and a word of what is said of it.
#[test]
fn faults_are_found() {
    let faults = [
        ("class=\"comes\"", "class=\"lost\"", "comes: 1 told, 0 drawn"),
        ("class=\"comes\"", "class=\"comes again\"", "comes: 1 told, 0 drawn"),
        ("class=\"vote\"", "class=\"bell\"", "vote: 1 told, 0 drawn"),
        ("comes at 3<", "comes at 2<", "not drawn"),
        ("x=\"5\" y=\"84\" font-size=\"9\">3", "x=\"5\" y=\"84\" font-size=\"9\">4", "indices"),
        ("x1=\"50\"", "x1=\"150\"", "drawn from"),
        ("M149,80", "M149,60", "drawn from"),
        ("<path d=\"M149,80 L140,83 L140,77 Z\"/>", "", "drawn from"),
        ("x=\"5\" y=\"44\"", "x=\"5\" y=\"30\"", "stand on each other"),
        ("height=\"100\"", "height=\"80\"", "beyond the picture"),
        ("</g></svg>", "</svg>", "ends as"),
        ("willing 5<", "willing & 5<", "names nothing"),
    ];
    for (old, new, said) in faults {
        assert!(PICTURE.contains(old), "{old}");
        let why = answer(&PICTURE.replacen(old, new, 1)).expect_err(new);
        assert!(why.contains(said), "{new}: {why}");
    }
}

#[test]
fn what_is_no_xml() {
    for text in [
        "",
        "a",
        "<a>",
        "<a></b>",
        "<a/><b/>",
        "<a b></a>",
        "<a b=\"1\" b=\"2\"/>",
        "<a b=\"<\"/>",
        "<a>&b;</a>",
        "<a>\u{1}</a>",
        "<a b=\"1\"c=\"2\"/>",
    ] {
        assert!(xml::read(text).is_err(), "{text:?}");
    }
    let read = xml::read("<a b=\"&lt;1&quot;\">x<c/>&amp;</a>").expect("well-formed");
    assert_eq!((read.text.as_str(), read.attribute("b"), read.children.len()), ("x&", Some("<1\""), 1));
}
