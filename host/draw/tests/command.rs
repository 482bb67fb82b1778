//! The program as a user meets it: what it writes, what it says, and how it ends.

use std::path::Path;
use std::process::{Command, Output};

fn draw(words: &[&str]) -> Output {
    Command::new(env!("CARGO_BIN_EXE_draw"))
        .args(words)
        .output()
        .expect("the program runs")
}

fn stdout(words: &[&str]) -> String {
    let output = draw(words);
    assert!(output.status.success(), "{words:?}: {output:?}");
    String::from_utf8(output.stdout).expect("UTF-8")
}

/// The exit status and what was said of a command that must fail and write nothing.
fn failure(words: &[&str]) -> (i32, String) {
    let output = draw(words);
    assert!(output.stdout.is_empty(), "{words:?}");
    let said = String::from_utf8(output.stderr).expect("UTF-8");
    (output.status.code().expect("a status"), said)
}

#[test]
fn a_bad_option_ends_with_2_and_one_sentence() {
    let cases: [&[&str]; 16] = [
        &["tours"],
        &["--size", "3"],
        &["--steps", "forty"],
        &["torus", "--arms", "3"],
        &["--texture", "swirl", "--twist", "much"],
        &["--u", "0-1"],
        &["torus", "--highlight", "20"],
        &["--texture", "swirl", "--highlight", "0"],
        &["--texture", "spiral", "--highlight", "2.5"],
        &["--tolerance", "0.1"],
        &["torus", "--tolerance", "1,1,near"],
        &["torus", "--tolerance", "1,0,1"],
        &["torus", "--seam-u", "forwards:0"],
        &["torus", "--seam-v", "reverse"],
        &["torus", "--seam-v", "none:0"],
        &["torus", "--seam-u", "forward:30"],
    ];
    for words in cases {
        let (status, said) = failure(&[words, &["-o", "-"]].concat());
        assert_eq!(status, 2, "{words:?}");
        assert!(said.starts_with("draw: "), "{said}");
        assert_eq!(said.lines().count(), 1, "{said}");
    }
}

#[test]
fn a_fault_in_a_formula_is_pointed_at() {
    let (status, said) = failure(&["--formula", "x = u; y = 2v; z = 0"]);
    assert_eq!(status, 2);
    let expected = "draw: in the formula, an operator or ';' belongs here
    x = u; y = 2v; z = 0
                ^
";
    assert_eq!(said, expected);
}

#[test]
fn a_refusal_has_its_number_and_its_sentence() {
    let cases: [(&[&str], &str); 6] = [
        (
            &["--steps", "256x3"],
            "1: M and N must each be from 1 to 255",
        ),
        (&["--steps", "3x0"], "1: M and N must each be from 1 to 255"),
        (
            &["--steps", "3x0", "--seam-u", "forward:0"],
            "1: M and N must each be from 1 to 255",
        ),
        (
            &["--texture", "swirl", "--twist", "65"],
            "5: the twist is NaN, infinite or beyond ±64, or there are more than 64 arms",
        ),
        (
            &["--texture", "spiral", "--arms", "65"],
            "5: the twist is NaN, infinite or beyond ±64, or there are more than 64 arms",
        ),
        (
            &["--texture", "swirl", "--spacing", "0.001"],
            "6: the texture would have more than 65,536 rays, or samples to a ray",
        ),
    ];
    for (words, refusal) in cases {
        let (status, said) = failure(&[words, &["-o", "-"]].concat());
        assert_eq!(status, 1, "{words:?}");
        assert_eq!(
            said,
            format!("draw: the library refuses this with {refusal}\n")
        );
    }
}

#[test]
fn a_formula_that_is_refused_is_told_where() {
    let sqrt = "x = u; y = sqrt(1 - v); z = 0";
    let cases: [(&[&str], &str); 3] = [
        (&["x = 1/u; y = v; z = 0"], "x = inf at u = 0.0, v = 0.0"),
        (
            &[sqrt, "--v", "0..2", "--steps", "3x4"],
            "y = NaN at u = 0.0, v = 1.5",
        ),
        (
            &["x = u; y = v; z = 2^u", "--u", "0..50", "--steps", "50x2"],
            "z = 2199023255552.0 at u = 41.0, v = 0.0",
        ),
    ];
    for (words, first) in cases {
        let (status, said) = failure(&[&["-o", "-", "--formula"], words].concat());
        assert_eq!(status, 1, "{words:?}");
        let refusal = "4: a coordinate of the grid or of a row is NaN, infinite or beyond ±2^40";
        let expected =
            format!("draw: the library refuses this with {refusal}; the first is {first}\n");
        assert_eq!(said, expected);
    }
}

#[test]
fn what_cannot_be_drawn_or_written_is_said() {
    let (status, said) = failure(&["--formula", "x = 1; y = 2; z = 3", "-o", "-"]);
    assert_eq!((status, said.lines().count()), (1, 1));
    assert!(said.contains("seen at one place"), "{said}");
    let huge = ["--texture", "swirl", "--spacing", "0.01", "-o", "-"];
    let (status, said) = failure(&huge);
    assert_eq!((status, said.lines().count()), (1, 1));
    assert!(said.contains("widen --spacing"), "{said}");
    let (status, said) = failure(&["-o", "no such folder/card.svg"]);
    assert_eq!((status, said.lines().count()), (1, 1));
    assert!(
        said.contains("cannot write 'no such folder/card.svg'"),
        "{said}"
    );
}

/// Rays whose last sample is 90: they are 63·0.5·√2 steps long, in steps of half a step at most.
const LAST_90: [&str; 8] = [
    "plane",
    "--steps",
    "63x40",
    "--texture",
    "swirl",
    "--twist",
    "0",
    "--highlight",
];

#[test]
fn a_sample_that_no_ray_has_is_told_with_the_last_one() {
    for sample in ["91", "200"] {
        let (status, said) = failure(&[&LAST_90[..], &[sample, "-o", "-"]].concat());
        assert_eq!(status, 1);
        let expected = format!(
            "draw: the last sample of a ray of this texture is 90: \
             --highlight wants a number from 1 to 90, not {sample}\n"
        );
        assert_eq!(said, expected);
    }
}

#[test]
fn the_pieces_of_a_highlighted_sample_are_counted() {
    for sample in ["1", "40", "90"] {
        let output = draw(&[&LAST_90[..], &[sample, "-o", "-"]].concat());
        assert!(output.status.success(), "{output:?}");
        let said = String::from_utf8(output.stderr).expect("UTF-8");
        let last = said.lines().last().expect("a line");
        let pieces = last.strip_prefix(&format!("sample {sample} of each ray: "));
        let pieces = pieces.and_then(|last| last.strip_suffix(" pieces of lines"));
        let pieces: usize = pieces.expect("a count").parse().expect("a count");
        let card = String::from_utf8(output.stdout).expect("UTF-8");
        assert_eq!(card.contains(r#"class="highlight""#), pieces > 0, "{said}");
        // The last sample lies beyond the corners of the plane.
        assert_eq!(pieces > 0, sample != "90", "{said}");
    }
}

/// The card of a command, and what was said of it.
fn card(words: &[&str]) -> (String, String) {
    let output = draw(&[words, &["-o", "-"]].concat());
    assert!(output.status.success(), "{words:?}: {output:?}");
    let text = |bytes| String::from_utf8(bytes).expect("UTF-8");
    (text(output.stdout), text(output.stderr))
}

/// A band whose ends miss each other by five thousandths, since 6.28 is not quite a turn.
const NEARLY_CLOSED: [&str; 5] = ["moebius-band", "--u", "0..6.28", "--seams", "--flipped"];

#[test]
fn a_seam_is_found_at_a_coarser_tolerance_of_its_own() {
    let with = |given| card(&[&NEARLY_CLOSED[..], &["--tolerance", given]].concat());
    let (open, said) = card(&NEARLY_CLOSED);
    assert!(said.contains("\nseams: u none; v none\n"), "{said}");
    assert!(said.starts_with("moebius-band, 96 × 12 steps, grid\n"));
    assert!(!open.contains("-seam") && !open.contains("<polygon "));

    let (closed, said) = with("0.01,1e-9,1e-9");
    assert!(
        said.contains("\nseams: u reversed, offset 0; v none\n"),
        "{said}"
    );
    let title = "moebius-band, 96 × 12 steps, grid, tolerances 0.01, 1e-9, 1e-9";
    assert!(said.starts_with(&format!("{title}\n")), "{said}");
    assert!(closed.contains(&format!("<title>{title}</title>")));
    assert!(closed.contains(r#"class="reversed-seam""#));
    assert_eq!(closed.matches("<polygon ").count(), 2 * 12);

    // Those of v and of lines find no seam of u, and one that is given as it would be changes
    // nothing.
    let (_, said) = with("1e-9,1,1");
    assert!(said.contains("\nseams: u none;"), "{said}");
    assert_eq!(with("1e-9,1e-9,1e-9").0, open);
}

#[test]
fn a_coarser_tolerance_of_lines_leaves_points_out() {
    let swirl = ["torus", "--texture", "swirl"];
    let points = |said: &str| -> usize {
        let count = said
            .split(" lines, ")
            .nth(1)
            .and_then(|rest| rest.split(' ').next());
        count.expect("a count").parse().expect("a number")
    };
    let coarse = |given| {
        let (card, said) = card(&[&swirl[..], &["--tolerance", given]].concat());
        (points(&said), card)
    };
    let (card, said) = card(&swirl);
    let (all, few) = (points(&said), coarse("1e-9,1e-9,0.3").0);
    assert!(few > 0 && 2 * few < all, "{few} of {all}");
    // The tolerances of seams leave none out.
    assert_eq!(coarse("0.3,0.3,1e-9").0, all);
    assert_eq!(coarse("1e-9,1e-9,1e-9"), (all, card));
}

/// What was said of the seams.
fn seams(said: &str) -> &str {
    let line = said.lines().find_map(|line| line.strip_prefix("seams: "));
    line.expect("a line on seams")
}

/// How many lines or triangles a card has in the group of a class.
fn count(card: &str, class: &str) -> usize {
    let groups = card.split("</g>");
    let groups = groups.filter(|group| group.contains(&format!("<g class=\"{class}\"")));
    groups.map(|group| group.matches(" points=").count()).sum()
}

#[test]
fn seams_that_are_given_as_they_are_found_draw_the_same_card() {
    let cases = [
        ("plane", ["none", "none"], "u none, given; v none, given"),
        (
            "torus",
            ["forward:0", "forward:0"],
            "u forward, offset 0, given; v forward, offset 0, given",
        ),
        (
            "moebius-band",
            ["reverse:0", "none"],
            "u reversed, offset 0, given; v none, given",
        ),
        (
            "twisted-torus",
            ["forward:24", "forward:0"],
            "u forward, offset 24, given; v forward, offset 0, given",
        ),
        (
            "klein-bottle",
            ["reverse:0", "forward:0"],
            "u reversed, offset 0, given; v forward, offset 0, given",
        ),
    ];
    for (name, [u, v], expected) in cases {
        let with = |given: &[&str]| card(&[&[name, "--seams", "--flipped"], given].concat());
        let (found, said) = with(&[]);
        assert_eq!(seams(&said), expected.replace(", given", ""));
        let (given, said) = with(&["--seam-u", u, "--seam-v", v]);
        assert_eq!(seams(&said), expected);
        assert!(given == found, "{name}");
        // One that is not given is found.
        let (given, said) = with(&["--seam-v", v]);
        assert_eq!(seams(&said), expected.replacen(", given", "", 1));
        assert!(given == found, "{name}");
    }
}

#[test]
fn edges_that_are_given_to_stay_apart_are_rims() {
    let all = ["--seams", "--flipped", "--seam-u", "none"];
    let (cut, said) = card(&[&["torus"], &all[..]].concat());
    assert_eq!(seams(&said), "u none, given; v forward, offset 0");
    let groups = ["rim", "forward-seam"].map(|class| count(&cut, class));
    assert_eq!(groups, [2, 1]);
    let (both, said) = card(&[&["torus"], &all[..], &["--seam-v", "none"]].concat());
    assert_eq!(seams(&said), "u none, given; v none, given");
    let groups = ["rim", "forward-seam"].map(|class| count(&both, class));
    assert_eq!(groups, [4, 0]);

    let band = ["moebius-band", "--seams", "--flipped"];
    let groups = |card: &str| ["rim", "reversed-seam", "flipped"].map(|class| count(card, class));
    assert_eq!(groups(&card(&band).0), [2, 1, 2 * 12]);
    let (cut, said) = card(&[&["moebius-band"], &all[..]].concat());
    assert_eq!(seams(&said), "u none, given; v none");
    assert!(said.contains(", 0 flipped pairs\n"), "{said}");
    assert_eq!(groups(&cut), [4, 0, 0]);
}

/// A flat ring that is passed twice, so that its first edge and its last are the same either way.
const RING: &str = "x = (2 + cos(v))*cos(u); y = (2 + cos(v))*sin(u); z = 0";

/// A torus without a hole: its first v and its last are the same point for each u.
const HORN: &str = "x = (1 - cos(v))*cos(u); y = (1 - cos(v))*sin(u); z = sin(v)";

/// The card of a formula with 24 × 18 steps.
fn formula(text: &str, given: &[&str]) -> (String, String) {
    let steps = ["--steps", "24x18", "--seams", "--flipped", "--formula"];
    card(&[&steps, &[text][..], given].concat())
}

#[test]
fn a_seam_that_fits_need_not_be_the_one_that_is_found() {
    let groups =
        |card: &str| ["forward-seam", "reversed-seam", "flipped"].map(|class| count(card, class));
    let (found, said) = formula(RING, &[]);
    assert_eq!(seams(&said), "u forward, offset 0; v forward, offset 0");
    assert_eq!(groups(&found), [2, 0, 0]);
    let (given, said) = formula(RING, &["--seam-u", "reverse:0"]);
    assert_eq!(
        seams(&said),
        "u reversed, offset 0, given; v forward, offset 0"
    );
    assert!(said.contains(", 18 flipped pairs\n"), "{said}");
    assert_eq!(groups(&given), [1, 1, 2 * 18]);

    let (found, said) = formula(HORN, &[]);
    assert_eq!(seams(&said), "u forward, offset 0; v forward, offset 0");
    let (forward, said) = formula(HORN, &["--seam-v", "forward:23"]);
    assert_eq!(
        seams(&said),
        "u forward, offset 0; v forward, offset 23, given"
    );
    assert_eq!([groups(&found), groups(&forward)], [[2, 0, 0]; 2]);
    let (reverse, said) = formula(HORN, &["--seam-v", "reverse:3"]);
    assert_eq!(
        seams(&said),
        "u forward, offset 0; v reversed, offset 3, given"
    );
    assert_eq!(groups(&reverse), [1, 1, 2 * 24]);
}

#[test]
fn a_seam_that_does_not_fit_is_told_with_the_reason() {
    // Half a disc, whose first edge is one point and whose last is open, along u and along v.
    let by_u = "--formula 'x = u*cos(v); y = u*sin(v); z = 0' --v 0..pi --seam-u forward:1";
    let by_v = "--formula 'x = v*cos(u); y = v*sin(u); z = 0' --u 0..pi --seam-v reverse:1";
    let apart = |axis| format!("joined so, the edges at the ends of {axis} are not close");
    let open =
        |end| format!("an offset other than 0 wants closed edges, and that at the {end} is open");
    let cases = [
        ("torus --seam-u reverse:0", "u reverse:0", apart("u")),
        ("torus --seam-v forward:1", "v forward:1", apart("v")),
        ("plane --seam-v forward:0", "v forward:0", apart("v")),
        (
            "twisted-torus --seam-u forward:23",
            "u forward:23",
            apart("u"),
        ),
        ("cylinder --seam-v forward:3", "v forward:3", apart("v")),
        (
            "cylinder --seam-u reverse:3",
            "u reverse:3",
            open("first u"),
        ),
        ("plane --seam-v forward:3", "v forward:3", open("first v")),
        (by_u, "u forward:1", open("last u")),
        (by_v, "v reverse:1", open("last v")),
        // Of two the first that does not fit.
        (
            "torus --seam-u forward:0 --seam-v reverse:0",
            "v reverse:0",
            apart("v"),
        ),
        (
            "torus --seam-u none --seam-v reverse:0",
            "v reverse:0",
            apart("v"),
        ),
        (
            "torus --seam-v reverse:0 --seam-u forward:7",
            "u forward:7",
            apart("u"),
        ),
    ];
    for (command, seam, why) in cases {
        let words = words(command);
        let words: Vec<_> = words.iter().map(String::as_str).collect();
        let (status, said) = failure(&[&words[..], &["-o", "-"]].concat());
        assert_eq!(status, 1, "{command}");
        let expected = format!(
            "draw: the library refuses --seam-{seam} with 14: {why} by the tolerance 1e-9\n"
        );
        assert_eq!(said, expected);
    }
}

#[test]
fn a_seam_that_is_given_fits_by_the_tolerance_of_its_own() {
    let found = |tolerances| [&NEARLY_CLOSED[..], &["--tolerance", tolerances]].concat();
    let given = |tolerances| [&found(tolerances)[..], &["--seam-u", "reverse:0"]].concat();
    for (tolerances, u) in [("1e-9,1,1", "1e-9"), ("0.001,1,1", "0.001")] {
        let (status, said) = failure(&[&given(tolerances)[..], &["-o", "-"]].concat());
        assert_eq!(status, 1);
        assert!(said.starts_with("draw: the library refuses --seam-u reverse:0 with 14: "));
        assert!(
            said.ends_with(&format!(" by the tolerance {u}\n")),
            "{said}"
        );
    }
    let coarse = "0.01,1e-9,1e-9";
    let (drawn, said) = card(&given(coarse));
    assert_eq!(seams(&said), "u reversed, offset 0, given; v none");
    assert!(drawn == card(&found(coarse)).0);
}

#[test]
fn a_tolerance_that_finds_another_seam_is_set_right_by_the_one_that_is_given() {
    let band = ["moebius-band", "--v", "-1/4..1/4", "--flipped"];
    let coarse = ["--tolerance", "1,1e-9,1e-9"];
    let flat = [&band[..], &coarse].concat();
    // Its edges are so short that by 1 they meet in both directions.
    let (_, said) = card(&flat);
    assert_eq!(seams(&said), "u forward, offset 0; v none");
    let (given, said) = card(&[&flat[..], &["--seam-u", "reverse:0"]].concat());
    assert_eq!(seams(&said), "u reversed, offset 0, given; v none");
    assert_eq!(count(&given, "flipped"), 2 * 12);
}

/// The words of a command line in which values with spaces stand in single quotes.
fn words(command: &str) -> Vec<String> {
    let parts = command.split('\'').enumerate();
    let words = parts.flat_map(|(i, part)| match i % 2 {
        0 => part.split_whitespace().map(String::from).collect(),
        _ => vec![part.to_string()],
    });
    words.collect()
}

/// The examples of a text: the words after `./draw` of each line that starts with it.
fn examples(text: &str) -> Vec<Vec<String>> {
    let commands = text
        .lines()
        .filter_map(|line| line.trim().strip_prefix("./draw "));
    commands
        .filter(|rest| !rest.starts_with(['[', ' ']))
        .map(words)
        .collect()
}

#[test]
fn every_example_of_the_help_draws() {
    let examples = examples(&stdout(&["--help"]));
    assert!(examples.len() >= 17);
    for mut example in examples {
        if let Some(at) = example.iter().position(|word| word == "-o") {
            example.truncate(at);
        }
        let card: Vec<_> = example
            .iter()
            .map(String::as_str)
            .chain(["-o", "-"])
            .collect();
        assert!(stdout(&card).starts_with("<svg "), "{example:?}");
    }
}

/// Whether two cards are equal but for a hundredth of a mm, which another machine's cosine may make.
fn same(a: &str, b: &str) -> bool {
    let parts =
        |text: &str| -> Vec<String> { text.split([' ', ',', '"']).map(String::from).collect() };
    let (a, b) = (parts(a), parts(b));
    let near = |a: &str, b: &str| match (a.parse::<f64>(), b.parse::<f64>()) {
        (Ok(a), Ok(b)) => (a - b).abs() < 0.011,
        _ => a == b,
    };
    a.len() == b.len() && a.iter().zip(&b).all(|(a, b)| near(a, b))
}

#[test]
fn each_picture_of_the_readme_is_what_its_command_draws() {
    let root = Path::new(env!("CARGO_MANIFEST_DIR")).join("../..");
    let read = |path: &str| std::fs::read_to_string(root.join(path)).expect(path);
    let mut pictures = 0;
    for mut example in examples(&read("README.md")) {
        let picture = example.last().cloned().unwrap_or_default();
        if !picture.starts_with("docs/pictures/") {
            continue;
        }
        pictures += 1;
        *example.last_mut().expect("a picture") = "-".into();
        let card: Vec<_> = example.iter().map(String::as_str).collect();
        assert!(same(&stdout(&card), &read(&picture)), "{picture}");
    }
    let files = std::fs::read_dir(root.join("docs/pictures")).expect("pictures");
    assert_eq!(pictures, files.count());
}
