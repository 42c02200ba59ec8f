//! Texts of `diffcard` [02 §11, 01 §6].

use second::differential::diffcard;

const HEADER: &str = "start,blocking,cutoff,through,first_side,second_side,differential,restraint";
const TRIPPED: &str = "30,200,700,400,120,80,30,90";
const BLOCKED: &str = "100,300,1200,1501,300,300,1199,10000";
const LINES: [&str; 8] = [
    TRIPPED,
    "19,149,649,99,10001,10001,10001,10001",
    BLOCKED,
    "30,200,700,150,0,0,0,0",
    "30,200,700,400,120,80,29,100",
    "30,200,700,400,120,80,30,999999999",
    "30,999999999,999999999,999999999,0,0,0,0",
    "30,200,700,400,120,80,700,10000",
];
const PRINTED: &str = "number,place,start,bend,slope,blocking,cutoff,verdict\r\n\
    0,0,30,100,50,200,700,1\r\n\
    16,1,0,0,0,0,0,0\r\n\
    0,0,100,100,50,300,1200,3\r\n\
    17,0,0,0,0,0,0,0\r\n\
    0,0,30,100,50,200,700,2\r\n\
    16,8,0,0,0,0,0,0\r\n\
    16,2,0,0,0,0,0,0\r\n\
    0,0,30,100,50,200,700,1\r\n";

fn printed(text: &str) -> String {
    String::from_utf8(diffcard(text.as_bytes())).unwrap()
}

/// The header and the lines, each with CRLF.
fn text(lines: &[&str]) -> String {
    let line = |line: &&str| format!("{line}\r\n");
    [HEADER].iter().chain(lines).map(line).collect()
}

fn refused(line: u64) -> String {
    format!("refused,place,field\r\n1,{line},0\r\n")
}

#[test]
fn a_line_for_each_line() {
    let text = text(&LINES);
    assert_eq!(printed(&text), PRINTED);
    assert_eq!(printed(text.strip_suffix("\r\n").unwrap()), PRINTED);
}

#[test]
fn no_lines() {
    let (header, _) = PRINTED.split_at(PRINTED.find('\n').unwrap() + 1);
    assert_eq!(printed(HEADER), header);
    assert_eq!(printed(&text(&[])), header);
}

#[test]
fn bad_headers() {
    for header in ["", "\r\n", &HEADER[1..], &HEADER.to_uppercase(), &format!("{HEADER},"), TRIPPED]
    {
        let text = format!("{header}\r\n{TRIPPED}\r\nx\r\n");
        assert_eq!(printed(&text), refused(1), "{header:?}");
    }
    assert_eq!(printed(""), refused(1));
    assert_eq!(printed(&text(&[TRIPPED]).replace("\r\n", "\n")), refused(1));
    assert_eq!(printed(&text(&[TRIPPED]).replace("\r\n", "\r")), refused(1));
    assert_eq!(printed(&format!(" {}", text(&[TRIPPED]))), refused(1));
}

/// The line is named, wherever it stands, and a later bad one is not.
#[test]
fn bad_lines() {
    const CELLS: [&str; 12] =
        ["", "0400", "00", "1234567890", "+4", "-4", " 4", "4 ", "4.0", "\"400\"", "4e2", "x"];
    const LINES: [&str; 12] = [
        "",
        ",",
        " ",
        "30,200,700,400,120,80,30",
        "30,200,700,400,120,80,30,",
        "30,200,700,400,120,80,30,90,",
        "30,200,700,400,120,80,30,90,1",
        ",30,200,700,400,120,80,30,90",
        "1,N,30,200,700,400,120,80,30,90",
        "30,200,700,400,120,80,30,90\n",
        "30,200,700,400,120,80,30,90\r",
        HEADER,
    ];
    let with_cell = |cell: &str| TRIPPED.replace(",400,", &format!(",{cell},"));
    let bad = CELLS.map(with_cell).into_iter().chain(LINES.map(str::to_string));
    for bad in bad {
        assert_eq!(printed(&text(&[&bad])), refused(2), "{bad:?}");
        assert_eq!(printed(&text(&[TRIPPED, BLOCKED, &bad, "x"])), refused(4), "{bad:?}");
    }
}

#[test]
fn line_ends() {
    let good = text(&[TRIPPED, BLOCKED]);
    assert_eq!(printed(&format!("{good}\r\n")), refused(4));
    assert_eq!(printed(good.strip_suffix('\n').unwrap()), refused(3));
    assert_eq!(printed(&good.replace("90\r\n", "90\n")), refused(2));
    assert_eq!(printed(&good.replace("90\r\n", "90\r\r\n")), refused(2));
}

/// Numbers of nine digits are read, and refused as inputs.
#[test]
fn nine_digits() {
    for place in 0..8 {
        let mut cells: Vec<&str> = TRIPPED.split(',').collect();
        cells[place] = "999999999";
        let line = format!("\r\n16,{},0,0,0,0,0,0\r\n", place + 1);
        assert!(printed(&text(&[&cells.join(",")])).ends_with(&line));
        cells[place] = "1000000000";
        assert_eq!(printed(&text(&[&cells.join(",")])), refused(2));
    }
}

/// Over 65,536 bytes comes before any bad line. The header with its CRLF has 77
/// bytes, and 3,850 lines of 17 leave nine.
#[test]
fn size_is_tested_first() {
    let ending = |last: &str| text(&[&["0,0,0,0,0,0,0,0"; 3_849][..], &[last]].concat());
    let most = ending("10,1000,1000,10,10,0,0,0");
    assert_eq!(most.len(), 65_536);
    assert_eq!(printed(&most).matches("\r\n16,1,0,0,0,0,0,0").count(), 3_850);
    assert_eq!(printed(&ending("10,1000,1000,10,10,x,0,0")), refused(3_851));
    for too_long in [ending("10,1000,1000,100,10,0,0,0"), ending("10,1000,1000,10,10,xx,0,0")] {
        assert_eq!((too_long.len(), printed(&too_long)), (65_537, refused(0)));
    }
    assert_eq!(printed(&"x".repeat(65_536)), refused(1));
    assert_eq!(printed(&"x".repeat(65_537)), refused(0));
}
