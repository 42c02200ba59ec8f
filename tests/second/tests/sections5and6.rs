//! The examples of sections 5 and 6, with studies and texts that are refused.

use second::answer::{DONE, STUDY};
use second::study::{study, Current, Reading, StudyAnswer, Unit};
use second::text;

fn reading(unit: Unit, value: f32, rated: u64) -> Reading {
    Reading { unit, value_bits: value.to_bits(), rated }
}

/// Number, place, and of each reading the mA used, its lower side and its upper.
type Numbers = (u64, u64, [u64; 3], [u64; 3]);

fn studied(greatest: Reading, least: Reading) -> Numbers {
    let StudyAnswer { number, place, greatest, least } = study(greatest, least);
    let numbers = |Current { used, lower, upper }| [used, lower, upper];
    (number, place, numbers(greatest), numbers(least))
}

fn both(reading: Reading) -> Numbers {
    studied(reading, reading)
}

const fn refused(place: u64) -> Numbers {
    (STUDY, place, [0; 3], [0; 3])
}

#[test]
fn examples_of_section_5() {
    use Unit::*;
    assert_eq!(both(reading(Ampere, 0.5, 0)), (DONE, 0, [500; 3], [500; 3]));
    let most = [100_000_000; 3];
    assert_eq!(both(reading(Kiloampere, 100.0, 0)), (DONE, 0, most, most));
    assert_eq!(both(reading(Kiloampere, 100.0_f32.next_up(), 0)), refused(1));
    assert_eq!(0.1_f32.to_bits() & 0x7f_ffff | 0x80_0000, 13_421_773);
    let (up, down) = ([100_001, 100_000, 100_001], [100_000, 100_000, 100_001]);
    assert_eq!(both(reading(Kiloampere, 0.1, 0)), (DONE, 0, up, down));
    let smallest = reading(Ampere, f32::from_bits(1), 0);
    let half = reading(Ampere, 0.5, 0);
    assert_eq!(studied(smallest, half), (DONE, 0, [1, 0, 1], [500; 3]));
    assert_eq!(both(smallest), refused(2));
}

/// Only the rounded mA is held to 1 to 100,000,000, not the other side [02 §9].
#[test]
fn sides_at_the_ends() {
    use Unit::*;
    let whole = reading(PerUnit, 1.0, 7);
    for (value, rated, [lower, upper], greatest, least) in [
        (0.5, 1, [0, 1], Some(1), None),
        (0.25, 4, [1, 1], Some(1), Some(1)),
        (0.25, 5, [1, 2], Some(2), Some(1)),
        (44.5, 2_247_191, [99_999_999, 100_000_000], Some(100_000_000), Some(99_999_999)),
        (1.25, 80_000_000, [100_000_000; 2], Some(100_000_000), Some(100_000_000)),
        (1.5, 66_666_667, [100_000_000, 100_000_001], None, Some(100_000_000)),
        (1.25, 80_000_001, [100_000_001, 100_000_002], None, None),
    ] {
        let end = reading(PerUnit, value, rated);
        let as_greatest =
            greatest.map_or(refused(1), |used| (DONE, 0, [used, lower, upper], [7; 3]));
        let as_least = least.map_or(refused(2), |used| (DONE, 0, [7; 3], [used, lower, upper]));
        assert_eq!((studied(end, whole), studied(whole, end)), (as_greatest, as_least), "{end:?}");
    }
}

#[test]
fn study_refusals() {
    use Unit::*;
    let half = reading(PerUnit, 0.5, 3);
    assert_eq!(both(half), (DONE, 0, [2, 1, 2], [1, 1, 2]));
    for value in [f32::NAN, -f32::NAN, f32::INFINITY, -1.0, -f32::from_bits(1), 0.0, -0.0, f32::MAX]
    {
        for unit in [Ampere, Kiloampere, PerUnit] {
            let bad = reading(unit, value, 100_000_000);
            assert_eq!(studied(bad, half), refused(1));
            assert_eq!(studied(half, bad), refused(2));
            assert_eq!(studied(bad, reading(PerUnit, 0.5, 0)), refused(0));
            assert_eq!(studied(reading(PerUnit, 0.5, 100_000_001), bad), refused(0));
        }
    }
    let most = [100_000_000; 3];
    assert_eq!(both(reading(PerUnit, 1.0, 100_000_000)), (DONE, 0, most, most));
    let least = reading(Ampere, 0.001_f32, 0);
    assert_eq!(studied(least, half), (DONE, 0, [2, 1, 2], [1, 1, 2]));
}

const TEXT: &str = "row,name,feeds_from,kind,volts,work,selfstart,return,far,clear,near,factor,\
    low,high,step,device,floor,ceiling,backed,rated_primary,rated_secondary,law,near_greatest\r\n\
    1,F1,2,1,35000,180000,1500,935,900000,1000000,1800000,1300,50000,5000000,1000,1,1900,5000,1,\
    0,0,0,1800000\r\n\
    2,IN,0,1,35000,200000,1500,935,1500000,3300000,5200000,1300,50000,10000000,10000,1,0,3000,0,\
    0,0,0,5200000\r\n";

#[test]
fn example_of_section_6() {
    let printed = "name,pickup,delay,cutoff,law,multiplier\r\n\
        F1,318000,1900,1300000,0,0\r\nIN,360000,2200,4290000,0,0\r\n";
    assert_eq!(text::card(TEXT.as_bytes()), printed.as_bytes());
    assert_eq!(text::card(TEXT.trim_end().as_bytes()), printed.as_bytes());
}

fn refusal(text: &str) -> String {
    let printed = String::from_utf8(text::card(text.as_bytes())).unwrap();
    let line = printed.strip_prefix("refused,place,field\r\n").expect("a refusal");
    line.strip_suffix("\r\n").unwrap().to_string()
}

#[test]
fn refused_texts() {
    let header = TEXT.lines().next().unwrap();
    assert_eq!(refusal(""), "1,1,0");
    assert_eq!(refusal("\r\n"), "1,1,0");
    assert_eq!(refusal(header), "2,0,0");
    assert_eq!(refusal(&format!("{header}\r\n")), "2,0,0");
    assert_eq!(refusal(&format!("{header}\r\n\r\n")), "1,2,0");
    assert_eq!(refusal(&format!("{TEXT}\r\n")), "1,4,0");
    assert_eq!(refusal(&TEXT.replace("\r\n", "\n")), "1,1,0");
    assert_eq!(refusal(TEXT.strip_suffix('\n').unwrap()), "1,3,0");
    assert_eq!(refusal(&TEXT.replace("row,name", "Row,name")), "1,1,0");
    assert_eq!(refusal(&TEXT.replace("1,F1", "01,F1")), "1,2,0");
    assert_eq!(refusal(&TEXT.replace(",180000,", ",1800000000,")), "1,2,0");
    assert_eq!(refusal(&TEXT.replace(",180000,", ",180000000,")), "4,1,5");
    assert_eq!(refusal(&TEXT.replace("1,F1,2", "1,F1,0")), "5,1,0");
    assert_eq!(refusal(&TEXT.replace("1500000", "539999")), "12,2,0");
    assert_eq!(refusal(&TEXT.replace(",3000,0", ",2199,0")), "7,2,0");
    // The layouts from before [02 §1] and [02 §3], in the header and in a row.
    let before = ",rated_primary,rated_secondary,law,near_greatest";
    assert_eq!(refusal(&TEXT.replace(before, "")), "1,1,0");
    assert_eq!(refusal(&TEXT.replace(",law,near_greatest", "")), "1,1,0");
    assert_eq!(refusal(&TEXT.replace(",0,0,0,5200000", "")), "1,3,0");
    assert_eq!(refusal(&TEXT.replace(",0,5200000", "")), "1,3,0");
    assert_eq!(refusal(&TEXT.replace(",0,5200000", ",0")), "1,3,0");
    assert_eq!(refusal(&TEXT.replace(",0,5200000", ",0,5200000,0")), "1,3,0");
    assert_eq!(refusal(&TEXT.replace(",0,0,5200000", ",1,0,5200000")), "4,2,20");
    assert_eq!(refusal(&TEXT.replace(",0,5200000", ",3,5200000")), "4,2,21");
    assert_eq!(refusal(&TEXT.replace(",0,5200000", ",0,0")), "4,2,22");
}

#[test]
fn names_of_a_text() {
    let printed =
        |name: &str| String::from_utf8(text::card(TEXT.replace("F1", name).as_bytes())).unwrap();
    for name in [
        "F",
        " ",
        "~",
        "\"\"",
        "\"a,b\"",
        "\"a\"\"b\"",
        "\"\"\"\"",
        &"F".repeat(24),
        "\"0123456789012345678901\"",
    ] {
        assert!(printed(name).contains(&format!("\r\n{name},318000,")), "{name}");
    }
    for name in [
        "",
        "\"",
        "\"\"\"",
        "a\"b",
        "\"a\"b",
        "a,b",
        "\t",
        "\x7f",
        "é",
        "\"a\r\nb\"",
        "\"a\nb\"",
        &"F".repeat(25),
        "\"01234567890123456789012\"",
    ] {
        assert_eq!(printed(name), "refused,place,field\r\n1,2,0\r\n", "{name}");
    }
}
