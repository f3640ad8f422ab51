//! The text of cases and answers: what is written reads back, what is damaged is refused.

use cases::format::{
    answered, read_answered, read_case, Answer, Case, Left, ListLeft, LONGEST_LINE, LONGEST_TABLE,
};
use cases::lines::Lines;
use cases::run::by_oracle;

#[test]
fn generated_cases_read_back() {
    for index in 0..3_000 {
        let case = cases::case(7, index);
        let line = case.to_string();
        assert_eq!(read_case(line.as_bytes()).as_ref(), Ok(&case), "{line}");
        let answer = by_oracle(&case).expect("an answer");
        let answered = answered(&case, &answer);
        assert_eq!(read_case(answered.as_bytes()).as_ref(), Ok(&case));
        assert_eq!(read_answered(answered.as_bytes()), Ok((case, answer)));
    }
}

#[test]
fn all_forms_of_what_is_left_read_back() {
    let (case, answer) = read_answered(sound().as_bytes()).expect("a sound line");
    let listed = Case { list: Some(5), ..case.clone() };
    for list in [ListLeft::Unchanged, ListLeft::Summaries] {
        for path in [Left::Unchanged, Left::Bytes(Vec::new()), Left::Bytes(vec![0, 255])] {
            let answer = Answer { list, path, ..answer.clone() };
            let line = answered(&listed, &answer);
            assert_eq!(read_answered(line.as_bytes()), Ok((listed.clone(), answer)));
        }
    }
}

/// P1 with its answer.
fn sound() -> String {
    let hand = cases::hand::all().swap_remove(0);
    let answer = by_oracle(&hand.case).expect("an answer");
    answered(&hand.case, &answer)
}

/// The sound line with one field, counted from 1, replaced.
fn with(field: usize, text: &str) -> String {
    let line = sound();
    let mut fields: Vec<&str> = line.split(' ').collect();
    fields[field - 1] = text;
    fields.join(" ")
}

/// Reads the line as the fourth of a file, behind two comments and a sound line, and gives what is
/// said of it.
fn said(line: &str) -> String {
    let text = format!("# comment\n\n{}\n{line}\n{}\n", sound(), sound());
    let mut lines = Lines::new("some.txt", text.as_bytes(), read_answered);
    assert!(lines.next().expect("a first line").is_ok());
    match lines.next().expect("a second line") {
        Ok(_) => panic!("accepted: {line}"),
        Err(refused) => refused.to_string(),
    }
}

#[test]
fn damaged_fields_are_refused() {
    let long_name = "n".repeat(65);
    let long_table = "00".repeat(LONGEST_TABLE + 1);
    let damaged = [
        (1, "a/b", "field 1 (NAME) has a character other than"),
        (1, "\u{e9}", "field 1 (NAME) has a character other than"),
        (1, &long_name, "field 1 (NAME) has more than 64 characters"),
        (2, "-1", "field 2 (B) is not a decimal number"),
        (3, "+1", "field 3 (L) is not a decimal number"),
        (3, "01", "field 3 (L) has a zero in front"),
        (4, "18446744073709551616", "field 4 (N) does not fit 64 bits"),
        (5, "256", "field 5 (BOUND) is above 255"),
        (6, "2", "field 6 (EXPLORING) is above 1"),
        (6, "-", "field 6 (EXPLORING) is not a decimal number"),
        (7, "1000001", "field 7 (PATH) is above 1000000"),
        (8, "1000001", "field 8 (TRACE) is above 1000000"),
        (9, "1001", "field 9 (LIST) is above 1000"),
        (10, "010", "field 10 (TABLE) has an odd number of hex digits"),
        (10, "0G", "field 10 (TABLE) is not lowercase hex"),
        (10, "0A", "field 10 (TABLE) is not lowercase hex"),
        (10, &long_table, "field 10 (TABLE) has more than 8192 bytes"),
        (11, "zero", "field 11 (answer) is not a decimal number"),
        (24, "1.", "field 24 (thread 1 state) is not a decimal number"),
        (39, "99999999999999999999", "field 39 (thread 4 own version) does not fit 64 bits"),
        (40, "123", "field 40 (DIGEST) has not 16 hex digits"),
        (40, "0123456789ABCDEF", "field 40 (DIGEST) is not lowercase hex"),
        (41, "+", "field 41 (LIST') is not '-', though no list is passed"),
        (42, "010", "field 42 (PATH') has an odd number of hex digits"),
        (42, "0100", "field 42 (PATH') has a zero byte at its end"),
        (43, "==", "field 43 (TRACE') is not lowercase hex"),
        (43, &long_table, "field 43 (TRACE') has more than 16 bytes"),
        (43, "01\r", "field 43 (TRACE')"),
    ];
    for (field, text, wanted) in damaged {
        let said = said(&with(field, text));
        let start = format!("some.txt: line 4: {wanted}");
        assert!(said.starts_with(&start), "said: {said}\nwanted: {start}");
    }
}

#[test]
fn damaged_lines_are_refused() {
    let line = sound();
    let short = line.rsplit_once(' ').expect("fields").0;
    let ten: Vec<&str> = line.split(' ').take(10).collect();
    let long = "0".repeat(LONGEST_LINE + 1);
    let damaged = [
        (short.to_string(), "42 fields where an answered case has 43"),
        (format!("{line} 00 00"), "45 fields where an answered case has 43"),
        (format!("{line} 0"), "field 44 (CONDITION) has an odd number of hex digits"),
        (format!("{line} -"), "field 44 (CONDITION) has an odd number of hex digits"),
        (format!("{line} 0A"), "field 44 (CONDITION) is not lowercase hex"),
        (ten.join(" "), "10 fields where an answered case has 43"),
        (format!(" {line}"), "field 1 is empty"),
        (format!("{line} "), "field 44 is empty"),
        (line.replacen(' ', "  ", 1), "field 2 is empty"),
        (line.replacen(' ', "\t", 1), "42 fields where"),
        (long, "the line is longer than 262144 bytes"),
    ];
    for (line, wanted) in damaged {
        let said = said(&line);
        let start = format!("some.txt: line 4: {wanted}");
        assert!(said.starts_with(&start), "said: {said}\nwanted: {start}");
    }
    let claimed = format!("{line} {}", "00".repeat(LONGEST_TABLE + 1));
    assert!(said(&claimed).ends_with("field 44 (CONDITION) has more than 8192 bytes"));
    let listed = with(9, "5");
    assert!(said(&listed).ends_with("(LIST') is neither '=' nor '+', though a list is passed"));
}

#[test]
fn a_case_line_has_ten_or_all_fields() {
    let line = sound();
    let fields: Vec<&str> = line.split(' ').collect();
    for count in 1..=fields.len() {
        let part = fields[..count].join(" ");
        // The eleventh field of this line would not do for a condition.
        assert_eq!(read_case(part.as_bytes()).is_ok(), count == 10 || count == 43, "{count}");
    }
    // Behind the tenth nothing is looked at.
    assert!(read_case(with(11, "zero").as_bytes()).is_ok());
}

#[test]
fn a_condition_is_one_field_more() {
    let line = sound();
    let ten: Vec<&str> = line.split(' ').take(10).collect();
    let (case, answer) = read_answered(line.as_bytes()).expect("a sound line");
    assert_eq!(case.condition, []);
    let claimed = Case { condition: vec![0, 255], ..case };
    assert_eq!(claimed.to_string(), format!("{} 00ff", ten.join(" ")));
    assert_eq!(answered(&claimed, &answer), format!("{line} 00ff"));
    for text in [claimed.to_string(), answered(&claimed, &answer)] {
        assert_eq!(read_case(text.as_bytes()).as_ref(), Ok(&claimed), "{text}");
    }
    assert_eq!(read_answered(format!("{line} 00ff").as_bytes()), Ok((claimed, answer)));
    let said = read_case(format!("{} 0", ten.join(" ")).as_bytes()).expect_err("half a byte");
    assert_eq!(said, "field 11 (CONDITION) has an odd number of hex digits");
}

#[test]
fn a_line_may_be_as_long_as_allowed() {
    let comment = format!("#{}", "x".repeat(LONGEST_LINE - 1));
    let text = format!("{comment}\n{}", sound());
    let lines: Vec<_> = Lines::new("f", text.as_bytes(), read_case).collect();
    assert!(lines.len() == 1 && lines[0].is_ok());
    let text = format!("{comment}x\n");
    let mut lines = Lines::new("f", text.as_bytes(), read_case);
    assert!(lines.next().expect("a line").is_err());
}
