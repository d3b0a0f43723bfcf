//! The examples that the documents tell, run on the reference.

#[path = "rack.rs"]
#[allow(dead_code)]
mod rack;

use rack::{answers, Board, Job, Kind, Place, Plant, Rack, Refusal, Served, Stage, Step};

fn run(rack: &mut Rack, slots: &[u32]) -> Vec<i64> {
    slots.iter().map(|&i| rack.slot(i).unwrap().number()).collect()
}

/// Orders the job for a lone station and serves it until it rests. Gives all answers.
fn whole(rack: &mut Rack, i: u32, job: Job) -> Vec<i64> {
    rack.order(i, job).unwrap();
    let mut got = Vec::new();
    while rack.look(i).unwrap().stage != Stage::Rest {
        got.push(rack.slot(i).unwrap().number());
    }
    got
}

#[test]
fn the_example_sheet() {
    let sheet = "B  1  200000\nG  1  200000\n".to_string() + &"S  1       0\n".repeat(5);
    let output = "B  1       0\nG  1       0\nS  1      11\nS  1      12\nS  1      21\nS  1      14\nS  1       7\n\
                  P  0  200000\nD  0       0\nW  0       1\n";
    assert_eq!(answers(sheet.as_bytes()), output);
}

/// Gives the last line of the output for this text in line 1 or in line 2.
fn last_line(place: usize, text: &[u8]) -> String {
    let mut sheet = Vec::new();
    if place == 2 {
        sheet.extend(b"B  1  200000\n");
    }
    sheet.extend(text);
    answers(&sheet).lines().last().unwrap().to_string()
}

#[test]
fn the_table_of_wrong_columns() {
    let table: [(&[u8], usize, usize); 19] = [
        (b"L  1  200000\n", 1, 1),
        (b"S  1       0\n", 1, 1),
        (b"B 1   200000\n", 1, 4),
        (b"B 01  200000\n", 1, 3),
        (b"B  1  200000\n", 2, 1),
        (b"\n", 2, 1),
        (b"G  1 -200000\n", 2, 6),
        (b"T  1     -05\n", 2, 11),
        (b"T  1      -0\n", 2, 12),
        (b"T  1      33 \n", 2, 13),
        (b"T  1      33\r\n", 2, 13),
        (b"S  1      0\n", 2, 11),
        (b"S  1       1\n", 2, 12),
        (b"S  1\n", 2, 5),
        (b"S  1", 2, 5),
        (b"S  1       0", 2, 13),
        (b"", 1, 1),
        (b"\n", 1, 1),
        (b"T  1       -\n", 2, 12),
    ];
    for (text, line, column) in table {
        let wanted = format!("X{column:3}{line:8}");
        assert_eq!(last_line(line, text), wanted, "{:?}", String::from_utf8_lossy(text));
    }
}

#[test]
fn ends_of_sheets() {
    assert_eq!(answers(b"F  3       0\n"), "F  3       0\nP  0       0\nD  0       0\nW  0       0\n");
    assert_eq!(answers(b"F  0       0\nrubbish"), "F  0       1\n");
    assert_eq!(answers(b"F 17  400001\n"), "F 17       1\n");
    assert_eq!(answers(b"B 16  400001\n"), "B 16       2\n");
    let whole = "B  1       0\n".to_string() + &"S  1       0\n".repeat(4999);
    assert_eq!(whole.len(), 65_000);
    assert_eq!(answers(whole.as_bytes()).lines().count(), 5003);
    assert_eq!(answers((whole + "S").as_bytes()), "X  0       0\n");
    assert_eq!(answers(&[b'F'; 65_001]), "X  0       0\n");
}

#[test]
fn the_one_bit_run_with_the_mistake_and_without() {
    for (plant, answer_10, answer_12) in [(Plant::NoRaise, 11, 11), (Plant::Nothing, 10, 10)] {
        let mut rack = Rack::set_up_with_plant(Kind::OneBit, plant, 2, 200_000).unwrap();
        rack.order(1, Job::Sign(200_000)).unwrap();
        rack.order(2, Job::Sign(200_000)).unwrap();
        let got = run(&mut rack, &[1, 2, 2, 2, 1, 1, 1, 1, 2, 2]);
        assert_eq!(got, [10, 10, 10, 10, 11, 12, 21, 14, 10, answer_10]);
        rack.order(1, Job::Sign(200_000)).unwrap();
        assert_eq!(run(&mut rack, &[1, 1]), [10, answer_12]);
    }
}

#[test]
fn the_fast_run_with_the_mistake_and_without() {
    for plant in [Plant::NoScan, Plant::Nothing] {
        let mut rack = Rack::set_up_with_plant(Kind::Fast, plant, 3, 200_000).unwrap();
        for i in 1..=3 {
            rack.order(i, Job::Undo).unwrap();
        }
        run(&mut rack, &[1, 2, 3, 2, 1, 1, 2, 1, 2]);
        assert_eq!(rack.slot(1), Ok(Served::NowInside));
        run(&mut rack, &[3, 2, 2, 2]);
        let scan = Place::Trying(Step::Fast(rack::FastStep::Scan(1)));
        assert_eq!(rack.lock.place(2), if plant == Plant::NoScan { Place::Inside } else { scan });
    }
}

#[test]
fn the_longest_lone_way_of_the_fast_lock() {
    // Station 1 stands at Confirm with another number in X and 0 in Y.
    let mut rack = Rack::set_up(Kind::Fast, 2, 0).unwrap();
    rack.order(1, Job::Undo).unwrap();
    rack.order(2, Job::Undo).unwrap();
    run(&mut rack, &[1, 1, 1, 2, 2, 2, 1, 2, 2, 2, 2, 2]);
    assert_eq!(rack.look(2).unwrap().stage, Stage::Rest);
    let got = run(&mut rack, &[1; 11]);
    assert_eq!(got, [10, 10, 10, 10, 10, 10, 10, 10, 10, 10, 11]);
}

#[test]
fn exact_lone_costs() {
    for n in 1..=16 {
        for i in 1..=n {
            let mut rack = Rack::set_up(Kind::OneBit, n, 0).unwrap();
            let got = whole(&mut rack, i, Job::Undo);
            assert_eq!(got, [vec![10; n as usize - 1], vec![11, 24, 14]].concat());
            assert_eq!(rack.look(i).unwrap().count as usize, got.len());
            let mut rack = Rack::set_up(Kind::Fast, n, 0).unwrap();
            assert_eq!(whole(&mut rack, i, Job::Undo), [10, 10, 10, 10, 11, 24, 13, 14]);
        }
    }
}

#[test]
fn the_table_of_differences() {
    let table = [(199_999, 33, 206_598), (199_999, -33, 193_400), (19, 50, 19), (333_334, 200, 400_000)];
    for (start, p, setpoint) in table {
        let mut rack = Rack::set_up(Kind::OneBit, 1, start).unwrap();
        assert_eq!(whole(&mut rack, 1, Job::Trim(p)), [11, 12, 12, 12, 12, 12, 21, 14]);
        assert_eq!((rack.board().setpoint, rack.board().depth), (setpoint, 1));
        assert_eq!(whole(&mut rack, 1, Job::Undo), [11, 12, 12, 12, 12, 12, 21, 14]);
        assert!(rack.board.agrees_with(&Board::fresh(start)));
    }
    let mut rack = Rack::set_up(Kind::OneBit, 1, 333_335).unwrap();
    assert_eq!(whole(&mut rack, 1, Job::Trim(200)), [11, 12, 23, 14]);
    assert_eq!(rack.board, Board::fresh(333_335));
}

#[test]
fn a_full_pile() {
    let mut rack = Rack::set_up(Kind::Fast, 2, 400_000).unwrap();
    for depth in 1..=64 {
        whole(&mut rack, 2, Job::Trim(-200));
        assert_eq!(rack.board().depth, depth);
    }
    let before = rack.board.clone();
    // The pile is full and the setpoint, 0.2 of itself more, would fit: verdict 2.
    assert_eq!(whole(&mut rack, 1, Job::Trim(200)), [10, 10, 10, 10, 11, 12, 22, 13, 14]);
    assert_eq!(rack.board, before);
    for _ in 1..=64 {
        whole(&mut rack, 1, Job::Undo);
    }
    assert!(rack.board.agrees_with(&Board::fresh(400_000)));
    assert_eq!(whole(&mut rack, 1, Job::Undo), [10, 10, 10, 10, 11, 24, 13, 14]);
}

#[test]
fn refusals_in_their_order() {
    let mut rack = Rack::set_up(Kind::Fast, 2, 5).unwrap();
    assert_eq!(rack.slot(1), Err(Refusal::AtRest));
    assert_eq!(rack.slot(0), Err(Refusal::NoSuchStation));
    assert_eq!(rack.look(3), Err(Refusal::NoSuchStation));
    rack.order(1, Job::Sign(400_000)).unwrap();
    let before = rack.clone();
    assert_eq!(rack.order(1, Job::Trim(0)), Err(Refusal::TrimOutOfRange));
    assert_eq!(rack.order(3, Job::Trim(0)), Err(Refusal::NoSuchStation));
    assert_eq!(rack.order(1, Job::Trim(-201)), Err(Refusal::TrimOutOfRange));
    assert_eq!(rack.order(1, Job::Sign(400_001)), Err(Refusal::SignOutOfRange));
    assert_eq!(rack.order(1, Job::Trim(-200)), Err(Refusal::NotAtRest));
    assert_eq!(rack, before);
    assert_eq!(Rack::set_up(Kind::OneBit, 17, 400_001), Err(Refusal::WrongNumberOfStations));
}

#[test]
fn the_count_stops() {
    let mut rack = Rack::set_up(Kind::OneBit, 2, 0).unwrap();
    rack.order(1, Job::Undo).unwrap();
    run(&mut rack, &[1]);
    rack.order(2, Job::Undo).unwrap();
    for _ in 0..70_000 {
        assert_eq!(rack.slot(2), Ok(Served::StillTrying));
    }
    assert_eq!(rack.look(2).unwrap().count, 65_535);
    assert_eq!(rack.slot(1), Ok(Served::NowInside));
}

/// All texts of one width over a small alphabet, in which 1 stands for every digit above 0.
fn all_texts(width: usize) -> Vec<String> {
    let mut texts = vec![String::new()];
    for _ in 0..width {
        texts = texts.iter().flat_map(|text| [' ', '-', '0', '1'].map(|c| format!("{text}{c}"))).collect();
    }
    texts
}

/// The wrong column by its definition, from a list of all legal texts: the first column that none of them reaches.
fn check_field(width: usize, first_column: usize, legal: fn(i64) -> bool, line: fn(&str) -> String) {
    let is_legal = |text: &&String| {
        let number = text.trim_start_matches(' ').parse::<i64>();
        number.is_ok_and(|number| legal(number) && format!("{number:width$}") == **text)
    };
    let texts = all_texts(width);
    let beginnings: std::collections::HashSet<&str> =
        texts.iter().filter(is_legal).flat_map(|text| (1..=width).map(move |c| &text[..c])).collect();
    for text in &texts {
        let got = answers(("B  1  200000\n".to_string() + &line(text)).as_bytes());
        let last = got.lines().last().unwrap();
        match (1..=width).find(|&c| !beginnings.contains(&text[..c])) {
            Some(c) => assert_eq!(last, format!("X{:3}       2", first_column + c - 1), "{text:?}"),
            None => assert_eq!(last, "W  0       0", "{text:?}"),
        }
    }
}

#[test]
fn every_field_over_a_small_alphabet() {
    check_field(3, 2, |number| number >= 0, |text| format!("S{text}       0\n"));
    check_field(8, 5, |_| true, |text| format!("T  1{text}\n"));
    check_field(8, 5, |number| number >= 0, |text| format!("G  1{text}\n"));
    check_field(8, 5, |number| number == 0, |text| format!("U  1{text}\n"));
}
