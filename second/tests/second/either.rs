//! The readings of order 13, each with its case.

use crate::sample::{accepted, Set};
use second::board::{Board, Mark, HOLDS};
use second::bundle::{file_state, FileState, LARGEST_BUNDLE};
use second::desks::{change_desks, Lent, Whose};
use second::drawer::{change_drawer, drawer_files, spans};
use second::gate::{judge, make_change, touched_marks};

/// A bundle and its board.
type State = (Vec<u8>, Board);

fn state(set: &Set) -> State {
    let bundle = set.bundle();
    let board = judge(&bundle).board;
    (bundle, board)
}

/// The state after the change, or the refusal.
fn change((bundle, board): &State, number: usize, new: Option<&str>) -> Result<State, u32> {
    into(bundle, board, number, new, LARGEST_BUNDLE)
}

fn into(
    bundle: &[u8],
    board: &Board,
    number: usize,
    new: Option<&str>,
    length: usize,
) -> Result<State, u32> {
    let mut output = vec![0; length];
    let new = new.map(str::as_bytes);
    let verdict = make_change(bundle, board, number, new, &mut output);
    let old = second::bundle::file_part(bundle, number).len();
    match verdict.refusal {
        0 => {
            output.truncate(bundle.len() - old + new.map_or(0, <[u8]>::len));
            Ok((output, verdict.board))
        }
        refusal => Err(refusal),
    }
}

#[test]
fn reading_1_all_four_steps_have_to_be_accepted() {
    let full = Set::empty().with_bytes(8, &vec![b' '; LARGEST_BUNDLE - 165]).with(2, "x");
    let start = state(&full);
    assert_eq!(start.0.len(), LARGEST_BUNDLE);
    let emptied = change(&start, 2, Some("")).unwrap();
    assert!(change(&emptied, 4, Some("y")).is_ok());
    assert_eq!(change(&start, 4, Some("y")), Err(6));
    let orders = [[(2, "z"), (4, "")], [(4, ""), (2, "z")]];
    let ends = orders.map(|[(first, new), (second, more)]| {
        change(&change(&start, first, Some(new)).unwrap(), second, Some(more)).unwrap()
    });
    assert!(ends[0] == ends[1]);
}

#[test]
fn reading_2_any_handed_board_will_do() {
    let handed = Board { marks: [Mark { kind: 1, place: 5, companion: 0 }; 81] };
    let start = (accepted().bundle(), handed);
    for (put, withdrawn) in [(6, 7), (9, 15), (0, 19), (14, 6)] {
        let one = change(&change(&start, put, Some("[]")).unwrap(), withdrawn, None).unwrap();
        let other = change(&change(&start, withdrawn, None).unwrap(), put, Some("[]")).unwrap();
        assert!(one == other, "files {put} and {withdrawn}");
    }
}

#[test]
fn reading_3_an_undone_board_is_right_where_the_file_is_read() {
    let handed = Board { marks: [Mark { kind: 1, place: 5, companion: 0 }; 81] };
    let start = (Set::empty().bundle(), handed);
    let put = change(&start, 8, Some("[]")).unwrap();
    let (bundle, board) = change(&put, 8, None).unwrap();
    assert_eq!(bundle, start.0);
    for mark in 0..81 {
        let expected = if [8, 24, 50, 70].contains(&mark) { HOLDS } else { handed.marks[mark] };
        assert_eq!(board.marks[mark], expected, "mark {mark}");
    }
    // From a full judgement all of it comes back.
    let start = state(&accepted());
    for number in 0..20 {
        let old = accepted().files[number].clone().unwrap();
        let old = String::from_utf8(old).unwrap();
        for new in [None, Some(""), Some("[{}]")] {
            let end = change(&change(&start, number, new).unwrap(), number, Some(&old)).unwrap();
            assert!(end == start, "file {number}");
        }
    }
    assert_eq!(touched_marks(8), [8, 24, 50, 70]);
}

#[test]
fn reading_4_only_five_refuses_an_undo() {
    let (bundle, board) = change(&state(&Set::empty()), 8, Some("[]")).unwrap();
    assert_eq!(into(&bundle, &board, 8, None, 163), Err(5));
    assert!(into(&bundle, &board, 8, None, 164).is_ok());
}

#[test]
fn reading_5_an_empty_file_comes_back_by_its_bytes() {
    let start = state(&Set::empty().with(5, ""));
    let changed = change(&start, 5, Some("[]")).unwrap();
    assert!(change(&changed, 5, Some("")).unwrap() == start);
    let (bundle, _) = change(&changed, 5, None).unwrap();
    assert_eq!(file_state(&bundle, 5), FileState::Omitted);
    assert!(bundle != start.0);
}

#[test]
fn reading_6_a_drawers_places_may_differ() {
    let mut drawer = [&Set::empty().bundle()[..], b"..AB.."].concat();
    drawer[4] = 166;
    drawer[8] = 2;
    let start = drawer.clone();
    let board = Board::fresh();
    for new in ["CD", "AB"] {
        let verdict = change_drawer(&mut drawer, &board, 0, Some(new.as_bytes()));
        assert_eq!(verdict.refusal, 0);
    }
    assert_eq!(&drawer[164..], b"ABAB..");
    assert_eq!(spans(&drawer).unwrap()[0].unwrap().offset, 164);
    assert_eq!(drawer_files(&drawer).unwrap(), drawer_files(&start).unwrap());
}

#[test]
fn reading_7_one_number_at_two_desks_is_two_files() {
    let none = Set::empty().bundle();
    let handed = [Board::fresh(); 2];
    let steps = [(Whose::DeskA, "[]"), (Whose::DeskB, "[{}]")];
    let ends = [[0, 1], [1, 0]].map(|order| {
        let (mut desks, mut boards) = ([none.clone(), none.clone()], handed);
        for at in order {
            let (whose, new) = steps[at];
            let mut output = vec![0; 164 + new.len()];
            let lent = Lent { desks: [&desks[0], &desks[1]], shared: &none, boards: &boards };
            let answers = change_desks(lent, whose, 9, Some(new.as_bytes()), &mut output);
            assert_eq!(answers.size, output.len());
            boards = answers.desks.map(|desk| desk.board);
            desks[at] = output;
        }
        (desks, boards)
    });
    assert!(ends[0] == ends[1]);
}
