//! The line that the small program prints.

use reference::cases::{lines_of_r, r, E, P};
use reference::program::answer;
use reference::record::{written, Line};

fn asked(from: u16, to: u16, pattern: &[u8]) -> Vec<u8> {
    [&from.to_be_bytes()[..], &to.to_be_bytes(), pattern].concat()
}

#[test]
fn lines_printed() {
    assert_eq!(answer(&r(), &asked(0, 3, &P)), "found 3: 1 2 5");
    let mut fewer = lines_of_r();
    fewer.remove(5);
    assert_eq!(answer(&written(4, &fewer), &asked(0, 3, &P)), "none");
    assert_eq!(answer(&E, &asked(0, 0, &[0x20])), "found 0:");
    assert_eq!(answer(&r(), &asked(0, 4, &P)), "refused 15");
}

#[test]
fn short_and_missing_files() {
    for ask in [&[][..], &[0], &[0, 0], &[0, 0, 0]] {
        assert_eq!(answer(&r(), ask), "no question");
        assert_eq!(answer(&[], ask), "no question");
        assert_eq!(answer(&[0xFF; 50_000], ask), "no question");
    }
    assert_eq!(answer(&r(), &[0, 0, 0, 3]), "refused 8");
    assert_eq!(answer(&[], &asked(0, 0, &[0x20])), "refused 2");
    assert_eq!(answer(&[1; 57_349], &asked(0, 0, &[0x20])), "refused 1");
    assert_eq!(answer(&[1; 57_348], &asked(0, 0, &[0x20])), "refused 3");
}

/// The program gives no windows, so that lines are inside at every time.
#[test]
fn timed_lines() {
    let lines: Vec<Line> = lines_of_r()
        .into_iter()
        .zip([0, 1, 5, 36_000, 65_536, 86_398, 86_399])
        .map(|(line, time)| line.at(time))
        .collect();
    assert_eq!(
        answer(&written(4, &lines), &asked(0, 3, &P)),
        "found 3: 1 2 5"
    );
    let late = [lines[0].at(86_400)];
    assert_eq!(answer(&written(4, &late), &asked(0, 3, &P)), "refused 28");
    let over = vec![lines[0]; 4_096];
    let mut over = written(4, &over);
    *over.last_mut().expect("not empty") = 3;
    assert_eq!(answer(&over, &asked(0, 3, &P)), "refused 22");
}

#[test]
fn area_and_output() {
    // 1,024 places and two spots: size 2,048, which just fits the area.
    let day = written(1_024, &[]);
    assert_eq!(answer(&day, &asked(0, 1, &[0x20])), "none");
    assert_eq!(answer(&day, &asked(0, 1, &[0x26, 0x20])), "refused 17");
}
