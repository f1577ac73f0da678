//! A study period by period, in the form in which the model and the engine's programs are compared.

use std::fmt::Write;

/// Each segment's lanes, and for each period a row: a mark for each segment.
#[derive(Clone, Debug, PartialEq)]
pub struct Course {
    pub lanes: Vec<u64>,
    pub rows: Vec<Vec<Mark>>,
}

/// A segment in a period: its letter at the end, and its open lanes.
#[derive(Clone, Copy, Debug, PartialEq)]
pub struct Mark {
    pub letter: u8,
    pub open: u64,
}

/// A mark with where it stands.
#[derive(Clone, Copy, Debug, PartialEq)]
pub struct Cell {
    pub period: usize,
    pub segment: usize,
    pub lanes: u64,
    pub mark: Mark,
}

impl Cell {
    /// Whether a lane is closed.
    pub fn is_closed(&self) -> bool {
        self.mark.open < self.lanes
    }
}

impl Course {
    /// All cells, row by row.
    pub fn cells(&self) -> impl Iterator<Item = Cell> + '_ {
        (1..).zip(&self.rows).flat_map(move |(period, row)| {
            let marks = (1..).zip(row).zip(&self.lanes);
            marks.map(move |((segment, &mark), &lanes)| Cell { period, segment, lanes, mark })
        })
    }

    /// What the program `letters` prints: the segments' numbers, then each period's with its letters.
    pub fn table(&self) -> String {
        let segments: String = (1..=self.lanes.len()).map(|segment| format!(" {segment}")).collect();
        let mut text = format!("  {segments}\n");
        for (period, row) in (1..).zip(&self.rows) {
            let letters: String = (1..).zip(row).map(column).collect();
            let _ = writeln!(text, "{period:2}{letters}");
        }
        text
    }
}

/// A letter below its segment's number.
fn column((segment, mark): (u64, &Mark)) -> String {
    let space = if segment < 10 { " " } else { "  " };
    format!("{space}{}", char::from(mark.letter))
}

#[cfg(test)]
mod tests {
    use super::*;

    /// A course of segments with two lanes, one of them closed in each second period.
    fn course(rows: &[&str]) -> Course {
        let marks = |open, row: &str| row.bytes().map(|letter| Mark { letter, open }).collect();
        let open = [2, 1].into_iter().cycle();
        Course { lanes: vec![2; rows[0].len()], rows: open.zip(rows).map(|(open, row)| marks(open, row)).collect() }
    }

    #[test]
    fn a_table_of_a_few_segments() {
        assert_eq!(course(&["AB", "CF"]).table(), "   1 2\n 1 A B\n 2 C F\n");
    }

    #[test]
    fn a_table_of_many_segments_and_periods() {
        let table = course(&["ABCDEFABCDE"; 10]).table();
        let lines: Vec<&str> = table.lines().collect();
        assert_eq!(lines[0], "   1 2 3 4 5 6 7 8 9 10 11");
        assert_eq!(lines[9], " 9 A B C D E F A B C  D  E");
        assert_eq!(lines[10], "10 A B C D E F A B C  D  E");
        assert!(lines.len() == 11 && table.ends_with('\n'));
    }

    #[test]
    fn a_road_alone_has_the_first_line_alone() {
        let road = Course { lanes: vec![3; 10], rows: Vec::new() };
        assert_eq!((road.table().as_str(), road.cells().count()), ("   1 2 3 4 5 6 7 8 9 10\n", 0));
    }

    #[test]
    fn cells_go_row_by_row() {
        let course = course(&["AB", "CF"]);
        let cells: Vec<_> = course.cells().map(|cell| (cell.period, cell.segment, cell.mark.letter)).collect();
        assert_eq!(cells, [(1, 1, b'A'), (1, 2, b'B'), (2, 1, b'C'), (2, 2, b'F')]);
        assert!(course.cells().map(|cell| cell.is_closed()).eq([false, false, true, true]));
    }
}
