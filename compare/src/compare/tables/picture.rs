//! The cells of a picture, as the program `contour` draws them, held against the model's.

use crate::course::{Cell, Course};

/// Holds a picture against a course: it is whole, and has exactly one cell for each segment in each period, row by row.
pub fn same(course: &Course, picture: &str) -> Result<(), String> {
    if !picture.starts_with("<svg ") || !picture.ends_with("</svg>\n") {
        return Err(format!("the program prints no whole picture but\n{picture}"));
    }
    let mut lines = picture.lines().filter(|line| line.contains("<title>segment "));
    for cell in course.cells() {
        let line = lines.next().unwrap_or_default();
        if !shows(line, &cell) {
            return Err(format!("a cell differs, of the model's {cell:?} the program draws\n{line}"));
        }
    }
    match lines.next() {
        None => Ok(()),
        Some(line) => Err(format!("all cells are equal, and after the last of them the program draws\n{line}")),
    }
}

/// Whether a line shows a cell: its colour and its tooltip, a hatch where a lane is closed alone, and its letter where it has one.
fn shows(line: &str, cell: &Cell) -> bool {
    let shapes = line.strip_prefix(&told(cell)).and_then(|shapes| shapes.strip_suffix("</g>"));
    shapes.is_some_and(|shapes| {
        let hatches = shapes.matches("class='closed'").count();
        let letter = format!(">{}</text>", char::from(cell.mark.letter));
        hatches == usize::from(cell.is_closed()) && (!shapes.contains("<text") || shapes.ends_with(&letter))
    })
}

/// What a cell's line begins with: the class that gives its colour, and its tooltip.
fn told(cell: &Cell) -> String {
    let Cell { period, segment, lanes, mark } = cell;
    let (letter, open) = (char::from(mark.letter), mark.open);
    format!(
        "<g class='{letter}'><title>segment {segment}, period {period}: {letter}, {open} of {lanes} lanes open</title>"
    )
}

#[cfg(test)]
mod tests {
    use super::*;
    use crate::course::Mark;

    const PICTURE: &str = "<svg xmlns='http://www.w3.org/2000/svg' role='img'>
<title>Level letters by segment and period</title>
<g class='A'><title>segment 1, period 1: A, 2 of 2 lanes open</title><rect class='edge' x='1000'/><text x='2'>A</text></g>
<g class='D'><title>segment 2, period 1: D, 1 of 1 lanes open</title><rect class='edge' x='5500'/></g>
<g class='F'><title>segment 1, period 2: F, 1 of 2 lanes open</title><rect class='edge' x='1000'/><rect class='closed' x='1000'/></g>
<g class='A'><title>segment 2, period 2: A, 1 of 1 lanes open</title><rect class='edge' x='5500'/><text x='2'>A</text></g>
<g class='F'><rect class='edge' x='8250'/><text class='middle'>F</text></g>
</svg>
";

    /// The course that is drawn.
    fn course() -> Course {
        let rows = [[(b'A', 2), (b'D', 1)], [(b'F', 1), (b'A', 1)]];
        let rows = rows.map(|row| row.map(|(letter, open)| Mark { letter, open }).to_vec());
        Course { lanes: vec![2, 1], rows: rows.to_vec() }
    }

    #[test]
    fn a_drawn_course() {
        assert_eq!(same(&course(), PICTURE), Ok(()));
    }

    #[test]
    fn another_cell_is_a_difference() {
        for (part, instead) in [
            ("<g class='D'>", "<g class='E'>"),
            (": D,", ": E,"),
            ("1 of 1", "1 of 2"),
            ("1 of 2", "2 of 2"),
            ("<rect class='closed' x='1000'/>", ""),
            ("x='5500'/></g>", "x='5500'/><rect class='closed' x='5500'/></g>"),
            ("<text x='2'>A<", "<text x='2'>B<"),
            ("period 2: A", "period 1: A"),
            ("<svg ", "<sv "),
            ("</svg>\n", ""),
        ] {
            let other = PICTURE.replacen(part, instead, 1);
            assert!(other != PICTURE && same(&course(), &other).is_err(), "{part} {instead}");
        }
    }

    #[test]
    fn a_cell_too_many_or_too_few_is_a_difference() {
        let mut lines: Vec<&str> = PICTURE.split_inclusive('\n').collect();
        let twice = PICTURE.replace(lines[5], &lines[5].repeat(2));
        let cut = PICTURE.replace(lines[5], "");
        lines.swap(2, 3);
        for other in [twice, cut, lines.concat()] {
            assert!(same(&course(), &other).is_err());
        }
    }
}
