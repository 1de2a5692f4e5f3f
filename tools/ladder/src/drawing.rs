//! Where each thing of a story stands in the picture. Each row has one text at most in each column, and a column is as
//! wide as its longest text, so no two texts meet.
use crate::chunks::chunks_in_words;
use crate::session::Side;
use crate::story::Happening;

/// The height of a line of text, in pixels.
pub const LINE: usize = 18;
/// The width of a letter: all have the same.
pub const LETTER: usize = 8;

/// What a text tells.
#[derive(Clone, Copy, Debug, PartialEq, Eq)]
pub enum Style {
    /// The chunks of a datagram.
    Chunk,
    /// What the application asks for.
    Asked,
    /// What the application is told.
    Told,
    /// A timer that expired.
    Expired,
    /// The number of a datagram, or that it is lost.
    Note,
}

/// The columns of text beside the two lines of the sides.
#[derive(Clone, Copy, Debug, PartialEq, Eq)]
pub enum Column {
    /// Beyond the line of this side.
    Outside(Side),
    /// Between the lines, at this side.
    Inside(Side),
}

/// A text, by the bottom of its row.
#[derive(Debug)]
pub struct Text {
    pub bottom: usize,
    pub column: Column,
    pub style: Style,
    pub words: String,
}

/// A datagram on its way: from which height it leaves its side, and at which it comes to the other, if it does.
#[derive(Debug)]
pub struct Arrow {
    pub from: Side,
    pub leaves: usize,
    pub comes: Option<usize>,
    /// It came before.
    pub is_repeated: bool,
}

/// All that a picture shows.
#[derive(Debug, Default)]
pub struct Drawing {
    pub texts: Vec<Text>,
    pub arrows: Vec<Arrow>,
    /// Moments in ms, by the bottom of their rows.
    pub moments: Vec<(usize, u64)>,
    pub height: usize,
    /// From which height each datagram of a side leaves, and how often it came.
    sent: [Vec<(usize, usize)>; 2],
}

impl Drawing {
    pub fn of(story: &[Happening]) -> Drawing {
        let mut drawing = Drawing { height: 2 * LINE, ..Drawing::default() };
        for happening in story {
            match happening {
                Happening::Moment(millis) => drawing.moment(*millis),
                Happening::Sent { side, number, datagram } => {
                    drawing.sent(*side, *number, datagram);
                    if !comes(story, *side, *number) {
                        drawing.lost(*side);
                    }
                }
                Happening::Came { side, number, dropped } => drawing.came(*side, *number, *dropped),
                Happening::Missing { side, number } => {
                    drawing.row(Column::Outside(*side), Style::Note, &format!("packet {number}: there is none"))
                }
                Happening::Expired { side, timer } => drawing.row(Column::Outside(*side), Style::Expired, timer),
                Happening::Asked { side, words } => drawing.row(Column::Outside(*side), Style::Asked, words),
                Happening::Told { side, words } => drawing.row(Column::Outside(*side), Style::Told, words),
            }
        }
        drawing.height += LINE;
        drawing
    }

    fn row(&mut self, column: Column, style: Style, words: &str) {
        self.height += LINE;
        self.text(column, style, words);
    }

    fn text(&mut self, column: Column, style: Style, words: &str) {
        self.texts.push(Text { bottom: self.height, column, style, words: words.to_string() });
    }

    fn moment(&mut self, millis: u64) {
        self.height += LINE + LINE / 2;
        self.moments.push((self.height, millis));
    }

    fn sent(&mut self, side: Side, number: usize, datagram: &[u8]) {
        for (i, words) in chunks_in_words(datagram).iter().enumerate() {
            self.row(Column::Inside(side), Style::Chunk, words);
            if i == 0 {
                self.text(Column::Outside(side), Style::Note, &format!("packet {number}"));
            }
        }
        self.height += LINE / 3;
        self.sent[side as usize].push((self.height, 0));
    }

    /// The datagram that was sent last never comes.
    fn lost(&mut self, side: Side) {
        self.arrows.push(Arrow { from: side, leaves: self.height, comes: None, is_repeated: false });
        self.height += LINE;
    }

    fn came(&mut self, side: Side, number: usize, dropped: Option<&str>) {
        let (leaves, times) = &mut self.sent[side.other() as usize][number];
        self.height += LINE;
        let is_repeated = *times > 0;
        *times += 1;
        let arrow = Arrow { from: side.other(), leaves: *leaves, comes: Some(self.height), is_repeated };
        self.arrows.push(arrow);
        let again = if is_repeated { " again" } else { "" };
        match dropped {
            Some(why) => {
                self.text(Column::Outside(side), Style::Note, &format!("packet {number}{again}, dropped: {why}"))
            }
            None if is_repeated => self.text(Column::Outside(side), Style::Note, &format!("packet {number}{again}")),
            None => {}
        }
        self.height += LINE / 3;
    }

    /// How many letters the longest text of a column has.
    pub fn longest(&self, column: Column) -> usize {
        let of_column = self.texts.iter().filter(|text| text.column == column);
        of_column.map(|text| text.words.chars().count()).max().unwrap_or(0)
    }
}

/// Whether this datagram of a side comes at all.
fn comes(story: &[Happening], from: Side, sent: usize) -> bool {
    story.iter().any(|happening| match happening {
        Happening::Came { side, number, .. } => *side == from.other() && *number == sent,
        _ => false,
    })
}

#[cfg(test)]
mod tests {
    use super::*;

    /// DATA of RFC 4960 section 3.3.1 with TSN 100, stream 1, SSN 0 and the bytes `hi`, behind a common header.
    const DATA: &[u8] = b"HEADER......\x00\x03\x00\x12\x00\x00\x00\x64\x00\x01\x00\x00\x00\x00\x00\x33hi\0\0";

    /// So many datagrams of each side, every third one lost and every second of the others given twice, with a word of
    /// the application and a timer behind each.
    fn story(datagrams: usize) -> Vec<Happening> {
        let mut story = Vec::new();
        for number in 0..datagrams {
            story.push(Happening::Moment(number as u64));
            for side in [Side::A, Side::B] {
                story.push(Happening::Sent { side, number, datagram: DATA.to_vec() });
                story.push(Happening::Told { side, words: "datagram".to_string() });
                story.push(Happening::Expired { side, timer: "T3-rtx expires" });
            }
            let times = [0, 1, 2][number % 3];
            for side in [Side::A, Side::B].repeat(times) {
                story.push(Happening::Came { side, number, dropped: None });
            }
        }
        story
    }

    #[test]
    fn no_two_texts_of_a_column_meet() {
        for datagrams in [5, 30] {
            let drawing = Drawing::of(&story(datagrams));
            let chunks = drawing.texts.iter().filter(|text| text.style == Style::Chunk);
            assert_eq!(chunks.count(), 2 * datagrams);
            let inside = |column| matches!(column, Column::Inside(_));
            for (i, one) in drawing.texts.iter().enumerate() {
                for other in &drawing.texts[..i] {
                    let is_apart = one.bottom.abs_diff(other.bottom) >= LINE;
                    let share = one.column == other.column || inside(one.column) && inside(other.column);
                    assert!(is_apart || !share, "{one:?} and {other:?}");
                }
            }
        }
    }

    #[test]
    fn what_never_comes_is_lost_and_what_comes_again_is_repeated() {
        let drawing = Drawing::of(&story(30));
        let count = |is: fn(&&Arrow) -> bool| drawing.arrows.iter().filter(is).count();
        assert_eq!(count(|arrow| arrow.comes.is_none()), 20);
        assert_eq!(count(|arrow| arrow.comes.is_some() && !arrow.is_repeated), 40);
        assert_eq!(count(|arrow| arrow.is_repeated), 20);
        assert!(drawing.arrows.iter().all(|arrow| arrow.comes.map_or(true, |comes| comes > arrow.leaves)));
    }
}
