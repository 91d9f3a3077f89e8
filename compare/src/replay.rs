//! A book that was read, gone through once more event by event.

use crate::draft::{Draft, Event};
use crate::model::Model;
use second::Reading;

/// Shows each event of a book with the state before it and the number it is
/// read with, 0 for the accepted ones; the last is the one at which reading
/// stopped, if it did. Hands back the state that the accepted ones have come to;
/// none if the tables were refused.
pub fn replay(
    book: &[u8],
    reading: &Reading,
    mut show: impl FnMut(&Model, Event, u8),
) -> Option<Model> {
    if reading.opening == 0 {
        return None;
    }
    let Draft { tables, events } = Draft::of_book(book)?;
    let (judged, behind) = events.split_at(reading.judged());
    let mut model = Model::new(&tables);
    let mut refused = reading.refused_events.iter().peekable();
    for (index, event) in judged.iter().enumerate() {
        if let Some(refused) = refused.next_if(|refused| refused.index == index) {
            show(&model, *event, refused.number);
        } else {
            show(&model, *event, second::refusal::ACCEPTED);
            model.take(*event);
        }
    }
    if let Some(event) = behind.first() {
        show(&model, *event, reading.number);
    }
    Some(model)
}

#[cfg(test)]
mod tests {
    use super::*;
    use crate::books::book;

    const BOOKS: u64 = 3000;

    #[test]
    fn the_model_and_the_second_program_say_the_same_of_made_books() {
        let mut shown = 0;
        for index in 0..BOOKS {
            let made = book(17, index);
            let in_both_ways = [
                second::read_circles_permitted(&made.bytes),
                second::read_circles_permitted_to_first_refusal(&made.bytes),
            ];
            for reading in in_both_ways {
                replay(&made.bytes, &reading, |model, event, number| {
                    // Below 8, it is no event that is refused.
                    if number == 0 || number >= 8 {
                        assert_eq!(model.verdict(event), number, "{index} {event:?}");
                        shown += 1;
                    }
                });
            }
        }
        assert!(shown > 50 * BOOKS);
    }

    /// The last word of each line of an operation.
    fn listed_records(listing: &str) -> Vec<&str> {
        let lines = listing.lines().filter(|line| line.starts_with("op "));
        lines.filter_map(|line| line.split(' ').nth(6)).collect()
    }

    #[test]
    fn operations_of_edition_2_are_listed_with_their_records() {
        let mut listed = [0; 2];
        for index in 0..BOOKS {
            let made = book(19, index);
            let reading = second::read_circles_permitted(&made.bytes);
            let mut records = Draft::of_book(&made.bytes)
                .and_then(|draft| draft.tables.records)
                .unwrap_or_default()
                .into_iter();
            let mut wanted = Vec::new();
            replay(&made.bytes, &reading, |_, event, number| {
                let Event::Operation(..) = event else { return };
                let record = records.next();
                if number == 0 {
                    wanted.extend(record.map(|record| record.to_string()));
                }
            });
            let listing = second::listing_circles_permitted(&made.bytes);
            assert_eq!(listed_records(&listing), wanted, "{index}");
            listed[0] += usize::from(!wanted.is_empty());
            listed[1] += wanted.len();
        }
        assert!(listed[0] > 400 && listed[1] > 5000, "{listed:?}");
    }

    #[test]
    fn the_model_and_the_second_program_replay_in_the_same_order() {
        let mut named = 0;
        for index in 0..BOOKS {
            let made = book(18, index);
            let reading = second::read_circles_permitted(&made.bytes);
            let order = second::replay_order(&reading);
            let model = replay(&made.bytes, &reading, |_, _, _| {});
            let by_model = model.map(|model| model.replay_order());
            assert_eq!(by_model.unwrap_or_default(), order, "{index}");
            named += order.len() as u64;
        }
        assert!(named > 2 * BOOKS / 3, "{named}");
    }
}
