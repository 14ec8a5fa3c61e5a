//! What the program `racecheck` prints for an input.

use crate::call::{call, Outcome};
use crate::limits::{MOST_BYTES_TO_PRINT, MOST_RACE_LINES};

/// "The program takes up to 65,536 bytes": the outcome of an input, or none
/// where the input is longer.
pub fn outcome(input: &[u8]) -> Option<Outcome> {
    (input.len() <= MOST_BYTES_TO_PRINT).then(|| call(input))
}

pub fn printed(input: &[u8]) -> String {
    printed_outcome(&outcome(input))
}

/// "and for a longer input prints only `too long`."
pub fn printed_outcome(outcome: &Option<Outcome>) -> String {
    outcome
        .as_ref()
        .map_or_else(|| String::from("too long\n"), lines)
}

/// "The first line is the returned numbers by name. Each race line is location,
/// earlier event, later event." It "prints at most 1,024 race lines".
fn lines(outcome: &Outcome) -> String {
    let Outcome {
        code,
        events,
        offset,
        races,
        visits,
        most,
        entries,
    } = outcome;
    let mut text = format!(
        "code {code} events {events} offset {offset} races {races} visits {visits} most {most}\n"
    );
    for [location, earlier, later] in entries.iter().take(MOST_RACE_LINES) {
        text.push_str(&format!("race {location} {earlier} {later}\n"));
    }
    text
}

#[cfg(test)]
mod tests {
    use super::*;

    #[test]
    fn the_figure_is_printed_whole() {
        let mut input = vec![0x06, 0x00, 0x03, 0x0B, 0x05, 0x06, 0x0C, 0x04, 0x01];
        input.extend([0x00, 0x03, 0x05, 0x06, 0x04, 0x01]);
        input.extend([0x00, 0x0B, 0x05, 0x06, 0x0C, 0x01, 0x02, 0x05, 0x01]);
        let text = "code 0 events 24 offset 24 races 2 visits 19 most 2\n\
                    race 0 12 17\nrace 0 12 18\n";
        assert_eq!(printed(&input), text);
    }

    #[test]
    fn the_longest_input_and_one_byte_more() {
        let mut input = vec![0x02; 65_535];
        input.push(0x01);
        let line = "code 0 events 65536 offset 65536 races 0 visits 0 most 0\n";
        assert_eq!(printed(&input), line);
        input.push(0x01);
        assert_eq!(printed(&input), "too long\n");
    }

    #[test]
    fn as_many_race_lines_as_may_be() {
        for (writes, lines) in [(1_023, 1_023), (1_024, 1_024), (1_025, 1_024)] {
            let mut input = vec![0x00, 0x06, 0x01];
            input.extend(vec![0x06; writes]);
            let text = printed(&input);
            assert!(text.contains(&format!(" races {writes} ")), "{writes}");
            assert_eq!(text.lines().count(), 1 + lines);
            let last = format!("race 0 1 {}\n", 2 + lines);
            assert!(text.ends_with(&last), "{writes}");
        }
    }
}
