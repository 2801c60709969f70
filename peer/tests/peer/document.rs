//! The jobs that docs/JOBFILE.md shows, bytes, listing and sheets, played by all players.

use peer::sheet::MAX_SHEET;

use crate::PLAYERS;

const DOCUMENT: &str = include_str!("../../../docs/JOBFILE.md");

/// The blocks of the document that are fenced with this word.
fn blocks(word: &str) -> Vec<&'static str> {
    let fence = format!("```{word}\n");
    DOCUMENT.split(&fence).skip(1).filter_map(|rest| rest.split("```").next()).collect()
}

fn files() -> Vec<Vec<u8>> {
    let byte = |digits: &str| u8::from_str_radix(digits, 16).expect("two hexadecimal digits");
    let file = |bytes: &str| bytes.split_whitespace().map(byte).collect();
    blocks("bytes").into_iter().map(file).collect()
}

#[test]
fn jobs_are_listed_as_shown() {
    let (files, listings) = (files(), blocks("listing"));
    assert_eq!((files.len(), listings.len()), (4, 4));
    for (file, listing) in files.iter().zip(listings) {
        for player in PLAYERS {
            assert_eq!((player.list)(file), listing, "{}", player.name);
        }
    }
}

/// The last job's sheets, head by head.
#[test]
fn sheets_are_as_shown() {
    let (files, sheets) = (files(), blocks("sheet"));
    assert_eq!(sheets.len(), 2);
    for (head, sheet) in (0..).zip(sheets) {
        for player in PLAYERS {
            let mut out = vec![0; MAX_SHEET];
            let listed = (player.sheet)(&files[3], head, &mut out);
            assert_eq!(String::from_utf8_lossy(&out[..listed.bytes]), sheet, "{}", player.name);
        }
    }
}
