//! The stack that include/stephylax.h names does for every call.

mod common;

use common::published;
use reference::layout;
use reference::plain::packed::parse;

const NAMED: usize = 512_000;

/// Every call, on the longest published series.
fn every_call() {
    let t = stephylax::instant_of_date(2019, 11, 11, 0).unwrap();
    assert_eq!(stephylax::date_of_instant(t).unwrap().year, 2019);
    let day = stephylax::day_of_date(2019, 11, 11).unwrap();
    assert_eq!(stephylax::date_of_day(day).unwrap().month, 11);
    let [planet, earth] = ["mercury", "earth"].map(|name| {
        let text = published(name);
        let mut packed = vec![0; 120_000];
        let length = stephylax::read_text(&text, &mut packed).unwrap();
        let mut reader = stephylax::TextReader::new(&mut packed);
        reader.piece(&text).unwrap();
        assert_eq!(reader.end(), Ok(length));
        packed.truncate(length);
        let clean = stephylax::mended(&text);
        assert_eq!((clean.changes, clean.verdict), (Vec::new(), Ok(length)));
        let file = layout::published(&parse(&packed).unwrap());
        assert_eq!(stephylax::read_published(&file, &mut packed), Ok(length));
        let mut reader = stephylax::PublishedReader::new(&mut packed);
        reader.piece(&file).unwrap();
        assert_eq!(reader.end(), Ok(length));
        packed
    });
    assert_eq!(stephylax::check(&planet).map(|checked| checked.terms), Ok(6827));
    assert!(stephylax::print(&planet, &mut vec![0; 400_000]).is_ok());
    assert!(stephylax::coordinates_at(&planet, t).is_ok());
    assert!(stephylax::apparent_place(&planet, &earth, t).is_ok());
    assert!(stephylax::mount_place(&planet, &earth, t).is_ok());
    assert_eq!(stephylax::sun_list(&planet, &earth, t, 1440, 60, &mut vec![0; 1440]), Ok(2));
}

#[test]
fn named_stack_does() {
    let header = std::fs::read_to_string(common::repository("include/stephylax.h")).unwrap();
    assert!(header.contains("512 kB do for all"), "the header names another stack");
    let thread = std::thread::Builder::new().stack_size(NAMED).spawn(every_call).expect("a thread with this stack");
    thread.join().expect("every call answers");
}
