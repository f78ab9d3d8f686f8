//! What holds over whole corpora.

use crate::directions::PAIRS;
use crate::refusals::both;
use plain::corpus::damage::repeated;
use plain::corpus::draft::{pack, Draft, Entry, Mark};
use plain::corpus::random::Random;
use plain::corpus::sound::{full, sound};
use plain::corpus::values::values;
use plain::corpus::Corpus;
use plain::sheet::export;
use plain::{check, normalise, read, write, MAX_BITS, MAX_BYTES, MAX_VALUES};
use std::collections::{BTreeMap, BTreeSet};

#[test]
fn sound_drafts_are_read_and_written_as_drafted() {
    let mut random = Random::new(11);
    for _ in 0..50_000 {
        let draft = sound(&mut random);
        let (bytes, n) = (pack(&draft.bits()), draft.len() as u64);
        let mut read_back = [0; MAX_VALUES];
        let mut written = [0xa5; MAX_BYTES];
        assert_eq!(read(&bytes, n, &mut read_back), Ok(draft.entries.len()));
        assert_eq!(read_back[..draft.entries.len()], draft.values());
        assert_eq!(write(&draft.values(), &mut written), Ok(n));
        assert_eq!(written[..bytes.len()], bytes);
        assert!(written[bytes.len()..].iter().all(|&byte| byte == 0xa5));
    }
}

#[test]
fn sound_drafts_have_the_normal_form_worked_out_from_their_fields() {
    let mut random = Random::new(16);
    let mut changed = 0;
    for _ in 0..50_000 {
        let draft = sound(&mut random);
        let (bytes, n) = (pack(&draft.bits()), draft.len() as u64);
        let mut out = [0; MAX_BYTES];
        assert_eq!(normalise(&bytes, n, &mut out), Ok(()));
        assert_eq!(out[..bytes.len()], pack(&normal(&draft).bits()));
        changed += usize::from(out[..bytes.len()] != bytes);
    }
    assert!(changed > 10_000);
}

/// The normal form by the book: packet by packet, all distances in decimetres first.
fn normal(draft: &Draft) -> Draft {
    let mut normal = draft.clone();
    let packets = draft.marked(Mark::Identifier);
    for bounds in packets.windows(2) {
        let packet = &mut normal.entries[bounds[0]..bounds[1]];
        let scale = packet.iter_mut().find(|entry| entry.mark == Mark::Scale);
        let Some(scale) = scale else { continue };
        let step = 10u64.pow(scale.value as u32);
        let is_finite = |entry: &Entry| {
            entry.mark == Mark::Distance || entry.mark == Mark::TextLength && entry.value != 32767
        };
        let metres = |entry: &Entry| {
            let decimetres = entry.value * step;
            (decimetres.is_multiple_of(10) && decimetres / 10 < 1 << entry.width)
                .then_some(decimetres / 10)
        };
        if packet
            .iter()
            .all(|entry| !is_finite(entry) || metres(entry).is_some())
        {
            for entry in packet.iter_mut() {
                match entry.mark {
                    Mark::Scale => entry.value = 1,
                    _ if is_finite(entry) => entry.value = metres(entry).expect("tested above"),
                    _ => {}
                }
            }
        }
    }
    normal
}

#[test]
fn all_three_agree_on_every_telegram() {
    let mut counts = [0; 12];
    let mut corpus = Corpus::new(12);
    for _ in 0..100_000 {
        let telegram = corpus.telegram();
        let (bytes, n) = (&telegram.bytes[..], telegram.n);
        let mut values = [9; MAX_VALUES];
        let mut out = [0xa5; MAX_BYTES + 1];
        let answer = check(bytes, n);
        assert_eq!(read(bytes, n, &mut values), answer);
        assert_eq!(normalise(bytes, n, &mut out).err(), answer.err());
        match answer {
            Ok(count) => {
                counts[0] += 1;
                assert!(values[count..].iter().all(|&value| value == 9));
                let mut written = [0; MAX_BYTES];
                assert_eq!(write(&values[..count], &mut written), Ok(n));
                assert_eq!(written[..bytes.len()], *bytes);
                same_but_for_distances(bytes, n, &out);
            }
            Err(refusal) => {
                counts[refusal.number as usize] += 1;
                assert_eq!(values, [9; MAX_VALUES]);
                assert_eq!(out, [0xa5; MAX_BYTES + 1]);
            }
        }
    }
    assert!(counts[0] > 33_000 && counts[2..].iter().all(|&count| count > 1000));
}

/// The normal form is accepted, is its own normal form, and has the same fields.
fn same_but_for_distances(bytes: &[u8], n: u64, out: &[u8]) {
    let (normal, rest) = out.split_at(bytes.len());
    assert!(rest.iter().all(|&byte| byte == 0xa5));
    assert_eq!(check(normal, n), check(bytes, n));
    let mut twice = [0; MAX_BYTES];
    assert_eq!(normalise(normal, n, &mut twice), Ok(()));
    assert_eq!(twice[..bytes.len()], *normal);
}

/// The NID_PACKET and Q_DIR of the outer packets of an accepted telegram, by the names in its sheet.
fn outer_packets(sheet: &[u8]) -> Vec<(u64, u64)> {
    let text = std::str::from_utf8(sheet).expect("text");
    let rows: Vec<&str> = text.lines().collect();
    let value = |row: &str, name| row.strip_prefix(name)?.parse().ok();
    let heads = rows.windows(2).filter_map(|pair| {
        let id = value(pair[0], "NID_PACKET,8,")?;
        Some((id, value(pair[1], "Q_DIR,2,").expect("a direction")))
    });
    heads.collect()
}

#[test]
fn a_train_gets_no_two_packets_of_a_kind_but_etcs_44() {
    let mut corpus = Corpus::new(17);
    let mut with_pairs = 0;
    for _ in 0..100_000 {
        let telegram = corpus.telegram();
        let Ok(sheet) = export(&telegram.bytes, telegram.n) else {
            continue;
        };
        let mut packets = outer_packets(&sheet);
        packets.retain(|&(id, _)| id != 44);
        for way in [0, 1] {
            let serves = |direction: u64| direction == way || direction == 2;
            let got = packets.iter().filter(|&&(_, direction)| serves(direction));
            let kinds: BTreeSet<u64> = got.clone().map(|&(id, _)| id).collect();
            assert_eq!(got.count(), kinds.len(), "{packets:?}");
        }
        let kinds: BTreeSet<u64> = packets.iter().map(|&(id, _)| id).collect();
        with_pairs += usize::from(kinds.len() < packets.len());
    }
    assert!(with_pairs > 1000, "{with_pairs}");
}

#[test]
fn one_more_packet_of_a_kind_is_refused_unless_its_way_is_free() {
    let mut random = Random::new(34);
    let mut counts = BTreeMap::new();
    for _ in 0..50_000 {
        let draft = repeated(&mut random);
        let heads = draft.marked(Mark::Direction);
        let (&last, others) = heads.split_last().expect("two packets");
        let head = |at: &usize| (draft.entries[at - 1].value, draft.entries[*at].value);
        let (id, later) = head(&last);
        if draft.len() > MAX_BITS {
            continue;
        }
        let mut earlier = others.iter().map(head).filter(|&(other, _)| other == id);
        let may_come = earlier.all(|(_, earlier)| PAIRS.contains(&(earlier, later, true)));
        match id == 44 || may_come {
            true => both(&draft, 0, 0),
            false => both(&draft, 10, draft.start(last) as u64),
        }
        *counts.entry((id == 44, may_come, later)).or_insert(0) += 1;
    }
    // Of ETCS-44 or not, in any direction, one that is free or not; 2 is never free.
    assert!(
        counts.len() == 10 && counts.values().all(|&count| count > 500),
        "{counts:?}"
    );
}

#[test]
fn written_lists_read_back_and_all_refusals_of_the_writer_come_up() {
    let mut random = Random::new(13);
    let mut seen = BTreeSet::new();
    for _ in 0..50_000 {
        let values = values(&mut random);
        let mut out = [0xa5; MAX_BYTES];
        match write(&values, &mut out) {
            Ok(n) => {
                let mut read_back = [0; MAX_VALUES];
                let bytes = &out[..n.div_ceil(8) as usize];
                assert_eq!(read(bytes, n, &mut read_back), Ok(values.len()));
                assert_eq!(read_back[..values.len()], values);
            }
            Err(refusal) => {
                seen.insert(refusal.number);
                assert_eq!(out, [0xa5; MAX_BYTES]);
            }
        }
    }
    assert_eq!(seen, (4..=13).collect());
}

#[test]
fn any_length_is_answered() {
    let mut random = Random::new(14);
    for length in (0..120).chain([1000, 100_000]) {
        let bytes: Vec<u8> = (0..length).map(|_| random.byte()).collect();
        for n in (0..1000).chain([u64::MAX, u64::MAX - 7, 1 << 63, 1 << 32]) {
            let refused = check(&bytes, n).is_err();
            assert!(refused || (58..=830).contains(&n));
        }
    }
}

#[test]
fn the_corpus_covers_lists_texts_and_the_longest_telegram() {
    let mut random = Random::new(15);
    let mut lists = BTreeSet::new();
    let mut texts = BTreeSet::new();
    for _ in 0..100_000 {
        for entry in sound(&mut random).entries {
            if entry.mark == Mark::Count {
                let set = if entry.width == 5 {
                    &mut lists
                } else {
                    &mut texts
                };
                set.insert(entry.value);
            }
        }
    }
    assert_eq!(lists, (0..=31).collect());
    assert_eq!(texts, (0..=85).collect());
    assert_eq!(full(&mut random).len(), MAX_BITS);
}
