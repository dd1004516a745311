//! The library's functions: what was put together by hand is read as it was meant, and what is written is read back.

#[path = "support/packets.rs"]
mod packets;

use ed2k::write::{self, TagList};
use ed2k::{
    Address, Addresses, BlockHashes, Body, Bound, FileEntries, FileEntry, Gap, GapRecord, Hash, Hashes, Kind,
    KnownMet, Link, Message, Node, Operator, Packet, PartStatus, Record, Records, Refusal, Rule,
    ServerEntries, ServerMet, Tag, TagValue, Tags,
};
use packets::HASH;

const ONE: Address = Address { ip: u32::from_le_bytes([80, 10, 10, 3]), port: 4662 };
const OTHER: Address = Address { ip: u32::from_le_bytes([10, 0, 0, 7]), port: 4672 };

fn assert_four_tags<'a>(tags: impl ExactSizeIterator<Item = Tag<'a>>) {
    assert_eq!(tags.len(), 4);
    let expected = [
        Tag { name: &[0x01], value: TagValue::Text(b"left last.stl") },
        Tag { name: &[0x02], value: TagValue::Dword(5000) },
        Tag { name: b"girth", value: TagValue::Float(23.5f32.to_bits()) },
        Tag { name: b"twin", value: TagValue::Hash(Hash(HASH)) },
    ];
    assert_eq!(tags.collect::<Vec<_>>(), expected);
}

fn assert_record(record: &Record<'_>) {
    assert_eq!((record.hash, record.client, record.port), (Hash(HASH), 0x0100_007F, 4662));
}

fn assert_full_record(record: &Record<'_>) {
    assert_record(record);
    assert_four_tags(record.tags.clone());
}

/// Reads the packet of this shape, by its number in ed2k.h, and hands its body over.
fn with_shape(shape: usize, check: impl FnOnce(Body<'_>)) {
    let (link, bytes) = &packets::packet_of_each_shape()[shape];
    let packet: Packet<'_> = ed2k::read_packet(*link, bytes).expect("the packet is accepted");
    assert_eq!(packet.opening, 0xE3);
    assert_eq!(packet.opcode, bytes[if *link == Link::Udp { 1 } else { 5 }]);
    assert!(ed2k::opcode_name(*link, packet.opcode).is_some());
    check(packet.body);
}

macro_rules! body {
    ($shape:expr, $pattern:pat => $check:expr) => {
        with_shape($shape, |body| match body {
            $pattern => $check,
            other => panic!("shape {} is read as {other:?}", $shape),
        })
    };
}

#[test]
fn bodies_of_numbers_and_texts_have_their_values() {
    body!(0, Body::Nothing => ());
    body!(2, Body::Hash(hash) => assert_eq!(hash.to_string(), "A00102030405060708090A0B0C0D0E0F"));
    body!(3, Body::Dword(rank) => assert_eq!(rank, 17));
    body!(4, Body::TwoDwords(users, files) => assert_eq!((users, files), (3, 5)));
    body!(5, Body::Text(text) => assert_eq!(text, b"welcome"));
    body!(6, Body::TwoTexts(name, more) => assert_eq!((name, more), (&b"server"[..], &b"a description"[..])));
    body!(17, Body::HashText { hash, text } => assert_eq!((hash, text), (Hash(HASH), &b"left last.stl"[..])));
    body!(22, Body::StatusRequest { extended, number } => assert_eq!((extended, number), (true, 0x5AAA_0201)));
    body!(23, Body::Status(numbers) => assert_eq!(numbers, [9, 3, 5]));
    body!(24, Body::ExtendedStatus { bytes, numbers } => assert_eq!((bytes, numbers), ([1, 2], [3, 5, 8])));
}

#[test]
fn bodies_of_addresses_have_their_values() {
    body!(7, Body::Address(address) => assert_eq!(address.to_string(), "80.10.10.3:4662"));
    body!(8, Body::Addresses(list) => assert_eq!(list.collect::<Vec<_>>(), [ONE, OTHER]));
    body!(9, Body::HashAddresses { hash, addresses } => {
        assert_eq!(hash, Hash(HASH));
        assert_eq!(addresses.collect::<Vec<_>>(), [ONE, OTHER]);
    });
    body!(10, Body::AddressDword { address, number } => assert_eq!((address, number), (ONE, 77)));
    body!(11, Body::HashAddressTags { hash, address, tags } => {
        assert_eq!((hash, address), (Hash(HASH), ONE));
        assert_four_tags(tags);
    });
}

#[test]
fn bodies_of_records_have_their_values() {
    body!(12, Body::Record(record) => assert_full_record(&record));
    body!(13, Body::Records(records) => {
        assert_eq!(records.len(), 2);
        let records: Vec<_> = records.collect();
        assert_full_record(&records[0]);
        assert_record(&records[1]);
        assert_eq!(records[1].tags.len(), 0);
    });
    body!(14, Body::RecordsFlag { mut records, flag } => {
        assert_full_record(&records.next().unwrap());
        assert!(records.next().is_none());
        assert_eq!(flag, 1);
    });
    body!(15, Body::RecordAddress { record, address } => {
        assert_full_record(&record);
        assert_eq!(address, ONE);
    });
    body!(16, Body::Hello { record, address } => {
        assert_full_record(&record);
        assert_eq!(address, ONE);
    });
}

#[test]
fn bodies_about_parts_have_their_values() {
    body!(18, Body::Hashset { hash, hashes } => {
        assert_eq!(hash, Hash(HASH));
        assert_eq!(hashes.collect::<Vec<_>>(), [Hash(HASH), Hash([9; 16])]);
    });
    body!(19, Body::SendingPart { hash, start, end, data } => {
        assert_eq!((hash, start, end, data), (Hash(HASH), 10, 14, &b"data"[..]));
    });
    body!(20, Body::RequestParts { hash, starts, ends } => {
        assert_eq!((hash, starts, ends), (Hash(HASH), [10, 20, 30], [15, 25, 30]));
    });
    body!(21, Body::FileStatus { hash, status } => {
        assert_eq!((hash, status.parts), (Hash(HASH), 9));
        let held: Vec<u16> = (0..20).filter(|part| status.has(*part)).collect();
        assert_eq!(held, [0, 2, 8]);
    });
}

#[test]
fn a_query_is_walked_in_its_order() {
    let walk = |query: ed2k::Query<'_>| {
        assert_eq!(query.depth(), 3);
        assert_eq!(query.encoded(), packets::query());
        let steps: Vec<_> = query.nodes().collect();
        assert_eq!(steps.iter().map(|step| step.level).collect::<Vec<_>>(), [1, 2, 3, 3, 2]);
        assert_eq!(steps.iter().map(|step| step.byte_count).sum::<usize>(), packets::query().len());
        assert_eq!(steps[0].node, Node::Operator(Operator::AndNot));
        assert_eq!(steps[1].node, Node::Operator(Operator::Or));
        assert_eq!(steps[2].node, Node::Keyword(b"last"));
        assert_eq!(steps[3].node, Node::Field { text: b"Doc", name: &[0x03] });
        assert_eq!(steps[4].node, Node::Limit { number: 100, bound: Bound::Min, name: &[0x02] });
    };
    walk(ed2k::read_query(&packets::query()).unwrap());
    body!(1, Body::Query(query) => walk(query));
}

#[test]
fn written_queries_are_those_put_together_by_hand() {
    let or =
        write::join(Operator::Or, &write::keyword(b"last").unwrap(), &write::field(b"Doc", &[0x03]).unwrap());
    let limit = write::limit(100, Bound::Min, &[0x02]).unwrap();
    let query = write::join(Operator::AndNot, &or.unwrap(), &limit).unwrap();
    assert_eq!(query, packets::query());
    let (_, packet) = &packets::packet_of_each_shape()[1];
    assert_eq!(write::query(packet, 6).unwrap(), query);
    assert_eq!(write::keyword(&[b'a'; 65_534]), Err(Refusal::Limit));
    assert_eq!(write::field(b"Doc", b""), Err(Refusal::Choice));
    assert_eq!(write::field(b"Doc", &[b'n'; 256]), Err(Refusal::Limit));
    assert_eq!(write::join(Operator::And, &[9], &query), Err(Refusal::Choice));
    assert_eq!(write::query(packet, packet.len()), Err(Refusal::Short));
    assert_eq!(write::query(packet, usize::MAX), Err(Refusal::Short));
}

#[test]
fn a_query_has_at_most_depth_24() {
    let leaf = write::keyword(b"a").unwrap();
    let deeper = |query: Vec<u8>, _| write::join(Operator::And, &query, &leaf).unwrap();
    let deep = (1..24).fold(leaf.clone(), deeper);
    assert_eq!(ed2k::read_query(&deep).unwrap().depth(), ed2k::QUERY_DEPTH);
    assert_eq!(write::join(Operator::And, &deep, &leaf), Err(Refusal::Limit));
    let too_deep = [&[0, 0][..], &deep, &leaf].concat();
    assert_eq!(ed2k::read_query(&too_deep).unwrap_err(), Refusal::Limit);
}

#[test]
fn written_tags_are_read_back() {
    let list = TagList::new().text(&[0x01], b"left last.stl").unwrap().dword(&[0x02], 5000).unwrap();
    let list = list.float(b"girth", 23.5f32.to_bits()).unwrap().hash(b"twin", Hash(HASH)).unwrap();
    let bytes = list.finish().unwrap();
    assert_eq!(bytes, packets::list(&packets::four_tags()));
    assert_four_tags(ed2k::read_tags(&bytes).unwrap());
    assert_eq!(TagList::new().finish().unwrap(), [0, 0, 0, 0]);
    assert_eq!(write::dword_tag(b"", 1), Err(Refusal::Choice));
    assert_eq!(write::hash_tag(&[1; 256], Hash(HASH)), Err(Refusal::Limit));
    assert_eq!(write::text_tag(b"n", &[0; 65_536]), Err(Refusal::Limit));
    assert_eq!(write::text_tag(&[1; 255], &[0; 65_535]).unwrap().len(), 65_795);
    assert_eq!(write::tag_list(&bytes, 4, 5), Err(Refusal::Short));
    assert_eq!(write::tag_list(&bytes, 4, 1).unwrap(), packets::list(&packets::four_tags()[..1]));
}

#[test]
fn a_lent_output_may_be_exactly_as_long_as_what_is_written() {
    let mut output = [7; 12];
    assert_eq!(write::keyword_into(b"last", &mut output[..6]), Err(Refusal::Room));
    assert_eq!(output, [7; 12]);
    assert_eq!(write::keyword_into(b"last", &mut output[..7]), Ok(7));
    assert_eq!(output, *b"\x01\x04\0last\x07\x07\x07\x07\x07");
    assert_eq!(write::keyword_into(b"", &mut []), Err(Refusal::Room));
}

#[test]
fn lists_know_their_bytes_and_can_be_walked_twice() {
    let bytes = packets::known_met();
    let mut entries = ed2k::read_known_met(&bytes).unwrap().entries;
    assert_eq!((entries.len(), entries.byte_count()), (2, bytes.len() - 5));
    let first = entries.next().unwrap();
    assert_eq!(first.tags.encoded(), packets::list(&packets::four_tags()));
    assert_eq!(first.tags.file_name(), Some(&b"left last.stl"[..]));
    let mut tags = first.tags.clone();
    tags.by_ref().for_each(drop);
    assert_eq!(tags.encoded(), first.tags.encoded());
    assert_four_tags(first.tags);
    assert_eq!(first.part_hashes.collect::<Vec<_>>(), [Hash([0x5A; 16]); 2]);
    assert_eq!((first.date, first.hash), (1_253_225_404, Hash(HASH)));
    let second = entries.next().unwrap();
    assert_eq!((second.part_hashes.len(), &second.tags.encoded()[..]), (0, &[0, 0, 0, 0][..]));
    assert_eq!(second.tags.file_name(), None);
    assert!(entries.next().is_none());
}

#[test]
fn met_files_have_their_values() {
    let bytes = packets::server_met();
    let mut met = ed2k::read_server_met(&bytes).unwrap();
    assert_eq!((met.opening, met.entries.len(), met.tail), (0x0E, 1, &b"made by a client"[..]));
    let server = met.entries.next().unwrap();
    assert_eq!(server.address.to_string(), "80.10.10.11:4661");
    assert_eq!(server.tags.collect::<Vec<_>>(), [Tag { name: &[0x0C], value: TagValue::Dword(31) }]);

    let bytes = packets::part_met(9, 3, 100, &[(0, 40)]);
    let met = ed2k::read_part_met(&bytes).unwrap();
    assert_eq!((met.opening, met.size, met.date, met.hash), (0xE0, 100, 9, Hash(HASH)));
    assert_eq!((met.tags.len(), met.part_hashes.unwrap().len()), (4, 3));
    assert!(met.block_hashes.is_none());

    let bytes = packets::part_met_with_blocks();
    let met = ed2k::read_part_met(&bytes).unwrap();
    assert_eq!((met.opening, met.size, met.date), (0xE1, 972_800, 7));
    assert_eq!(met.part_hashes.unwrap().collect::<Vec<_>>(), [Hash(HASH)]);
    let blocks: Vec<_> = met.block_hashes.unwrap().map(|hash| hash.to_string()).collect();
    assert_eq!(blocks, ["0808080808080808", "0909090909090909"]);
}

#[test]
fn read_is_the_reading_of_each_kind() {
    assert!(matches!(ed2k::read(Kind::KnownMet, &packets::known_met()), Ok(Message::KnownMet(_))));
    assert!(matches!(ed2k::read(Kind::ServerMet, &packets::server_met()), Ok(Message::ServerMet(_))));
    assert!(matches!(ed2k::read(Kind::PartMet, &packets::part_met(0, 0, 9, &[])), Ok(Message::PartMet(_))));
    assert!(matches!(ed2k::read(Kind::Query, &packets::query()), Ok(Message::Query(_))));
    assert!(matches!(ed2k::read(Kind::Tags, &[0, 0, 0, 0]), Ok(Message::Tags(_))));
    for kind in Kind::ALL.iter().copied() {
        assert_eq!(ed2k::read(kind, b"").unwrap_err(), Refusal::Short);
        assert_eq!(ed2k::read(kind, &vec![0; kind.ceiling() + 1]).unwrap_err(), Refusal::Limit);
        assert_eq!(kind.word().parse(), Ok(kind));
        assert_eq!(kind.letter().to_string().parse(), Ok(kind));
    }
    assert!("x".parse::<Kind>().is_err());
}

/// Bytes of every kind, put together by hand, which are accepted.
fn accepted_bytes() -> Vec<(Kind, Vec<u8>)> {
    let packets = packets::packet_of_each_shape().into_iter().map(|(link, bytes)| (link.into(), bytes));
    let others = [
        (Kind::KnownMet, packets::known_met()),
        (Kind::ServerMet, packets::server_met()),
        (Kind::PartMet, packets::part_met(9, 3, 100, &[(0, 40)])),
        (Kind::PartMet, packets::part_met_with_blocks()),
        (Kind::Query, packets::query()),
        (Kind::Tags, packets::list(&packets::four_tags())),
    ];
    packets.chain(others).collect()
}

#[test]
fn what_is_read_is_written_as_it_was() {
    for (kind, bytes) in accepted_bytes() {
        let message = ed2k::read(kind, &bytes).unwrap();
        assert_eq!(write::message(&message).as_ref(), Ok(&bytes), "{message:?}");
    }
}

#[test]
fn a_list_is_written_whole_though_entries_were_taken_from_it() {
    let bytes = packets::known_met();
    let mut met = ed2k::read_known_met(&bytes).unwrap();
    let mut first = met.entries.next().unwrap();
    first.tags.by_ref().take(2).for_each(drop);
    first.part_hashes.next();
    assert_eq!(write::known_met(&met).unwrap(), bytes);
    let entry = write::file_entry(&first).unwrap();
    assert_eq!(entry, bytes[5..5 + entry.len()]);
}

#[test]
fn lists_are_composed_of_entries() {
    let entries = [packets::record(&packets::four_tags()), packets::record(&[])].concat();
    let records = Records::new(&entries, 2).unwrap();
    assert_eq!((records.len(), records.byte_count()), (2, entries.len()));
    let written: Vec<u8> = records.flat_map(|record| write::record(&record).unwrap()).collect();
    assert_eq!(written, entries);
    assert_eq!(Records::new(&entries, 3).unwrap_err(), Refusal::Short);
    assert_eq!(Records::new(&entries, 1).unwrap_err(), Refusal::Rest);
    assert_eq!(Records::new(&entries, u32::MAX).unwrap_err(), Refusal::Short);
    assert_eq!(Records::new(&[], 0).unwrap().len(), 0);
    assert_eq!(Tags::new(&[9], 1).unwrap_err(), Refusal::Choice);
    assert_eq!(Hashes::new(&[7; 31], 2).unwrap_err(), Refusal::Short);
    assert_eq!(Hashes::new(&[7; 33], 2).unwrap_err(), Refusal::Rest);
    assert_eq!(BlockHashes::new(&[7; 16], 2).unwrap().len(), 2);
    let tags = Tags::new(&packets::four_tags().concat(), 4).map(|tags| tags.encoded().into_owned());
    assert_eq!(tags.unwrap(), packets::list(&packets::four_tags()));
}

/// The values of one message may be in different buffers, and a list in the middle of one.
#[test]
fn a_packet_is_composed_of_values_from_anywhere() {
    let tags = packets::list(&packets::four_tags());
    let record =
        Record { hash: Hash(HASH), client: 0x0100_007F, port: 4662, tags: ed2k::read_tags(&tags).unwrap() };
    let entries = [write::record(&record).unwrap(), write::record(&record).unwrap()].concat();
    let records = Body::Records(Records::new(&entries, 2).unwrap());
    let offer = write::packet(Link::Server, &Packet::new(0x15, records)).unwrap();
    let by_hand =
        packets::list(&[packets::record(&packets::four_tags()), packets::record(&packets::four_tags())]);
    assert_eq!(offer, packets::packet(Link::Server, 0x15, &by_hand));

    let hello = Packet::new(0x01, Body::Hello { record, address: ONE });
    let body = [vec![0x10], packets::record(&packets::four_tags()), packets::address([80, 10, 10, 3], 4662)];
    assert_eq!(
        write::packet(Link::Client, &hello).unwrap(),
        packets::packet(Link::Client, 0x01, &body.concat())
    );

    let known = packets::known_met();
    let hashes = ed2k::read_known_met(&known).unwrap().entries.next().unwrap().part_hashes;
    let answer = Packet::new(0x52, Body::Hashset { hash: Hash(HASH), hashes });
    let body = [HASH.to_vec(), packets::word(2), vec![0x5A; 32]].concat();
    assert_eq!(write::packet(Link::Client, &answer).unwrap(), packets::packet(Link::Client, 0x52, &body));
}

#[test]
fn a_packet_is_refused_for_what_it_is() {
    let refusal = |link, opcode, body| write::packet(link, &Packet::new(opcode, body)).unwrap_err();
    assert_eq!(refusal(Link::Server, 0x14, Body::Dword(1)), Refusal::Kind);
    assert_eq!(refusal(Link::Server, 0x99, Body::Nothing), Refusal::Kind);
    assert_eq!(refusal(Link::Server, 0x38, Body::Text(&[0; 65_536])), Refusal::Limit);
    assert_eq!(refusal(Link::Server, 0x38, Body::Text(&[0; 65_529])), Refusal::Limit);
    let request = |extended, number| Body::StatusRequest { extended, number };
    assert_eq!(refusal(Link::Udp, 0x96, request(false, 0x5AAA_0201)), Refusal::Choice);
    assert_eq!(refusal(Link::Udp, 0x96, request(true, 0x0102_5AAA)), Refusal::Choice);
    let addresses = [7; 6 * 256];
    let body = Body::Addresses(Addresses::new(&addresses, 256).unwrap());
    assert_eq!(refusal(Link::Server, 0x32, body), Refusal::Limit);
    let body = Body::SendingPart { hash: Hash(HASH), start: 5, end: 9, data: b"abc" };
    assert_eq!(refusal(Link::Client, 0x46, body), Refusal::Range);
    let body = Body::RecordsFlag { records: Records::new(&[], 0).unwrap(), flag: 2 };
    assert_eq!(refusal(Link::Server, 0x33, body), Refusal::Choice);
    for (bits, number) in
        [(&[0xFF, 2][..], Refusal::Choice), (&[1], Refusal::Short), (&[1, 1, 0], Refusal::Rest)]
    {
        let status = PartStatus { parts: 9, bits };
        assert_eq!(refusal(Link::Client, 0x50, Body::FileStatus { hash: Hash(HASH), status }), number);
    }
    let other = Packet { opening: 0xC5, ..Packet::new(0x14, Body::Nothing) };
    assert_eq!(write::packet(Link::Server, &other), Err(Refusal::Opening));
}

#[test]
fn met_files_are_refused_for_what_they_are() {
    let known = KnownMet { opening: 0x0F, entries: FileEntries::new(&[], 0).unwrap() };
    assert_eq!(write::known_met(&known), Err(Refusal::Opening));
    let hashes = vec![7; 16 * 65_536];
    let part_hashes = Hashes::new(&hashes, 65_536).unwrap();
    let entry = FileEntry { date: 0, hash: Hash(HASH), part_hashes, tags: Tags::new(&[], 0).unwrap() };
    assert_eq!(write::file_entry(&entry), Err(Refusal::Limit));
    let tail = vec![0; ed2k::MET_CEILING];
    let server = ServerMet { opening: 0x0E, entries: ServerEntries::new(&[], 0).unwrap(), tail: &tail };
    assert_eq!(write::server_met(&server), Err(Refusal::Limit));

    let bytes = packets::part_met(9, 3, 100, &[(0, 40)]);
    let mut met = ed2k::read_part_met(&bytes).unwrap();
    met.size = 7;
    assert_eq!(write::part_met(&met).as_ref(), Ok(&bytes));
    let hashes = met.part_hashes.take();
    assert_eq!(write::part_met(&met), Err(Refusal::Choice));
    met.opening = 0xE1;
    assert_eq!(ed2k::read_part_met(&write::part_met(&met).unwrap()).unwrap().opening, 0xE1);
    met.part_hashes = hashes;
    assert_eq!(write::part_met(&met), Err(Refusal::Choice));
    met.opening = 0xE2;
    assert_eq!(write::part_met(&met), Err(Refusal::Choice));
    met.opening = 0xE0;
    met.tags = Tags::new(&[], 0).unwrap();
    assert_eq!(write::part_met(&met), Err(Refusal::Size));
}

#[test]
fn whole_messages_may_be_written_into_exactly_their_room() {
    let (link, bytes) = &packets::packet_of_each_shape()[13];
    let packet = ed2k::read_packet(*link, bytes).unwrap();
    let mut output = vec![7; bytes.len() + 1];
    assert_eq!(write::packet_into(*link, &packet, &mut output[..bytes.len() - 1]), Err(Refusal::Room));
    assert!(output.iter().all(|byte| *byte == 7));
    assert_eq!(write::packet_into(*link, &packet, &mut output[..bytes.len()]), Ok(bytes.len()));
    assert_eq!((&output[..bytes.len()], output[bytes.len()]), (&bytes[..], 7));
    assert_eq!(write::address_into(ONE, &mut output[..5]), Err(Refusal::Room));
    assert_eq!(write::address_into(ONE, &mut output), Ok(6));
}

#[test]
fn marking_keeps_the_record_where_it_is_refused() {
    let gap = |start, end| Gap { start, end };
    let every_second: Vec<Gap> = (0..64).map(|number| gap(number * 4, number * 4 + 3)).collect();
    let mut record = GapRecord::from_gaps(256, &every_second).unwrap();
    let before = record.clone();
    assert_eq!(record.mark(1, 2), Err(Refusal::Limit));
    assert_eq!(record.mark(9, 9), Err(Refusal::Range));
    assert_eq!(record.mark(0, 257), Err(Refusal::Range));
    assert_eq!(record, before);
    assert_eq!(record.mark(0, 256), Ok(0));
    assert_eq!((record.missing(), record.gaps().len()), (0, 0));

    assert_eq!(GapRecord::from_gaps(100, &[gap(0, 10), gap(10, 20)]), Err(Refusal::Range));
    assert_eq!(GapRecord::from_gaps(100, &[gap(0, 101)]), Err(Refusal::Range));
    assert_eq!(GapRecord::from_gaps(1000, &[gap(0, 1); 65]), Err(Refusal::Range));
    assert_eq!(GapRecord::all_missing(1 << 32), Err(Refusal::Range));
    assert_eq!(GapRecord::all_missing(0).unwrap().missing(), 0);
}

#[test]
fn gaps_are_put_into_a_file_and_read_from_it() {
    let file = packets::part_met(9, 3, 100, &[(0, 40)]);
    let mut record = GapRecord::read(&file).unwrap();
    assert_eq!(record.mark(10, 20), Ok(30));
    let changed = ed2k::put_gaps(&file, &record).unwrap();
    assert_eq!(changed, packets::part_met(9, 3, 100, &[(0, 10), (20, 40)]));
    let mut room = vec![7; changed.len() - 1];
    assert_eq!(ed2k::put_gaps_into(&file, &record, &mut room), Err(Refusal::Room));
    assert!(room.iter().all(|byte| *byte == 7));
    let other_size = GapRecord::all_missing(99).unwrap();
    assert_eq!(ed2k::put_gaps(&file, &other_size), Err(Refusal::Range));
    assert_eq!(ed2k::put_gaps(&file[1..], &record), Err(Refusal::Opening));
}

#[test]
fn a_record_with_the_most_and_longest_gap_tags_fits_into_its_file() {
    let top = 4_294_967_295;
    let gaps: Vec<Gap> = (0..64).map(|n| Gap { start: top - 2 * n - 1, end: top - 2 * n }).rev().collect();
    let record = GapRecord::from_gaps(top, &gaps).unwrap();
    let changed = ed2k::put_gaps(&packets::part_met(0, 0, top as u32, &[]), &record).unwrap();
    assert_eq!(GapRecord::read(&changed).unwrap(), record);
}

/// Stored, opened and new files, the answer of the strict save and that of the other one.
#[test]
fn a_save_is_refused_by_its_own_bytes_then_by_the_stored_ones() {
    let file = |date, hashes, size, gaps: &[_]| packets::part_met(date, hashes, size, gaps);
    let opened = &file(9, 0, 100, &[(0, 100)])[..];
    let (stored, new) = (&file(9, 0, 100, &[(30, 100)])[..], &file(8, 0, 100, &[(0, 60)])[..]);
    let merged = &file(9, 0, 100, &[(30, 60)])[..];
    let stranger = &file(9, 0, 101, &[])[..];
    let [stored_hashes, new_hashes] = [2, 3].map(|hashes| file(9, hashes, 100, &[]));
    let every_fourth = |from: u32, to: u32| (from..to).map(|gap| (4 * gap, 4 * gap + 1)).collect::<Vec<_>>();
    let [whole, most_gaps, other_gap] =
        [vec![], every_fourth(0, 64), every_fourth(64, 65)].map(|gaps| file(9, 0, 300, &gaps));
    let conflict = Err(Refusal::Conflict);
    for (stored, opened, new, strict, answer) in [
        (&b""[..], &b""[..], new, Ok(new), Ok(new)),
        (opened, opened, new, Ok(new), Ok(new)),
        (b"a", b"a", new, Ok(new), Ok(new)),
        (b"a", b"b", &new[1..], Err(Refusal::Opening), Err(Refusal::Opening)),
        (stored, opened, new, conflict, Ok(merged)),
        (new, opened, new, conflict, Ok(new)),
        (opened, stored, stored, conflict, Ok(opened)),
        (b"", opened, new, conflict, Err(Refusal::Short)),
        (stored, b"", new, conflict, Err(Refusal::Short)),
        (b"a", b"", new, conflict, Err(Refusal::Short)),
        (b"a", opened, new, conflict, Err(Refusal::Opening)),
        (stored, b"ab", stranger, conflict, Err(Refusal::Opening)),
        (stored, opened, stranger, conflict, Err(Refusal::Strangers)),
        (&stored_hashes, opened, stranger, conflict, Err(Refusal::Strangers)),
        (&stored_hashes, opened, &new_hashes, conflict, conflict),
        (&most_gaps, &whole, &other_gap, conflict, Err(Refusal::Limit)),
    ] {
        assert_eq!(ed2k::save_strict(stored, opened, new).as_deref(), strict.as_ref().copied());
        assert_eq!(ed2k::save(stored, opened, new).as_deref(), answer.as_ref().copied());
    }
}

/// Room for what is written is enough, and one byte less leaves the output as it was.
#[test]
fn a_save_asks_for_room_last() {
    let file = |gaps: &[_]| packets::part_met(9, 0, 100, gaps);
    let opened = file(&[(0, 100)]);
    let (stored, new, merged) = (file(&[(0, 40), (50, 100)]), file(&[(0, 90)]), file(&[(0, 40), (50, 90)]));
    assert!(merged.len() > new.len());
    type Save = fn(&[u8], &[u8], &[u8], &mut [u8]) -> Result<usize, Refusal>;
    let saves: [(Save, &[u8], &[u8]); 3] = [
        (ed2k::save_into, &stored, &merged),
        (ed2k::save_into, &opened, &new),
        (ed2k::save_strict_into, &opened, &new),
    ];
    for (save, stored, written) in saves {
        let mut output = vec![7; written.len() + 1];
        let (small, enough) = (written.len() - 1, written.len());
        assert_eq!(save(stored, &opened, &new, &mut output[..small]), Err(Refusal::Room));
        assert!(output.iter().all(|byte| *byte == 7));
        assert_eq!(save(stored, &opened, &new, &mut output[..enough]), Ok(enough));
        assert_eq!(output, [written, &[7]].concat());
        assert_eq!(save(&[], &opened, &new[1..], &mut []), Err(Refusal::Opening));
    }
}

#[test]
fn two_saves_are_merged_or_left_alone() {
    let file = |date, gaps: &[_]| packets::part_met(date, 3, 100, gaps);
    let opened = file(9, &[(0, 100)]);
    let (first, second) = (file(7, &[(30, 100)]), file(8, &[(0, 60), (90, 100)]));
    let merged = file(8, &[(30, 60), (90, 100)]);
    assert_eq!(ed2k::merge(&opened, &first, &second).unwrap(), merged);
    let mut room = vec![7; merged.len() + 1];
    assert_eq!(ed2k::merge_into(&opened, &first, &second, &mut room), Ok(merged.len()));
    assert_eq!(room, [&merged[..], &[7]].concat());
    let mut small = vec![7; merged.len() - 1];
    assert_eq!(ed2k::merge_into(&opened, &first, &second, &mut small), Err(Refusal::Room));
    assert!(small.iter().all(|byte| *byte == 7));
    assert_eq!(ed2k::merge(&opened[1..], &first, &[]), Err(Refusal::Opening));
    assert_eq!(ed2k::merge(&opened, &[], &second[1..]), Err(Refusal::Short));
    assert_eq!(ed2k::merge(&opened, &first, &second[1..]), Err(Refusal::Opening));
    let other_lists = [packets::part_met(9, 2, 100, &[]), packets::part_met(9, 4, 100, &[])];
    assert_eq!(ed2k::merge(&opened, &other_lists[0], &other_lists[1]), Err(Refusal::Conflict));
    assert_eq!(
        ed2k::merge(&opened, &other_lists[0], &packets::part_met(9, 4, 101, &[])),
        Err(Refusal::Strangers)
    );
}

/// The form of one save, the tags of the other, and more gaps than either has.
#[test]
fn a_merge_that_is_longer_than_both_saves_fits_into_its_own_room() {
    let gaps = |start: u32| (0..32).map(|gap| (start + 4 * gap, start + 4 * gap + 1)).collect::<Vec<_>>();
    let opened = packets::part_met(0, 0, 300, &[]);
    let first = packets::part_met(0, 500, 300, &gaps(0));
    let second = packets::part_met(0, 0, 300, &gaps(2));
    let merged = ed2k::merge(&opened, &first, &second).unwrap();
    assert!(merged.len() > first.len().max(second.len()));
    assert_eq!(GapRecord::read(&merged).unwrap().gaps().len(), 64);
    assert_eq!(ed2k::save(&first, &opened, &second), Ok(merged));
}

#[test]
fn truth_is_that_of_the_papers() {
    let tags = packets::list(&packets::four_tags());
    let truth = |query: Result<Vec<u8>, Refusal>| ed2k::truth(&query.unwrap(), &tags).unwrap();
    assert!(truth(write::keyword(b"t las")));
    assert!(!truth(write::keyword(b"Last")));
    assert!(truth(write::field(b"left last.stl", &[0x01])));
    assert!(!truth(write::field(b"left last", &[0x01])));
    assert!(truth(write::limit(5000, Bound::Min, &[0x02])));
    assert!(truth(write::limit(5000, Bound::Max, &[0x02])));
    assert!(!truth(write::limit(5001, Bound::Min, &[0x02])));
    assert_eq!(ed2k::truth(&[9], &[9]), Err(Refusal::Choice));
    assert_eq!(ed2k::truth(&write::keyword(b"a").unwrap(), &[9]), Err(Refusal::Short));
}

#[test]
fn parts_and_blocks_are_counted_as_in_the_papers() {
    let counts = |size| (ed2k::part_count(size), ed2k::block_count(size));
    assert_eq!(counts(0), (0, 0));
    assert_eq!(counts(9_728_000), (1, 20));
    assert_eq!(counts(9_728_001), (2, 21));
    assert_eq!(counts(4_294_967_295), (442, 8_831));
}

#[test]
fn refusals_have_their_numbers() {
    for (index, refusal) in Refusal::ALL.iter().copied().enumerate() {
        assert_eq!(usize::from(refusal.number()), index + 1);
        assert_eq!(Refusal::from_number(refusal.number()), Some(refusal));
    }
    assert_eq!(Refusal::from_number(0), None);
    assert_eq!(Refusal::from_number(13), None);
}

#[test]
fn rules_have_their_numbers_and_those_of_refusals() {
    for (index, rule) in Rule::ALL.iter().copied().enumerate() {
        assert_eq!(usize::from(rule.number()), index + 1);
        assert_eq!(Rule::from_number(rule.number()), Some(rule));
    }
    assert_eq!(Rule::from_number(0), None);
    assert_eq!(Rule::from_number(15), None);
    let refusals = Rule::ALL.iter().map(|rule| rule.refusal().number());
    assert!(refusals.eq([1, 2, 3, 4, 5, 5, 6, 6, 6, 6, 7, 8, 8, 9]));
    let alone =
        |rule: &&Rule| Rule::ALL.iter().filter(|other| other.refusal() == rule.refusal()).count() == 1;
    assert!(Rule::ALL.iter().filter(alone).all(|rule| rule.meaning() == rule.refusal().meaning()));
    let mut meanings: Vec<&str> = Rule::ALL.iter().map(|rule| rule.meaning()).collect();
    meanings.sort_unstable();
    meanings.dedup();
    assert_eq!(meanings.len(), Rule::ALL.len(), "each rule has words of its own");
}

/// Outside of the crate an arm `_` is asked for, and can be reached, though every case of today is named before it.
#[test]
#[deny(unreachable_patterns)]
fn later_cases_need_an_arm_of_their_own() {
    let met = |refusal| match refusal {
        Refusal::Short | Refusal::Opening | Refusal::Length | Refusal::Kind | Refusal::Choice => "today",
        Refusal::Limit | Refusal::Rest | Refusal::Range | Refusal::Size | Refusal::Room => "today",
        Refusal::Conflict | Refusal::Strangers => "today",
        _ => "later",
    };
    assert!(Refusal::ALL.iter().all(|refusal| met(*refusal) == "today"));
    let met = |rule| match rule {
        Rule::Short | Rule::Opening | Rule::Length | Rule::Kind | Rule::Choice | Rule::StatusBit => "today",
        Rule::ByteCeiling | Rule::DepthCeiling | Rule::NameCeiling | Rule::GapCeiling => "today",
        Rule::Rest | Rule::Order | Rule::Data | Rule::SizeTag => "today",
        _ => "later",
    };
    assert!(Rule::ALL.iter().all(|rule| met(*rule) == "today"));
    let met = |kind| match kind {
        Kind::ServerLink | Kind::ClientLink | Kind::Udp | Kind::KnownMet | Kind::ServerMet => "today",
        Kind::PartMet | Kind::Query | Kind::Tags => "today",
        _ => "later",
    };
    assert!(Kind::ALL.iter().all(|kind| met(*kind) == "today"));
    let met = |body: Body<'_>| match body {
        Body::Nothing | Body::Query(_) | Body::Hash(_) | Body::Dword(_) | Body::TwoDwords(..) => "today",
        Body::Text(_) | Body::TwoTexts(..) | Body::Address(_) | Body::Addresses(_) => "today",
        Body::HashAddresses { .. } | Body::AddressDword { .. } | Body::HashAddressTags { .. } => "today",
        Body::Record(_) | Body::Records(_) | Body::RecordsFlag { .. } | Body::RecordAddress { .. } => "today",
        Body::Hello { .. } | Body::HashText { .. } | Body::Hashset { .. } | Body::SendingPart { .. } => {
            "today"
        }
        Body::RequestParts { .. } | Body::FileStatus { .. } | Body::StatusRequest { .. } => "today",
        Body::Status(_) | Body::ExtendedStatus { .. } => "today",
        _ => "later",
    };
    for shape in 0..packets::packet_of_each_shape().len() {
        with_shape(shape, |body| assert_eq!(met(body), "today"));
    }
}
