//! The steps of docs/INTEROP.md, with what a stock client sent and wrote (samples/) on the other side.

use std::fs;
use std::path::Path;

use ed2k::write::{self, TagList};
use ed2k::{
    Address, Addresses, Body, GapRecord, Hash, Hashes, Kind, Link, Packet, PartStatus, Record, Records,
    Refusal,
};

fn sample(name: &str) -> Vec<u8> {
    let path = Path::new(env!("CARGO_MANIFEST_DIR")).join("../samples").join(name);
    fs::read(&path).unwrap_or_else(|error| panic!("{name}: {error}"))
}

/// The bytes of a packet of ours, which the reader accepts.
fn written(link: Link, opcode: u8, body: Body<'_>) -> Vec<u8> {
    let bytes = write::packet(link, &Packet::new(opcode, body)).expect("a packet of ours");
    assert_eq!(ed2k::read_packet(link, &bytes).expect("it is accepted").opcode, opcode);
    bytes
}

/// How many bytes the packet at the front of a stream has; nothing if its header is not there yet.
fn front(stream: &[u8]) -> Option<usize> {
    let header = stream.first_chunk::<5>()?;
    let length = u32::from_le_bytes([header[1], header[2], header[3], header[4]]);
    Some(5 + length as usize)
}

const OURS: Address = Address { ip: u32::from_le_bytes([80, 10, 10, 1]), port: 4661 };

/// A Hello or its answer that announces no eMule options: a name and a version.
fn plain_tags() -> Vec<u8> {
    TagList::new().text(&[0x01], b"box").unwrap().dword(&[0x11], 60).unwrap().finish().unwrap()
}

/// Packets that open with C5 are skipped by their headers, and those between them are read.
#[test]
fn a_stream_is_cut_by_its_headers() {
    let names = ["c_E3_01_01", "c_C5_01_01", "c_E3_4C_01", "c_C5_02_01", "c_E3_59_01"];
    let stream: Vec<u8> = names.iter().flat_map(|name| sample(&format!("amule_{name}.bin"))).collect();
    let mut rest = &stream[..];
    let mut answers = Vec::new();
    while let Some(length) = front(rest) {
        let (packet, after) = rest.split_at(length);
        answers.push(ed2k::read_packet(Link::Client, packet).map(|packet| packet.opcode));
        rest = after;
    }
    let refused = Err(Refusal::Opening);
    assert_eq!(answers, [Ok(0x01), refused, Ok(0x4C), refused, Ok(0x59)]);
    assert!(rest.is_empty());
}

/// Steps 1 and 2.
#[test]
fn a_client_logs_in_and_asks_for_servers() {
    let hello = sample("amule_s_E3_01_01.bin");
    let Body::Record(client) = ed2k::read_packet(Link::Server, &hello).unwrap().body else { panic!() };
    assert_eq!((client.port, client.tags.file_name()), (4662, Some(&b"workshopA"[..])));
    written(Link::Server, 0x40, Body::Dword(u32::from_le_bytes([80, 10, 10, 2])));
    written(Link::Server, 0x38, Body::Text(b"welcome"));
    written(Link::Server, 0x34, Body::TwoDwords(1, 8));
    let list = sample("amule_s_E3_14_01.bin");
    assert!(matches!(ed2k::read_packet(Link::Server, &list).unwrap().body, Body::Nothing));
    let addresses = write::address(OURS);
    written(Link::Server, 0x32, Body::Addresses(Addresses::new(&addresses, 1).unwrap()));
}

/// Step 3: the offer counts a file above 4 GB that it does not send; the others are read one by one. The same files stand in an answer
/// to View files, which is accepted.
#[test]
fn the_files_of_an_offer_are_read_though_it_counts_one_too_many() {
    let offer = sample("amule_s_E3_15_01.bin");
    assert_eq!(ed2k::read_packet(Link::Server, &offer).unwrap_err(), Refusal::Short);
    assert_eq!(offer[6..10], [9, 0, 0, 0]);
    let offered = Records::new(&offer[10..], 8).expect("eight records");
    let view = sample("amule_c_E3_4B_01.bin");
    let Body::Records(viewed) = ed2k::read_packet(Link::Client, &view).unwrap().body else { panic!() };
    let hashes = |records: Records<'_>| records.map(|record| record.hash).collect::<Vec<_>>();
    assert_eq!(hashes(offered.clone()), hashes(viewed));
    written(Link::Server, 0x15, Body::Records(offered));
}

/// Step 4: the query of a sample, on the tags of the files offered.
#[test]
fn a_search_is_answered_by_the_truth_of_its_query() {
    let offer = sample("amule_s_E3_15_01.bin");
    let search = sample("amule_s_E3_16_02.bin");
    let Body::Query(query) = ed2k::read_packet(Link::Server, &search).unwrap().body else { panic!() };
    let holds = |query: &[u8], record: &Record<'_>| ed2k::truth(query, &record.tags.encoded()).unwrap();
    let files = || Records::new(&offer[10..], 8).unwrap();
    assert_eq!(files().filter(|record| holds(query.encoded(), record)).count(), 0);
    let last = write::keyword(b"last").unwrap();
    let found: Vec<Vec<u8>> =
        files().filter(|record| holds(&last, record)).map(|record| write::record(&record).unwrap()).collect();
    assert_eq!(found.len(), 2);
    let found = found.concat();
    let records = Records::new(&found, 2).unwrap();
    written(Link::Server, 0x33, Body::RecordsFlag { records, flag: 0 });
}

/// Step 5: the size after the hash is cut off.
#[test]
fn sources_are_found_for_a_request_that_is_cut_to_its_hash() {
    let request = sample("amule_s_E3_19_01.bin");
    assert_eq!(ed2k::read_packet(Link::Server, &request).unwrap_err(), Refusal::Rest);
    let mut cut = request[..22].to_vec();
    cut[1..5].copy_from_slice(&17u32.to_le_bytes());
    let Body::Hash(hash) = ed2k::read_packet(Link::Server, &cut).unwrap().body else { panic!() };
    let addresses = write::address(OURS);
    let addresses = Addresses::new(&addresses, 1).unwrap();
    written(Link::Server, 0x42, Body::HashAddresses { hash, addresses });
}

/// Step 6.
#[test]
fn udp_is_answered() {
    let request = sample("amule_u_E3_96_01.bin");
    let Body::StatusRequest { extended: false, number } =
        ed2k::read_packet(Link::Udp, &request).unwrap().body
    else {
        panic!()
    };
    written(Link::Udp, 0x97, Body::Status([number, 1, 8]));
    let search = sample("amule_u_E3_98_01.bin");
    let Body::Query(query) = ed2k::read_packet(Link::Udp, &search).unwrap().body else { panic!() };
    let tags = TagList::new().text(&[0x01], "größe last.doc".as_bytes()).unwrap();
    let tags = tags.text(&[0x03], b"Doc").unwrap().dword(&[0x02], 100).unwrap().finish().unwrap();
    assert!(ed2k::truth(query.encoded(), &tags).unwrap());
    let record = Record { hash: Hash([7; 16]), client: 0, port: 4662, tags: ed2k::read_tags(&tags).unwrap() };
    written(Link::Udp, 0x99, Body::Record(record));
    let info = sample("amule_u_E3_A2_01.bin");
    assert_eq!(ed2k::read_packet(Link::Udp, &info).unwrap_err(), Refusal::Rest);
    assert!(matches!(ed2k::read_packet(Link::Udp, &info[..2]).unwrap().body, Body::Nothing));
    written(Link::Udp, 0xA3, Body::TwoTexts(b"box", b"models"));
}

/// Steps 7 and 8.
#[test]
fn a_peer_is_answered() {
    let hello = sample("amule_c_E3_01_01.bin");
    let Body::Hello { record, address } = ed2k::read_packet(Link::Client, &hello).unwrap().body else {
        panic!()
    };
    assert_eq!((record.port, address.to_string().as_str()), (4662, "80.10.10.11:4661"));
    let tags = plain_tags();
    let ours =
        Record { hash: Hash([7; 16]), client: OURS.ip, port: 4662, tags: ed2k::read_tags(&tags).unwrap() };
    written(Link::Client, 0x4C, Body::RecordAddress { record: ours, address: OURS });
    let set = sample("amule_c_E3_52_01.bin");
    let Body::Hashset { hash, hashes } = ed2k::read_packet(Link::Client, &set).unwrap().body else {
        panic!()
    };
    for opcode in [0x58, 0x4F, 0x51, 0x54] {
        let asked = written(Link::Client, opcode, Body::Hash(hash));
        assert!(
            matches!(ed2k::read_packet(Link::Client, &asked).unwrap().body, Body::Hash(same) if same == hash)
        );
    }
    written(Link::Client, 0x59, Body::HashText { hash, text: b"song of twenty megs.mp3" });
    written(Link::Client, 0x50, Body::FileStatus { hash, status: PartStatus { parts: 3, bits: &[0b111] } });
    written(Link::Client, 0x52, Body::Hashset { hash, hashes: hashes.clone() });
    written(Link::Client, 0x55, Body::Nothing);
    let none = Body::Hashset { hash, hashes: Hashes::new(&[], 0).unwrap() };
    written(Link::Client, 0x52, none);
}

/// Steps 9 to 11: what the client asks for is what its part.met misses; sent, marked and saved, it misses less.
#[test]
fn parts_are_sent_marked_and_saved() {
    let request = sample("amule_c_E3_47_01.bin");
    let Body::RequestParts { hash, starts, ends } = ed2k::read_packet(Link::Client, &request).unwrap().body
    else {
        panic!()
    };
    let opened = sample("amule_003.part.met");
    assert_eq!(ed2k::read_part_met(&opened).unwrap().hash, hash);
    let mut record = GapRecord::all_missing(20_000_000).unwrap();
    let most = vec![0x5A; 65_506];
    for (start, end) in starts.into_iter().zip(ends) {
        for from in (start..end).step_by(most.len()) {
            let to = end.min(from + most.len() as u32);
            let data = &most[..(to - from) as usize];
            let part = written(Link::Client, 0x46, Body::SendingPart { hash, start: from, end: to, data });
            let Body::SendingPart { start, end, .. } = ed2k::read_packet(Link::Client, &part).unwrap().body
            else {
                panic!()
            };
            record.mark(start.into(), end.into()).unwrap();
        }
    }
    assert_eq!(record.missing(), 20_000_000 - 544_000);
    let longer = vec![0; most.len() + 1];
    let body = Body::SendingPart { hash, start: 0, end: longer.len() as u32, data: &longer };
    assert_eq!(write::packet(Link::Client, &Packet::new(0x46, body)), Err(Refusal::Limit));
    let new = ed2k::put_gaps(&opened, &record).unwrap();
    assert_eq!(ed2k::save_strict(b"", b"", &opened).as_ref(), Ok(&opened));
    assert_eq!(ed2k::save(&opened, &opened, &new).as_ref(), Ok(&new));
    assert_eq!(GapRecord::read(&new).unwrap(), record);
}

/// The client's files of the kinds that are read are written back as they were.
#[test]
fn files_of_the_client_are_written_back_byte_for_byte() {
    for (kind, name) in [
        (Kind::KnownMet, "amule_known_0E.met"),
        (Kind::PartMet, "amule_001_first.part.met"),
        (Kind::PartMet, "amule_001_later.part.met"),
        (Kind::PartMet, "amule_003.part.met"),
    ] {
        let bytes = sample(name);
        let message = ed2k::read(kind, &bytes).expect("the client's file is accepted");
        assert_eq!(write::message(&message).as_ref(), Ok(&bytes), "{name}");
    }
}
