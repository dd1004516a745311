//! Packets, files, queries and tag lists as JSON. The keys are those of the manual page.

use ed2k::{
    Address, Body, Bound, Entry, FileEntry, Hash, Link, List, Message, Node, Nodes, Operator, Packet,
    PartMet, PartStatus, Query, Record, Tag, TagValue, Tags,
};

use crate::json::Json;

type Members = Vec<(&'static str, Json)>;

pub fn members(message: &Message<'_>) -> Members {
    match message {
        Message::Packet(link, packet) => packet_members(*link, packet),
        Message::KnownMet(met) => {
            vec![("opening", Json::number(met.opening)), ("entries", each(&met.entries, file_entry))]
        }
        Message::ServerMet(met) => vec![
            ("opening", Json::number(met.opening)),
            ("entries", each(&met.entries, |entry| Json::Object(server_entry(entry.address, &entry.tags)))),
            ("tail", Json::hex(met.tail)),
        ],
        Message::PartMet(met) => part_met(met),
        Message::Query(query) => query_members(query),
        Message::Tags(list) => vec![("tags", tags(list))],
    }
}

/// The values of a list, each made by itself.
fn each<'a, T: Entry<'a>>(list: &List<'a, T>, one: impl FnMut(T) -> Json) -> Json {
    Json::list(list.clone().map(one))
}

fn file_entry(entry: FileEntry<'_>) -> Json {
    Json::Object(vec![
        ("date", Json::number(entry.date)),
        hash(entry.hash),
        ("part_hashes", each(&entry.part_hashes, Json::word)),
        ("tags", tags(&entry.tags)),
    ])
}

fn server_entry(at: Address, list: &Tags<'_>) -> Members {
    vec![("address", address(at)), ("tags", tags(list))]
}

fn part_met(met: &PartMet<'_>) -> Members {
    let parts = met.part_hashes.as_ref().map_or(Json::Null, |hashes| each(hashes, Json::word));
    let blocks = met.block_hashes.as_ref().map_or(Json::Null, |hashes| each(hashes, Json::word));
    vec![
        ("opening", Json::number(met.opening)),
        ("size", Json::number(met.size)),
        ("date", Json::number(met.date)),
        hash(met.hash),
        ("tags", tags(&met.tags)),
        ("part_hashes", parts),
        ("block_hashes", blocks),
    ]
}

fn packet_members(link: Link, packet: &Packet<'_>) -> Members {
    vec![
        ("opening", Json::number(packet.opening)),
        ("opcode", Json::number(packet.opcode)),
        ("name", ed2k::opcode_name(link, packet.opcode).map_or(Json::Null, Json::word)),
        ("body", body(packet).map_or(Json::Null, Json::Object)),
    ]
}

/// Nothing is said of a body that came later than this.
fn body(packet: &Packet<'_>) -> Option<Members> {
    let number = |number: u32| Json::number(number);
    Some(match &packet.body {
        Body::Nothing => vec![],
        Body::Query(query) => query_members(query),
        Body::Hash(one) => vec![hash(*one)],
        Body::Dword(rank) if packet.opcode == 0x5C => vec![("rank", number(*rank))],
        Body::Dword(id) => vec![client_id(*id)],
        Body::TwoDwords(old, new) if packet.opcode == 0x4D => {
            vec![("old_client_id", number(*old)), ("new_client_id", number(*new))]
        }
        Body::TwoDwords(users, files) => population(*users, *files),
        Body::Text(text) => vec![("text", Json::bytes(text))],
        Body::TwoTexts(name, description) => {
            vec![("name", Json::bytes(name)), ("description", Json::bytes(description))]
        }
        Body::Address(one) => vec![("address", address(*one))],
        Body::Addresses(list) => vec![("addresses", each(list, address))],
        Body::HashAddresses { hash: one, addresses } => {
            vec![hash(*one), ("addresses", each(addresses, address))]
        }
        Body::AddressDword { address: one, number } => vec![("address", address(*one)), client_id(*number)],
        Body::HashAddressTags { hash: one, address, tags } => {
            joined([vec![hash(*one)], server_entry(*address, tags)])
        }
        Body::Record(one) => record(one),
        Body::Records(list) => vec![records(list)],
        Body::RecordsFlag { records: list, flag } => vec![records(list), ("more", Json::Truth(*flag == 1))],
        Body::RecordAddress { record: one, address: server }
        | Body::Hello { record: one, address: server } => {
            joined([record(one), vec![("server", address(*server))]])
        }
        Body::HashText { hash: one, text } => vec![hash(*one), ("name", Json::bytes(text))],
        Body::Hashset { hash: one, hashes } => vec![hash(*one), ("part_hashes", each(hashes, Json::word))],
        Body::SendingPart { hash: one, start, end, data } => {
            joined([vec![hash(*one)], range(*start, *end), vec![("data", Json::hex(data))]])
        }
        Body::RequestParts { hash: one, starts, ends } => {
            let ranges = starts.iter().zip(ends).map(|(start, end)| Json::Object(range(*start, *end)));
            vec![hash(*one), ("ranges", Json::list(ranges))]
        }
        Body::FileStatus { hash: one, status } => {
            vec![hash(*one), ("parts", Json::number(status.parts)), ("held", held(status))]
        }
        Body::StatusRequest { extended, number } => request(*extended, *number),
        Body::Status([dword, users, files]) => status(request(false, *dword), *users, *files, Json::Null),
        Body::ExtendedStatus { bytes: [low, high], numbers: [users, files, most] } => {
            let dword = u32::from_le_bytes([*low, *high, 0xAA, 0x5A]);
            status(request(true, dword), *users, *files, number(*most))
        }
        _ => return None,
    })
}

/// Members one after the other.
fn joined<const N: usize>(pieces: [Members; N]) -> Members {
    pieces.into_iter().flatten().collect()
}

fn hash(hash: Hash) -> (&'static str, Json) {
    ("hash", Json::word(hash))
}

fn client_id(id: u32) -> (&'static str, Json) {
    ("client_id", Json::number(id))
}

fn address(address: Address) -> Json {
    Json::Object(vec![("ip", Json::word(ed2k::dotted(address.ip))), ("port", Json::number(address.port))])
}

fn range(start: u32, end: u32) -> Members {
    vec![("start", Json::number(start)), ("end", Json::number(end))]
}

fn population(users: u32, files: u32) -> Members {
    vec![("users", Json::number(users)), ("files", Json::number(files))]
}

fn request(extended: bool, dword: u32) -> Members {
    vec![("extended", Json::Truth(extended)), ("request", Json::number(dword))]
}

/// The answer to a request, which it repeats.
fn status(request: Members, users: u32, files: u32, users_max: Json) -> Members {
    joined([request, population(users, files), vec![("users_max", users_max)]])
}

/// The parts that are held, counted from 1.
fn held(status: &PartStatus<'_>) -> Json {
    let parts = (0..status.parts).filter(|part| status.has(*part));
    Json::list(parts.map(|part| Json::number(u32::from(part) + 1)))
}

fn record(record: &Record<'_>) -> Members {
    vec![
        hash(record.hash),
        client_id(record.client),
        ("port", Json::number(record.port)),
        ("tags", tags(&record.tags)),
    ]
}

fn records(list: &List<'_, Record<'_>>) -> (&'static str, Json) {
    ("records", each(list, |one| Json::Object(record(&one))))
}

fn tags(list: &Tags<'_>) -> Json {
    each(list, tag)
}

fn tag(tag: Tag<'_>) -> Json {
    let mut members = name(tag.name);
    let (kind, value) = match tag.value {
        TagValue::Hash(hash) => ("HASH", Json::word(hash)),
        TagValue::Text(text) => ("String", Json::bytes(text)),
        TagValue::Dword(number) => ("DWORD", Json::number(number)),
        TagValue::Float(bits) => ("FLOAT", Json::Float(f32::from_bits(bits))),
    };
    members.extend([("type", Json::word(kind)), ("value", value)]);
    if let TagValue::Float(bits) = tag.value {
        members.push(("bits", Json::number(bits)));
    }
    Json::Object(members)
}

/// A tag's name, and the published name of a special tag.
fn name(name: &[u8]) -> Members {
    let published = match name {
        [special] => ed2k::special_tag_name(*special),
        _ => None,
    };
    vec![("name", Json::bytes(name)), ("published", published.map_or(Json::Null, Json::word))]
}

fn query_members(query: &Query<'_>) -> Members {
    vec![("depth", Json::number(query.depth() as u64)), ("query", node(&mut query.nodes()))]
}

/// The query that begins with the next node.
fn node(nodes: &mut Nodes<'_>) -> Json {
    let next = nodes.next().expect("an operator is followed by its sides").node;
    Json::Object(match next {
        Node::Operator(operator) => vec![
            ("case", Json::word("join")),
            ("operator", Json::word(word_of(operator))),
            ("left", node(nodes)),
            ("right", node(nodes)),
        ],
        Node::Keyword(text) => vec![("case", Json::word("keyword")), ("text", Json::bytes(text))],
        Node::Field { text, name: tag } => {
            joined([vec![("case", Json::word("field")), ("text", Json::bytes(text))], name(tag)])
        }
        Node::Limit { number, bound, name: tag } => {
            let bound = match bound {
                Bound::Min => "min",
                Bound::Max => "max",
            };
            let limit = vec![
                ("case", Json::word("limit")),
                ("bound", Json::word(bound)),
                ("limit", Json::number(number)),
            ];
            joined([limit, name(tag)])
        }
    })
}

fn word_of(operator: Operator) -> &'static str {
    match operator {
        Operator::And => "and",
        Operator::Or => "or",
        Operator::AndNot => "and not",
    }
}
