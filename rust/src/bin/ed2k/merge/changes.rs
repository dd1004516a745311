//! What the saves changed, with the values in all three files: why a merge is refused.

use std::collections::HashMap;
use std::fmt::Display;
use std::iter;

use ed2k::{BlockHash, Hash, PartMet, Refusal, Tag, TagValue};

use super::versions::{Roles, Versions};
use crate::show::tags;
use crate::text;

/// The opening byte and the hash lists, which are one thing for a merge.
#[derive(PartialEq)]
pub struct Form {
    opening: u8,
    parts: Option<Vec<Hash>>,
    blocks: Option<Vec<BlockHash>>,
}

impl Form {
    pub fn of(met: &PartMet<'_>) -> Form {
        Form {
            opening: met.opening,
            parts: met.part_hashes.clone().map(Iterator::collect),
            blocks: met.block_hashes.clone().map(Iterator::collect),
        }
    }
}

/// The tags other than gap tags, which are one list for a merge. In an accepted file every name that begins with 09 or 0A
/// is that of a gap tag.
pub fn plain_tags<'a>(met: &PartMet<'a>) -> Vec<Tag<'a>> {
    met.tags.clone().filter(|tag| !matches!(tag.name, [0x09 | 0x0A, ..])).collect()
}

/// Something that a save changed, with its value in each of the files, in one line or several.
struct Change {
    name: String,
    values: [String; 3],
    in_two_ways: bool,
}

impl Change {
    /// None if no save changed it.
    fn of<T: PartialEq>(name: &str, values: &[T; 3], shown: impl Fn(&T) -> String) -> Option<Change> {
        let [opened, first, second] = values;
        let changed = first != opened || second != opened;
        changed.then(|| Change {
            name: name.into(),
            values: values.each_ref().map(shown),
            in_two_ways: are_in_conflict(values),
        })
    }

    fn lines(&self, roles: Roles) -> String {
        let mut lines = vec![text::folded(&format!("  {}", self.name), 4)];
        for (label, value) in roles.labels.into_iter().zip(&self.values) {
            let labels = iter::once(label).chain(iter::repeat(""));
            let folded = |(label, line)| text::folded(&format!("    {label:<8}{line}"), 12);
            lines.extend(labels.zip(value.lines()).map(folded));
        }
        lines.join("\n")
    }
}

/// Whether both saves changed it, in different ways.
fn are_in_conflict<T: PartialEq>([opened, first, second]: &[T; 3]) -> bool {
    first != opened && second != opened && first != second
}

/// Changes, and a line above that says what they are.
struct Section {
    heading: String,
    changes: Vec<Change>,
}

impl Section {
    fn new(heading: impl Into<String>, changes: Vec<Change>) -> Section {
        Section { heading: heading.into(), changes }
    }

    fn lines(&self, roles: Roles) -> String {
        let changes = self.changes.iter().map(|change| change.lines(roles));
        iter::once(self.heading.clone()).chain(changes).collect::<Vec<String>>().join("\n")
    }
}

fn shown(sections: &[Section], roles: Roles) -> String {
    sections.iter().map(|section| section.lines(roles)).collect::<Vec<String>>().join("\n")
}

/// Why files that are accepted by themselves are not merged: what the number means here, and more on it.
pub fn of_refusal(refusal: Refusal, versions: &Versions<'_>) -> (&'static str, String) {
    match refusal {
        Refusal::Conflict => of_conflict(versions),
        Refusal::Strangers => (refusal.meaning(), of_strangers(versions)),
        _ => (refusal.meaning(), LIMITS.into()),
    }
}

const LIMITS: &str = "The merged file would have more than 64 gaps or more than 1,048,576 bytes.";

/// Why the files are no one model.
fn of_strangers(versions: &Versions<'_>) -> String {
    let roles = versions.roles;
    let hashes = versions.each(|version| version.met.hash);
    let sizes = versions.each(|version| version.met.size);
    let differing = [
        Change::of("File hash", &hashes, Hash::to_string)
            .map(|change| Section::new(format!("{} file hash:", who_differs(&hashes, roles)), vec![change])),
        Change::of(&tags::name(&[0x02]), &sizes, |size| text::bytes((*size).into()))
            .map(|change| Section::new(format!("{} size:", who_differs(&sizes, roles)), vec![change])),
    ];
    shown(&differing.into_iter().flatten().collect::<Vec<Section>>(), roles)
}

/// The beginning of a line on the file that differs from the two others.
fn who_differs<T: PartialEq>([opened, first, second]: &[T; 3], roles: Roles) -> String {
    let place = match (first == second, opened == second, opened == first) {
        (true, ..) => 0,
        (_, true, _) => 1,
        (.., true) => 2,
        _ => return "Each of the three files has another".into(),
    };
    format!("The {} has another", roles.words[place])
}

/// What the conflict is in, and the changes that make it.
fn of_conflict(versions: &Versions<'_>) -> (&'static str, String) {
    let forms = versions.each(|version| Form::of(&version.met));
    let lists = versions.each(|version| plain_tags(&version.met));
    let (meaning, sections) = match (are_in_conflict(&forms), are_in_conflict(&lists)) {
        (true, false) => ("both saves changed the hashes, in different ways", of_forms(&forms)),
        (false, true) => ("both saves changed the tags, in different ways", of_tags(&lists)),
        _ => {
            let sections = of_forms(&forms).into_iter().chain(of_tags(&lists)).collect();
            ("both saves changed the hashes and the tags, in different ways", sections)
        }
    };
    (meaning, shown(&sections, versions.roles))
}

/// The changes in two ways first. If there is none, the line says why the others are a conflict all the same.
fn sorted(changes: Vec<Change>, why: &str) -> Vec<Section> {
    let (in_two_ways, others): (Vec<Change>, Vec<Change>) =
        changes.into_iter().partition(|change| change.in_two_ways);
    if in_two_ways.is_empty() {
        return vec![Section::new(why, others)];
    }
    let mut sections = vec![Section::new("Changed in two ways:", in_two_ways)];
    if !others.is_empty() {
        sections.push(Section::new("Changed by one save, or by both alike:", others));
    }
    sections
}

const FORM_IS_ONE: &str = "None of these was changed in two ways, but opening byte and hash lists count as one thing, \
    which both saves changed:";

/// The names are those that `show` has.
fn of_forms(forms: &[Form; 3]) -> Vec<Section> {
    let parts = match forms.each_ref().map(|form| form.opening) {
        [0xE0, 0xE0, 0xE0] => "Part hash list",
        [0xE1, 0xE1, 0xE1] => "B part hashes",
        _ => "Part hash list (E0), B part hashes (E1)",
    };
    let changes = [
        Change::of("opening byte", &forms.each_ref().map(|form| form.opening), |byte| {
            format!("({byte:02X})")
        }),
        hash_list(parts, "part", &forms.each_ref().map(|form| form.parts.as_deref())),
        hash_list("S part hashes", "block", &forms.each_ref().map(|form| form.blocks.as_deref())),
    ];
    sorted(changes.into_iter().flatten().collect(), FORM_IS_ONE)
}

/// A hash list that was changed: how many hashes it has, and those that are not the same in all three files, with the
/// number of what they are of, counted from 1.
fn hash_list<T: PartialEq + Display>(name: &str, of: &str, lists: &[Option<&[T]>; 3]) -> Option<Change> {
    let differs = |index: usize| {
        let [opened, first, second] = lists.map(|list| list.and_then(|list| list.get(index)));
        opened != first || opened != second
    };
    Change::of(name, lists, |list| {
        let Some(hashes) = list else {
            return NOT_THERE.into();
        };
        let differing = hashes.iter().enumerate().filter(|(index, _)| differs(*index));
        let shown = differing.map(|(index, hash)| format!("\n{of} {} {hash}", index + 1));
        iter::once(text::count(hashes.len(), "hash", "hashes")).chain(shown).collect()
    })
}

const NOT_THERE: &str = "not there";

/// A tag's name, and how many tags of that name stand before it: tags are held against each other by both.
type Key<'a> = (&'a [u8], usize);

/// The tags of three lists by their keys, in the order in which the keys are first met.
struct Tagged<'a> {
    keys: Vec<Key<'a>>,
    values: HashMap<Key<'a>, [Option<TagValue<'a>>; 3]>,
    orders: [Vec<Key<'a>>; 3],
}

impl<'a> Tagged<'a> {
    fn new(lists: &[Vec<Tag<'a>>; 3]) -> Tagged<'a> {
        let orders = lists.each_ref().map(|list| keys(list));
        let mut tagged = Tagged { keys: vec![], values: HashMap::new(), orders };
        for (place, list) in lists.iter().enumerate() {
            for (key, tag) in tagged.orders[place].iter().zip(list) {
                let values = tagged.values.entry(*key).or_insert_with(|| {
                    tagged.keys.push(*key);
                    [None; 3]
                });
                values[place] = Some(tag.value);
            }
        }
        tagged
    }

    /// A tag's name as `show` has it, with its number if there are several of that name.
    fn name(&self, (name, before): Key<'a>) -> String {
        let shown = tags::name(name);
        if self.values.contains_key(&(name, 1)) { format!("{shown}, number {}", before + 1) } else { shown }
    }

    fn changes(&self) -> Vec<Change> {
        let change = |key: &Key<'a>| {
            Change::of(&self.name(*key), &self.values[key], |value| match value {
                Some(value) => tags::value(&Tag { name: key.0, value: *value }, None),
                None => NOT_THERE.into(),
            })
        };
        self.keys.iter().filter_map(change).collect()
    }

    /// Whether the tags that are in both of these lists stand in one order in them.
    fn is_one_order(&self, one: usize, other: usize) -> bool {
        let are_in_both =
            |key: &&Key<'a>| self.values[*key][one].is_some() && self.values[*key][other].is_some();
        self.orders[one].iter().filter(are_in_both).eq(self.orders[other].iter().filter(are_in_both))
    }

    /// The order of the tags, if a save changed it, or both put the same new tags into different places. Tags at the front and at
    /// the end that are the same in all three lists are left out.
    fn order_change(&self) -> Option<Change> {
        let [by_first, by_second, between] =
            [(0, 1), (0, 2), (1, 2)].map(|(one, other)| !self.is_one_order(one, other));
        let [opened, first, second] = &self.orders;
        let shortest = opened.len().min(first.len()).min(second.len());
        let front = |index: &usize| opened[*index] == first[*index] && opened[*index] == second[*index];
        let before = (0..shortest).take_while(front).count();
        let from_end = |order: &Vec<Key<'a>>, index: usize| order[order.len() - 1 - index];
        let end = |index: &usize| {
            from_end(opened, *index) == from_end(first, *index)
                && from_end(opened, *index) == from_end(second, *index)
        };
        let after = (0..shortest - before).take_while(end).count();
        let names = |order: &Vec<Key<'a>>| {
            let names: Vec<String> =
                order[before..order.len() - after].iter().map(|key| self.name(*key)).collect();
            if names.is_empty() { NOT_THERE.into() } else { names.join(", ") }
        };
        (by_first || by_second || between).then(|| Change {
            name: "order of the tags".into(),
            values: self.orders.each_ref().map(names),
            in_two_ways: between && by_first == by_second,
        })
    }
}

fn keys<'a>(list: &[Tag<'a>]) -> Vec<Key<'a>> {
    let mut counts: HashMap<&[u8], usize> = HashMap::new();
    let key = |tag: &Tag<'a>| {
        let count = counts.entry(tag.name).or_default();
        *count += 1;
        (tag.name, *count - 1)
    };
    list.iter().map(key).collect()
}

const TAGS_ARE_ONE: &str = "No tag was changed in two ways, but the tags other than gap tags count as one list, which \
    both saves changed:";

const ORDER_ALONE: &str = "The tags are the same in all three files; only their order differs:";

fn of_tags(lists: &[Vec<Tag<'_>>; 3]) -> Vec<Section> {
    let tagged = Tagged::new(lists);
    let mut changes = tagged.changes();
    let order_alone = changes.is_empty();
    changes.extend(tagged.order_change());
    if order_alone { vec![Section::new(ORDER_ALONE, changes)] } else { sorted(changes, TAGS_ARE_ONE) }
}
