//! The builder, by a list of the texts and of the places that tell where they stand.

use super::table::Raw;
use crate::builder::{Parts, ERANGE};
use crate::faults::Fault;
use crate::resolver::{DIRECTORY, EUCLEAN, FILE, LINK, MAGIC};
use data::fields::{set, ENTRY, MOUNT, NODE, NODES_AT};
use std::collections::HashMap;

/// A build in four numbers.
pub fn build(fault: Option<Fault>, parts: &mut Parts, buffer: &mut [u8]) -> [u64; 4] {
    let lent = Lent::of(fault, parts);
    let numbers = match lent.refusal(buffer.len() as u64) {
        Some(refusal) => {
            lent.spoil(refusal[0], buffer);
            refusal
        }
        None => lent.write(buffer),
    };
    if fault == Some(Fault::TouchedText) {
        if let Some(last) = parts.text.last_mut() {
            *last ^= 1;
        }
    }
    numbers
}

/// A name or a body.
#[derive(Clone, Copy)]
struct Text {
    /// Where in the image its offset is told.
    told_at: u64,
    offset: u64,
    length: u64,
    /// The node whose body it is.
    link: Option<u64>,
}

/// The parts as an image has them, with the header still to be written.
struct Lent {
    fault: Option<Fault>,
    image: Vec<u8>,
    nodes: u64,
    mounts: u64,
    entries: u64,
    text: u64,
    is_cut: bool,
}

impl Lent {
    fn of(fault: Option<Fault>, parts: &Parts) -> Lent {
        let cut = if fault == Some(Fault::CountsCut16) { 0xFFFF } else { usize::MAX };
        let whole = |part: &[u8], width: usize| (part.len() / width) & cut;
        let counts =
            [whole(&parts.nodes, NODE), whole(&parts.mounts, MOUNT), whole(&parts.entries, ENTRY)];
        let image = [
            &[0; NODES_AT][..],
            &parts.nodes[..NODE * counts[0]],
            &parts.mounts[..MOUNT * counts[1]],
            &parts.entries[..ENTRY * counts[2]],
            &parts.text,
        ]
        .concat();
        let [nodes, mounts, entries] = counts.map(|count| count as u64);
        let text = parts.text.len() as u64;
        Lent { fault, image, nodes, mounts, entries, text, is_cut: parts.has_cut_record() }
    }

    fn has(&self, fault: Fault) -> bool {
        self.fault == Some(fault)
    }

    fn raw(&self) -> Raw<'_> {
        let Lent { fault, image, nodes, mounts, entries, text, .. } = self;
        Raw { fault: *fault, image, nodes: *nodes, mounts: *mounts, entries: *entries, text: *text }
    }

    /// Where the text begins.
    fn text_at(&self) -> u64 {
        20 + 12 * self.nodes + 8 * self.mounts + 8 * self.entries
    }

    /// All texts in the order in which they are written.
    fn texts(&self) -> Vec<Text> {
        let raw = self.raw();
        let entries_at = self.text_at() - 8 * self.entries;
        let mut texts: Vec<Text> = (0..self.entries)
            .map(|entry| {
                let (offset, length, _) = raw.entry(entry);
                Text { told_at: entries_at + 8 * entry, offset, length, link: None }
            })
            .collect();
        let names = texts.len();
        for link in (0..self.nodes).filter(|node| self.has_body(raw.kind(*node))) {
            let told_at = 20 + 12 * link + 4;
            let (offset, length) = (raw.first(link), raw.count(link));
            texts.push(Text { told_at, offset, length, link: Some(link) });
        }
        match self.fault {
            Some(Fault::BodiesFirst) => texts.rotate_left(names),
            Some(Fault::CallersOrder) => texts.sort_by_key(|text| text.offset),
            Some(Fault::BodiesReversed) => texts[names..].reverse(),
            Some(Fault::UnnamedDropped) => texts.retain(|text| {
                let is_named = |link| (0..self.entries).any(|entry| raw.entry(entry).2 == link);
                text.link.is_none_or(is_named)
            }),
            _ => {}
        }
        texts
    }

    fn has_body(&self, kind: u64) -> bool {
        kind == LINK || kind == MAGIC && self.has(Fault::MagicHasBody)
    }

    /// The length of the image.
    fn total(&self) -> u64 {
        let texts = self.texts();
        let counted = texts.iter().filter(|text| {
            !self.has(Fault::OutsideUncounted) || text.offset + text.length <= self.text
        });
        let sum: u64 = counted.map(|text| self.declared(text)).sum();
        let more: u64 = match self.fault {
            Some(Fault::FilesCounted) => self.counts_of(FILE),
            Some(Fault::DirectoriesCounted) => self.counts_of(DIRECTORY),
            Some(Fault::CutCounted) if self.is_cut => 8,
            _ => 0,
        };
        let sum = match self.fault {
            Some(Fault::CallersTextCounted) => sum.max(self.text),
            Some(Fault::SumWraps) => sum & 0xFFFF_FFFF,
            _ => sum,
        };
        self.text_at() + sum + more
    }

    fn declared(&self, text: &Text) -> u64 {
        let is_cut = self.has(Fault::BodyCut16) && text.link.is_some();
        if is_cut {
            text.length & 0xFFFF
        } else {
            text.length
        }
    }

    fn counts_of(&self, kind: u64) -> u64 {
        let raw = self.raw();
        (0..self.nodes).filter(|node| raw.kind(*node) == kind).map(|node| raw.count(node)).sum()
    }

    fn refusal(&self, room: u64) -> Option<[u64; 4]> {
        let total = self.total();
        let told = if self.has(Fault::RangeTellsRoom) { room } else { total };
        let is_short = match self.fault {
            Some(Fault::RoomBound) => room <= total,
            Some(Fault::RoomShort) => room + 1 < total,
            Some(Fault::RoomByCaller) => room < self.text_at() + self.text,
            _ => room < total,
        };
        let range = is_short.then_some([ERANGE, 0, 0, told]);
        if range.is_some() && self.has(Fault::RangeFirst) {
            return range;
        }
        let bytes = if self.has(Fault::RefusalTellsBytes) { total } else { 0 };
        let broken = self.broken(total).map(|[rule, record]| [EUCLEAN, rule, record, bytes]);
        broken.or(range)
    }

    fn broken(&self, total: u64) -> Option<[u64; 2]> {
        let most = 65_536 - u64::from(self.has(Fault::LongestBuilt));
        let length = (total > most).then_some([1, 0]);
        let is_cut = self.is_cut && !self.has(Fault::CutIgnored);
        let outside = self.has(Fault::OutsideRule3) && self.is_any_outside();
        let counts = (1..=4096).contains(&self.nodes)
            && (1..=256).contains(&self.mounts)
            && self.entries <= 4096;
        let records = (!counts || is_cut || outside).then_some([3, 0]);
        if self.has(Fault::RecordsBeforeLength) {
            return records.or(length).or_else(|| self.broken_tree());
        }
        if length.is_some() && records.is_none() && self.has(Fault::NodesBeforeLength) {
            return self.broken_tree().filter(|[rule, _]| *rule == 4).or(length);
        }
        length.or(records).or_else(|| self.broken_tree())
    }

    fn broken_tree(&self) -> Option<[u64; 2]> {
        let mut raw = self.raw();
        let mut image = raw.image.to_vec();
        if self.has(Fault::FirstSetRight) {
            let mut sum = 0;
            for node in (0..self.nodes).filter(|node| raw.kind(*node) == DIRECTORY) {
                set(&mut image, (20 + 12 * node + 4) as usize, 4, sum as usize);
                sum += raw.count(node);
            }
            raw.image = &image;
        }
        let broken = raw.rules().err()?;
        let raw = self.raw();
        let is_outside = |entry: &u64| {
            let (offset, length, _) = raw.entry(*entry);
            offset + length > self.text
        };
        match (self.fault, broken) {
            (Some(Fault::NamesBeforeNodes), [4, _]) => {
                let outside = (0..self.entries).find(is_outside);
                Some(outside.map_or(broken, |entry| [5, entry]))
            }
            (Some(Fault::OutsideAtZero), [rule @ 4..=5, _]) if self.is_any_outside() => {
                Some([rule, 0])
            }
            _ => Some(broken),
        }
    }

    fn is_any_outside(&self) -> bool {
        self.texts().iter().any(|text| text.offset + text.length > self.text)
    }

    /// What a refusal does to the buffer: nothing.
    fn spoil(&self, errno: u64, buffer: &mut [u8]) {
        match self.fault {
            Some(Fault::RefusalClears) if errno == EUCLEAN => buffer.fill(0),
            Some(Fault::RangeWrites) if errno == ERANGE => {
                let image = self.written();
                let fitting = buffer.len().min(image.len());
                buffer[..fitting].copy_from_slice(&image[..fitting]);
            }
            _ => {}
        }
    }

    fn write(&self, buffer: &mut [u8]) -> [u64; 4] {
        let image = self.written();
        let fitting = image.len().min(buffer.len());
        buffer[..fitting].copy_from_slice(&image[..fitting]);
        if self.has(Fault::BeyondZeroed) {
            buffer[fitting..].fill(0);
        }
        if self.has(Fault::ByteBeyond) {
            buffer.iter_mut().skip(fitting).take(1).for_each(|byte| *byte = 0);
        }
        let bytes = match self.fault {
            Some(Fault::BytesShort) => image.len() - 1,
            Some(Fault::BytesOfBuffer) => buffer.len(),
            _ => image.len(),
        };
        [0, 0, 0, bytes as u64]
    }

    /// The image.
    fn written(&self) -> Vec<u8> {
        let raw = self.raw();
        let mut image = self.image[..self.text_at() as usize].to_vec();
        if self.has(Fault::TextCopied) {
            image.extend(&self.image[self.text_at() as usize..]);
        } else {
            let text = self.laid(&raw, &mut image);
            image.extend(text);
        }
        let total = image.len();
        let text = total - self.text_at() as usize;
        let [nodes, mounts, entries] =
            [self.nodes, self.mounts, self.entries].map(|count| count as usize);
        image[..4].copy_from_slice(b"TOC1");
        let told = if self.has(Fault::TotalOfText) { text } else { total };
        let fields = [(4, 2, nodes), (6, 2, mounts), (8, 2, entries), (12, 4, text), (16, 4, told)];
        for (at, width, number) in fields {
            set(&mut image, at, width, number);
        }
        image
    }

    /// The texts one behind another, and their offsets set in the records.
    fn laid(&self, raw: &Raw, records: &mut [u8]) -> Vec<u8> {
        let mut laid = Vec::new();
        let mut known = HashMap::new();
        for text in self.texts() {
            let offset = match self.fault {
                Some(Fault::OffsetCut16) => text.offset & 0xFFFF,
                _ => text.offset,
            };
            let bytes = raw.part(offset, text.length);
            let place = laid.len();
            let place = match self.fault {
                Some(Fault::TextShared) => *known.get(bytes).unwrap_or(&place),
                Some(Fault::BodyShared) if text.link.is_some() => {
                    *known.get(bytes).unwrap_or(&place)
                }
                _ => place,
            };
            known.insert(bytes, place);
            if place == laid.len() {
                laid.extend(bytes);
            }
            self.tell(&text, place, records);
        }
        laid
    }

    /// Sets where a text stands.
    fn tell(&self, text: &Text, place: usize, records: &mut [u8]) {
        let is_kept = match self.fault {
            Some(Fault::BodyOffsetKept) => text.link.is_some(),
            Some(Fault::NameOffsetKept) => text.link.is_none(),
            _ => false,
        };
        let place = match self.fault {
            Some(Fault::OffsetCut8) => place & 0xFF,
            Some(Fault::OffsetCut15) => place & 0x7FFF,
            Some(Fault::OffsetFromHeader) => place + 20,
            _ => place,
        };
        if !is_kept {
            set(records, text.told_at as usize, 4, place);
        }
    }
}
