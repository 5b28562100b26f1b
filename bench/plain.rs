//! What `bnc view` does, in plain Rust with the standard library's maps: reads what a network sent,
//! keeps what it says of nicks, channels, modes, topics, members, accounts and away texts, and
//! reports it at the end.

use std::collections::{BTreeMap, HashMap};
use std::io::{Read, Write};

#[derive(Clone, Copy, PartialEq)]
enum Mapping {
    Ascii,
    Rfc1459,
    Strict,
}

impl Mapping {
    fn key(self, name: &[u8]) -> Vec<u8> {
        name.iter().map(|byte| self.fold(*byte)).collect()
    }

    fn fold(self, byte: u8) -> u8 {
        match (self, byte) {
            (Mapping::Rfc1459 | Mapping::Strict, b'[' | b'\\' | b']') => byte + 32,
            (Mapping::Rfc1459, b'~') => b'^',
            _ => byte.to_ascii_lowercase(),
        }
    }
}

struct Line<'a> {
    source: Option<&'a [u8]>,
    command: &'a [u8],
    params: Vec<&'a [u8]>,
}

fn skip_spaces(text: &[u8]) -> &[u8] {
    &text[text.iter().take_while(|byte| **byte == b' ').count()..]
}

fn split_word(text: &[u8]) -> (&[u8], &[u8]) {
    text.split_at(text.iter().position(|byte| *byte == b' ').unwrap_or(text.len()))
}

/// A line of RFC 2812, section 2.3.1, with tags; `None` where it is none.
fn read_line(text: &[u8]) -> Option<Line<'_>> {
    if text.iter().any(|byte| matches!(byte, 0 | b'\r')) {
        return None;
    }
    let mut rest = skip_spaces(text);
    if let Some(tags) = rest.strip_prefix(b"@") {
        let (tags, after) = split_word(tags);
        if tags.is_empty() || after.is_empty() {
            return None;
        }
        rest = skip_spaces(after);
    }
    let mut source = None;
    if let Some(after) = rest.strip_prefix(b":") {
        let (word, after) = split_word(after);
        if word.is_empty() || after.is_empty() {
            return None;
        }
        source = Some(word);
        rest = skip_spaces(after);
    }
    let (command, mut rest) = split_word(rest);
    let is_word = !command.is_empty() && command.iter().all(u8::is_ascii_alphabetic);
    let is_numeric = command.len() == 3 && command.iter().all(u8::is_ascii_digit);
    if !is_word && !is_numeric {
        return None;
    }
    let mut params = Vec::new();
    loop {
        rest = skip_spaces(rest);
        if rest.is_empty() {
            return Some(Line { source, command, params });
        }
        if let Some(trailing) = rest.strip_prefix(b":") {
            params.push(trailing);
            return Some(Line { source, command, params });
        }
        let (word, after) = split_word(rest);
        params.push(word);
        rest = after;
    }
}

fn is_nameable(nick: &[u8]) -> bool {
    let Some(first) = nick.first() else {
        return false;
    };
    (first.is_ascii_alphanumeric() || b"[]\\`_^{|}".contains(first) || *first >= 0x80)
        && !nick.iter().any(|byte| matches!(byte, 0..=0x20 | 0x7f | b'!' | b'@'))
}

fn is_word(text: &[u8]) -> bool {
    !text.is_empty() && text[0] != b':' && !text.contains(&b' ')
}

fn nick_of(source: &[u8]) -> &[u8] {
    let end = source.iter().position(|byte| *byte == b'!');
    let end = end.or_else(|| source.iter().position(|byte| *byte == b'@'));
    &source[..end.unwrap_or(source.len())]
}

#[derive(Default)]
struct Person {
    nick: Vec<u8>,
    account: Option<Vec<u8>>,
    away: Option<Vec<u8>>,
    /// On how many channels the person is.
    seats: usize,
}

struct Channel {
    name: Vec<u8>,
    topic: Option<Vec<u8>>,
    modes: BTreeMap<u8, Option<Vec<u8>>>,
    members: HashMap<Vec<u8>, u16>,
}

struct Network {
    own: Option<Vec<u8>>,
    ready: bool,
    tokens: Vec<(Vec<u8>, Option<Vec<u8>>)>,
    mapping: Mapping,
    types: Vec<u8>,
    letters: Vec<u8>,
    symbols: Vec<u8>,
    lists: [Vec<u8>; 4],
    channels: BTreeMap<Vec<u8>, Channel>,
    persons: HashMap<Vec<u8>, Person>,
}

fn account_said(text: &[u8]) -> Option<Option<Vec<u8>>> {
    match is_word(text) {
        true => Some((text != b"*").then(|| text.to_vec())),
        false => None,
    }
}

impl Network {
    fn new() -> Network {
        let mut network = Network {
            own: None,
            ready: false,
            tokens: Vec::new(),
            mapping: Mapping::Rfc1459,
            types: Vec::new(),
            letters: Vec::new(),
            symbols: Vec::new(),
            lists: Default::default(),
            channels: BTreeMap::new(),
            persons: HashMap::new(),
        };
        network.settle_tokens();
        network
    }

    fn token(&self, name: &[u8]) -> Option<&[u8]> {
        let token = self.tokens.iter().find(|token| token.0 == name)?;
        Some(token.1.as_deref().unwrap_or(b""))
    }

    fn settle_tokens(&mut self) {
        self.mapping = match self.token(b"CASEMAPPING") {
            None | Some(b"rfc1459") => Mapping::Rfc1459,
            Some(b"strict-rfc1459") => Mapping::Strict,
            Some(_) => Mapping::Ascii,
        };
        self.types = self.token(b"CHANTYPES").unwrap_or(b"#&").to_vec();
        let prefix = self.token(b"PREFIX").unwrap_or(b"(ov)@+").to_vec();
        let middle = prefix.iter().position(|byte| *byte == b')');
        (self.letters, self.symbols) = match middle {
            _ if prefix.is_empty() => (Vec::new(), Vec::new()),
            Some(i) if prefix[0] == b'(' && 2 * i == prefix.len() && i <= 17 => {
                (prefix[1..i].to_vec(), prefix[i + 1..].to_vec())
            }
            _ => (b"ov".to_vec(), b"@+".to_vec()),
        };
        let modes = self.token(b"CHANMODES").unwrap_or(b"b,k,l,imnpst").to_vec();
        self.lists = Default::default();
        for (list, text) in self.lists.iter_mut().zip(modes.split(|byte| *byte == b',')) {
            *list = text.to_vec();
        }
    }

    fn is_channel(&self, name: &[u8]) -> bool {
        match name.first() {
            Some(first) => {
                self.types.contains(first)
                    && *first != b':'
                    && !name.iter().any(|byte| matches!(byte, b' ' | b',' | 7))
            }
            None => false,
        }
    }

    fn is_us(&self, key: &[u8]) -> bool {
        self.own.as_ref().is_some_and(|own| self.mapping.key(own) == key)
    }

    fn leave(&mut self, key: &[u8]) {
        if let Some(person) = self.persons.get_mut(key) {
            person.seats -= 1;
            if person.seats == 0 {
                self.persons.remove(key);
            }
        }
    }

    fn leave_all(&mut self, key: &[u8]) {
        for channel in self.channels.values_mut() {
            channel.members.remove(key);
        }
        self.persons.remove(key);
    }

    fn clear(&mut self) {
        self.channels.clear();
        self.persons.clear();
    }

    fn take(&mut self, line: &Line<'_>) {
        let params = &line.params;
        let param = |i: usize| params.get(i).copied();
        let actor = line.source.map(nick_of).filter(|nick| is_nameable(nick));
        let mut command = line.command.to_vec();
        command.make_ascii_uppercase();
        if command == b"001" {
            if let Some(nick) = param(0).filter(|nick| is_nameable(nick)) {
                *self = Network::new();
                self.own = Some(nick.to_vec());
            }
            return;
        }
        if self.own.is_none() {
            return;
        }
        match command.as_slice() {
            b"005" if !self.ready => self.take_tokens(params),
            b"376" | b"422" => self.ready = true,
            b"JOIN" => {
                if let (Some(name), Some(nick)) = (param(0), actor) {
                    self.join(name, nick, param(1).and_then(account_said));
                }
                self.ready = true;
            }
            b"PART" => {
                if let (Some(name), Some(nick)) = (param(0), actor) {
                    self.part(name, nick);
                }
            }
            b"KICK" => {
                if let (Some(name), Some(nick)) = (param(0), param(1).filter(|n| is_nameable(n))) {
                    self.part(name, nick);
                }
            }
            b"QUIT" => {
                if let Some(nick) = actor {
                    let key = self.mapping.key(nick);
                    match self.is_us(&key) {
                        true => self.clear(),
                        false => self.leave_all(&key),
                    }
                }
            }
            b"NICK" => {
                if let (Some(old), Some(new)) = (actor, param(0).filter(|n| is_nameable(n))) {
                    self.rename(old, new);
                }
            }
            b"MODE" => {
                if let Some(name) = param(0) {
                    self.change_modes(name, params.get(1..).unwrap_or(&[]));
                }
            }
            b"324" => {
                if let Some(name) = param(1) {
                    let key = self.mapping.key(name);
                    if let Some(channel) = self.channels.get_mut(&key) {
                        channel.modes.clear();
                    }
                    self.list_modes(name, params.get(2..).unwrap_or(&[]));
                }
            }
            b"TOPIC" => self.title(param(0), param(1)),
            b"332" => self.title(param(1), param(2)),
            b"331" => self.title(param(1), Some(b"")),
            b"353" => {
                if let Some(name) = param(2) {
                    self.list(name, param(3).unwrap_or(b""));
                }
            }
            b"ACCOUNT" => {
                if let (Some(nick), Some(said)) = (actor, param(0).and_then(account_said)) {
                    if let Some(person) = self.persons.get_mut(&self.mapping.key(nick)) {
                        person.account = said;
                    }
                }
            }
            b"AWAY" => {
                if let Some(nick) = actor {
                    if let Some(person) = self.persons.get_mut(&self.mapping.key(nick)) {
                        person.away = param(0).filter(|t| !t.is_empty()).map(<[u8]>::to_vec);
                    }
                }
            }
            _ => {}
        }
    }

    fn take_tokens(&mut self, params: &[&[u8]]) {
        for text in params.iter().take(params.len().saturating_sub(1)).skip(1) {
            if let Some(name) = text.strip_prefix(b"-") {
                self.tokens.retain(|token| token.0 != name);
                continue;
            }
            let end = text.iter().position(|byte| *byte == b'=');
            let (name, value) = match end {
                Some(end) => (&text[..end], Some(text[end + 1..].to_vec())),
                None => (&text[..], None),
            };
            match self.tokens.iter_mut().find(|token| token.0 == name) {
                Some(token) => token.1 = value,
                None if name.is_empty() => {}
                None => self.tokens.push((name.to_vec(), value)),
            }
        }
        self.settle_tokens();
    }

    fn join(&mut self, name: &[u8], nick: &[u8], account: Option<Option<Vec<u8>>>) {
        let key = self.mapping.key(nick);
        let place = self.mapping.key(name);
        if self.is_us(&key) && self.is_channel(name) {
            self.forget(&place);
            let channel = Channel {
                name: name.to_vec(),
                topic: None,
                modes: BTreeMap::new(),
                members: HashMap::new(),
            };
            self.channels.insert(place.clone(), channel);
        }
        if let Some(channel) = self.channels.get_mut(&place) {
            let is_new = channel.members.insert(key.clone(), 0).is_none();
            let person = self.persons.entry(key).or_default();
            person.nick = nick.to_vec();
            person.seats += usize::from(is_new);
            if let Some(account) = account {
                person.account = account;
            }
        }
    }

    fn forget(&mut self, place: &[u8]) {
        if let Some(channel) = self.channels.remove(place) {
            for member in channel.members.keys() {
                self.leave(member);
            }
        }
    }

    fn part(&mut self, name: &[u8], nick: &[u8]) {
        let key = self.mapping.key(nick);
        let place = self.mapping.key(name);
        if self.is_us(&key) {
            self.forget(&place);
        } else if let Some(channel) = self.channels.get_mut(&place) {
            if channel.members.remove(&key).is_some() {
                self.leave(&key);
            }
        }
    }

    fn rename(&mut self, old: &[u8], new: &[u8]) {
        let (from, to) = (self.mapping.key(old), self.mapping.key(new));
        let ours = self.is_us(&from);
        if !ours && self.is_us(&to) {
            return;
        }
        if from != to {
            self.leave_all(&to);
            for channel in self.channels.values_mut() {
                if let Some(ranks) = channel.members.remove(&from) {
                    channel.members.insert(to.clone(), ranks);
                }
            }
        }
        if let Some(mut person) = self.persons.remove(&from) {
            person.nick = new.to_vec();
            self.persons.insert(to, person);
        }
        if ours {
            self.own = Some(new.to_vec());
        }
    }

    /// The changes of modes: the sign, the letter and its parameter.
    fn changes<'a>(&self, texts: &[&'a [u8]]) -> Vec<(bool, u8, Option<&'a [u8]>)> {
        let mut arguments = texts.iter().skip(1);
        let mut plus = true;
        let mut changes = Vec::new();
        for letter in texts.first().copied().unwrap_or(b"") {
            match letter {
                b'+' => plus = true,
                b'-' => plus = false,
                _ => {
                    let takes = self.letters.contains(letter)
                        || self.lists[0].contains(letter)
                        || self.lists[1].contains(letter)
                        || (self.lists[2].contains(letter) && plus);
                    let param = if takes { arguments.next().copied() } else { None };
                    changes.push((plus, *letter, param));
                }
            }
        }
        changes
    }

    fn change_modes(&mut self, name: &[u8], texts: &[&[u8]]) {
        for (plus, letter, param) in self.changes(texts) {
            if let Some(rank) = self.letters.iter().position(|other| *other == letter) {
                let Some(nick) = param.filter(|nick| is_nameable(nick)) else {
                    continue;
                };
                let key = self.mapping.key(nick);
                if let Some(channel) = self.channels.get_mut(&self.mapping.key(name)) {
                    if let Some(ranks) = channel.members.get_mut(&key) {
                        match plus {
                            true => *ranks |= 1 << rank,
                            false => *ranks &= !(1 << rank),
                        }
                    }
                }
            } else {
                self.change_mode(name, plus, letter, param);
            }
        }
    }

    fn list_modes(&mut self, name: &[u8], texts: &[&[u8]]) {
        for (plus, letter, param) in self.changes(texts) {
            if !self.letters.contains(&letter) {
                self.change_mode(name, plus, letter, param);
            }
        }
    }

    fn change_mode(&mut self, name: &[u8], plus: bool, letter: u8, param: Option<&[u8]>) {
        let Some(list) = self.lists.iter().position(|list| list.contains(&letter)) else {
            return;
        };
        let key = self.mapping.key(name);
        let Some(channel) = self.channels.get_mut(&key) else {
            return;
        };
        let word = param.filter(|text| is_word(text)).map(<[u8]>::to_vec);
        match (list, plus) {
            (1 | 2, true) if word.is_some() => _ = channel.modes.insert(letter, word),
            (1, false) if word.is_some() => _ = channel.modes.remove(&letter),
            (3, true) => _ = channel.modes.insert(letter, None),
            (2 | 3, false) => _ = channel.modes.remove(&letter),
            _ => {}
        }
    }

    fn title(&mut self, name: Option<&[u8]>, text: Option<&[u8]>) {
        if let (Some(name), Some(text)) = (name, text) {
            if let Some(channel) = self.channels.get_mut(&self.mapping.key(name)) {
                channel.topic = (!text.is_empty()).then(|| text.to_vec());
            }
        }
    }

    fn list(&mut self, name: &[u8], words: &[u8]) {
        let Some(channel) = self.channels.get_mut(&self.mapping.key(name)) else {
            return;
        };
        for word in words.split(|byte| *byte == b' ').filter(|word| !word.is_empty()) {
            let mut ranks = 0;
            let mut nick = word;
            while let Some(rank) =
                nick.first().and_then(|first| self.symbols.iter().position(|s| s == first))
            {
                ranks |= 1 << rank;
                nick = &nick[1..];
            }
            let end = nick.iter().position(|byte| *byte == b'!').unwrap_or(nick.len());
            let nick = &nick[..end];
            if is_nameable(nick) {
                let key = self.mapping.key(nick);
                let is_new = channel.members.insert(key.clone(), ranks).is_none();
                let person = self.persons.entry(key).or_default();
                person.nick = nick.to_vec();
                person.seats += usize::from(is_new);
            }
        }
    }

    fn report(&self, skipped: u64) -> Vec<u8> {
        let mut report = Vec::new();
        let Some(own) = &self.own else {
            report.extend_from_slice(b"no welcome\n");
            return report;
        };
        report.extend([b"nick ", own.as_slice(), b"\n"].concat());
        for channel in self.channels.values() {
            report.extend([b"channel ", channel.name.as_slice(), b"\n"].concat());
            if !channel.modes.is_empty() {
                report.extend_from_slice(b"modes +");
                report.extend(channel.modes.keys());
                for param in channel.modes.values().flatten() {
                    report.push(b' ');
                    report.extend_from_slice(param);
                }
                report.push(b'\n');
            }
            if let Some(topic) = &channel.topic {
                report.extend([b"topic ", topic.as_slice(), b"\n"].concat());
            }
            let mut members: Vec<(&Vec<u8>, &u16)> = channel.members.iter().collect();
            members.sort_unstable();
            for (key, ranks) in members {
                self.report_member(key, *ranks, &mut report);
            }
        }
        if skipped > 0 {
            report.extend_from_slice(format!("skipped {skipped}\n").as_bytes());
        }
        report
    }

    fn report_member(&self, key: &[u8], ranks: u16, report: &mut Vec<u8>) {
        let Some(person) = self.persons.get(key) else {
            return;
        };
        report.extend_from_slice(b"member ");
        for (rank, symbol) in self.symbols.iter().enumerate() {
            if ranks & (1 << rank) != 0 {
                report.push(*symbol);
            }
        }
        report.extend_from_slice(&person.nick);
        if let Some(account) = &person.account {
            report.extend_from_slice(b" account ");
            report.extend_from_slice(account);
        }
        if let Some(away) = &person.away {
            report.extend_from_slice(b" away ");
            report.extend_from_slice(away);
        }
        report.push(b'\n');
    }
}

fn main() -> std::io::Result<()> {
    let mut network = Network::new();
    let mut input = std::io::stdin().lock();
    let mut piece = vec![0; 65_536];
    let mut rest: Vec<u8> = Vec::new();
    let mut skipped = 0;
    loop {
        let count = input.read(&mut piece)?;
        if count == 0 {
            break;
        }
        rest.extend_from_slice(&piece[..count]);
        let mut begin = 0;
        while let Some(length) = rest[begin..].iter().position(|byte| *byte == b'\n') {
            let text = &rest[begin..begin + length];
            let text = text.strip_suffix(b"\r").unwrap_or(text);
            match read_line(text) {
                Some(line) => network.take(&line),
                None if text.iter().all(|byte| *byte == b' ') => {}
                None => skipped += 1,
            }
            begin += length + 1;
        }
        rest.drain(..begin);
    }
    std::io::stdout().write_all(&network.report(skipped))
}
