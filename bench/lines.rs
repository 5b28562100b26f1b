//! Writes what a network might send: a welcome, channels with their name lists, and then so many
//! lines of JOIN, PART, QUIT, NICK, MODE and PRIVMSG. The same words give the same lines.
//!
//! lines CHANNELS MEMBERS PERSONS COUNT [KINDS]
//!
//! KINDS has a letter for each kind of line that may come: j p q n m t (t for talk, PRIVMSG).

use std::io::Write;

struct Dice(u64);

impl Dice {
    fn below(&mut self, limit: usize) -> usize {
        self.0 ^= self.0 << 13;
        self.0 ^= self.0 >> 7;
        self.0 ^= self.0 << 17;
        (self.0 >> 11) as usize % limit
    }
}

struct Network {
    dice: Dice,
    /// Each person's nick; a person who quit comes again under another one.
    nicks: Vec<String>,
    /// The persons of each channel.
    rooms: Vec<Vec<usize>>,
    made: usize,
    /// How many members there are in all channels, and how many there are to be.
    members: usize,
    target: usize,
}

impl Network {
    /// A nick of 6 to 12 bytes that nobody had.
    fn new_nick(&mut self) -> String {
        const LETTERS: &[u8] = b"abcdefghijklmnopqrstuvwxyzABCDEFGHIJKLMNOPQRSTUVWXYZ[]\\^_";
        self.made += 1;
        let mut nick = String::new();
        for _ in 0..2 + self.dice.below(7) {
            nick.push(LETTERS[self.dice.below(LETTERS.len())] as char);
        }
        nick.push_str(&format!("{:04x}", self.made));
        nick
    }

    /// A JOIN of somebody who is not there yet.
    fn join(&mut self, room: usize, joining: usize) -> String {
        if self.rooms[room].contains(&joining) {
            return String::new();
        }
        self.rooms[room].push(joining);
        self.members += 1;
        let nick = &self.nicks[joining];
        format!(":{nick}!user@host.example JOIN #channel{room} {nick} :A Person\r\n")
    }

    /// Lines of this kind: one, or for a QUIT also the JOINs of the one who comes again. Where too
    /// few are there somebody joins in place of a PART, and where too many are somebody parts.
    fn lines(&mut self, kind: u8) -> String {
        let kind = match kind {
            b'j' | b'p' if self.members < self.target => b'j',
            b'j' | b'p' => b'p',
            other => other,
        };
        let room = self.dice.below(self.rooms.len());
        let place = self.dice.below(self.rooms[room].len().max(1));
        let person = match self.rooms[room].get(place) {
            Some(person) => *person,
            None => return String::new(),
        };
        let nick = self.nicks[person].clone();
        match kind {
            b'j' => {
                let joining = self.dice.below(self.nicks.len());
                self.join(room, joining)
            }
            b'p' => {
                self.rooms[room].swap_remove(place);
                self.members -= 1;
                format!(":{nick}!user@host.example PART #channel{room} :bye\r\n")
            }
            b'q' => {
                let mut left = Vec::new();
                for (room, members) in self.rooms.iter_mut().enumerate() {
                    if let Some(place) = members.iter().position(|member| *member == person) {
                        members.swap_remove(place);
                        left.push(room);
                    }
                }
                self.members -= left.len();
                self.nicks[person] = self.new_nick();
                let mut text = format!(":{nick}!user@host.example QUIT :Connection reset\r\n");
                for room in left {
                    text.push_str(&self.join(room, person));
                }
                text
            }
            b'n' => {
                self.nicks[person] = self.new_nick();
                let new = &self.nicks[person];
                format!(":{nick}!user@host.example NICK {new}\r\n")
            }
            b'm' => {
                let sign = if self.dice.below(2) == 0 { '+' } else { '-' };
                let letter = if self.dice.below(2) == 0 { 'o' } else { 'v' };
                format!(":s MODE #channel{room} {sign}{letter} {nick}\r\n")
            }
            _ => format!(":{nick}!user@host.example PRIVMSG #channel{room} :what was said there\r\n"),
        }
    }
}

fn main() {
    let words: Vec<String> = std::env::args().skip(1).collect();
    let number = |i: usize| words[i].parse::<usize>().unwrap();
    let (channels, members, persons, count) = (number(0), number(1), number(2), number(3));
    let kinds = words.get(4).map_or("jpqnmt", |kinds| kinds).as_bytes();
    let mut network = Network {
        dice: Dice(0x9e37_79b9_7f4a_7c15),
        nicks: Vec::new(),
        rooms: vec![Vec::new(); channels],
        made: 0,
        members: channels * members,
        target: channels * members,
    };
    for _ in 0..persons {
        let nick = network.new_nick();
        network.nicks.push(nick);
    }
    let mut out = std::io::BufWriter::new(std::io::stdout().lock());
    write!(out, ":s 001 Me :hi\r\n:s 005 Me PREFIX=(ov)@+ CHANTYPES=# :are supported\r\n").unwrap();
    write!(out, ":s 376 Me :end\r\n").unwrap();
    for room in 0..channels {
        write!(out, ":Me!m@h JOIN #channel{room}\r\n").unwrap();
        // of each channel other persons, evenly spread
        let step = network.dice.below(persons);
        for i in 0..members {
            network.rooms[room].push((step + i * (persons / members).max(1)) % persons);
        }
        for chunk in network.rooms[room].clone().chunks(12) {
            write!(out, ":s 353 Me = #channel{room} :").unwrap();
            for member in chunk {
                let symbol = ["", "", "", "@", "+", "@+"][network.dice.below(6)];
                write!(out, "{symbol}{} ", network.nicks[*member]).unwrap();
            }
            write!(out, "\r\n").unwrap();
        }
        write!(out, ":s 366 Me #channel{room} :end\r\n").unwrap();
    }
    let mut written = 0;
    while written < count {
        let kind = kinds[network.dice.below(kinds.len())];
        let lines = network.lines(kind);
        written += lines.matches('\n').count();
        out.write_all(lines.as_bytes()).unwrap();
    }
}
