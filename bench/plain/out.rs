//! What a move sends out: lines, letters, and clients that can go on.
use crate::letter::{Ask, Letter, NONE};
use crate::modes::{self, Mode, each};
use crate::script::{MODES, Script};
use crate::text::{Text, Word};

const MOVE: Word = Word::new(b"move");
const ACT: Word = Word::new(b"act");
const TAKE: Word = Word::new(b"take");
pub const GRANT: Word = Word::new(b"grant");
pub const WAIT: Word = Word::new(b"wait");
pub const UNLOCK: Word = Word::new(b"unlock");
const NOT_HELD: Word = Word::new(b"not_held");
const CHANGE: Word = Word::new(b"change");
pub const HELD: Word = Word::new(b"held");
pub const WAITING: Word = Word::new(b"waiting");
const TRY: Word = Word::new(b"try");
const TRUTH: [Word; 2] = [Word::new(b"false"), Word::new(b"true")];
const DROP: Word = Word::new(b"drop");
const BUSY: Word = Word::new(b"busy");
const COPY: Word = Word::new(b"copy");
const FREEZE: Word = Word::new(b"freeze");
const NO_MODES: Word = Word::new(b"none");
const TOKEN: Word = Word::new(b"token");
pub const OWNER: Word = Word::new(b"owner");
pub const END: Word = Word::new(b"end");

/// The words of a script.
pub struct Words {
    sets: Vec<Word>,
    clients: Vec<Word>,
    modes: [Word; modes::COUNT],
    // The modes that lines may name.
    shown: u8,
}

impl Words {
    pub fn new(script: &Script) -> Words {
        Words {
            sets: script.sets.iter().map(|set| Word::new(set.name)).collect(),
            clients: script.clients.iter().map(|client| Word::new(client.name)).collect(),
            modes: MODES.map(Word::new),
            shown: if script.version == 1 { 0b10_1111 } else { 0b11_1111 },
        }
    }
}

/// What a client is told of a command. Nothing looks into what was polled.
#[allow(dead_code)]
#[derive(Clone, Copy)]
pub enum Reply {
    Granted,
    Tried(bool),
    Unlocked,
    NotHeld,
    Changed,
    Dropped(u32),
    Busy,
}

/// What letters are sent by, and replies.
pub trait Post {
    fn send(&mut self, to: u8, letter: Letter);

    /// A client is told of its command, where somebody hears it.
    fn reply(&mut self, _client: u16, _reply: Reply) {}
}

pub struct Out<'a, P> {
    pub words: &'a Words,
    pub text: Text,
    pub post: P,
    /// The clients that a move answered.
    pub answered: Vec<u8>,
}

impl<P: Post> Out<'_, P> {
    pub fn act_line(&mut self, clock: u32, node: u8, client: u16) {
        self.move_words(clock, node, &ACT);
        self.client(client);
        self.text.end_line();
    }

    pub fn take_line(&mut self, clock: u32, node: u8, from: u8) {
        self.move_words(clock, node, &TAKE);
        self.text.number(u32::from(from));
        self.text.end_line();
    }

    fn move_words(&mut self, clock: u32, node: u8, word: &Word) {
        self.text.word(&MOVE);
        self.text.number(clock);
        self.text.number(u32::from(node));
        self.text.word(word);
    }

    fn client(&mut self, client: u16) {
        self.text.word(&self.words.clients[usize::from(client)]);
    }

    fn set(&mut self, set: u8) {
        self.text.word(&self.words.sets[usize::from(set)]);
    }

    fn mode(&mut self, mode: Mode) {
        self.text.word(&self.words.modes[usize::from(mode)]);
    }

    pub fn lock_words(&mut self, word: &Word, client: u16, set: u8, mode: Mode) {
        self.text.word(word);
        self.client(client);
        self.set(set);
        self.mode(mode);
    }

    pub fn lock_line(&mut self, word: &Word, client: u16, set: u8, mode: Mode) {
        self.lock_words(word, client, set, mode);
        self.text.end_line();
    }

    pub fn not_held_line(&mut self, client: u16, set: u8, mode: Mode) {
        self.lock_line(&NOT_HELD, client, set, mode);
        self.post.reply(client, Reply::NotHeld);
    }

    pub fn change_line(&mut self, client: u16, set: u8, from: Mode, to: Mode) {
        self.lock_words(&CHANGE, client, set, from);
        self.mode(to);
        self.text.end_line();
        self.post.reply(client, Reply::Changed);
    }

    pub fn answer_line(&mut self, ask: &Ask, set: u8) {
        match ask.gives_up {
            NONE => {
                self.lock_line(&GRANT, ask.client, set, ask.mode);
                self.post.reply(ask.client, Reply::Granted);
            }
            from => self.change_line(ask.client, set, from, ask.mode),
        }
    }

    pub fn try_line(&mut self, client: u16, set: u8, mode: Mode, got: bool) {
        self.lock_words(&TRY, client, set, mode);
        self.text.word(&TRUTH[usize::from(got)]);
        self.text.end_line();
        self.post.reply(client, Reply::Tried(got));
    }

    fn clients_line(&mut self, word: &Word, client: u16, other: u16, set: u8) {
        self.text.word(word);
        self.client(client);
        self.client(other);
        self.set(set);
    }

    pub fn drop_line(&mut self, client: u16, other: u16, set: u8, count: u32) {
        self.clients_line(&DROP, client, other, set);
        self.text.number(count);
        self.text.end_line();
        self.post.reply(client, Reply::Dropped(count));
    }

    pub fn busy_line(&mut self, client: u16, other: u16, set: u8) {
        self.clients_line(&BUSY, client, other, set);
        self.text.end_line();
        self.post.reply(client, Reply::Busy);
    }

    pub fn copy_line(&mut self, set: u8, ask: &Ask) {
        self.notice(&COPY, set, ask.node);
        self.client(ask.client);
        self.mode(ask.mode);
        self.text.end_line();
    }

    pub fn freeze_line(&mut self, set: u8, to: u8, number: u32, modes: u8) {
        self.notice(&FREEZE, set, to);
        self.text.number(number);
        each(modes & self.words.shown, |mode| self.text.word(&self.words.modes[usize::from(mode)]));
        if modes == 0 {
            self.text.word(&NO_MODES);
        }
        self.text.end_line();
    }

    pub fn token_line(&mut self, set: u8, to: u8, epoch: u32) {
        self.epoch_line(&TOKEN, set, to, epoch);
    }

    pub fn epoch_line(&mut self, word: &Word, set: u8, to: u8, epoch: u32) {
        self.notice(word, set, to);
        self.text.number(epoch);
        self.text.end_line();
    }

    fn notice(&mut self, word: &Word, set: u8, to: u8) {
        self.text.word(word);
        self.set(set);
        self.text.number(u32::from(to));
    }
}
