//! A state that owns its buffers, with room to spare behind the N entries, for short tests.

use crate::checks::Refusal;
use crate::plot::{Head, Map, Scratch};
use crate::search::{Outcome, Planned};
use crate::{ground, record, route, search};

/// Every buffer is this much longer than N and holds these values there.
const SPARE: usize = 3;
const BYTE: u8 = 0xA5;
const WORD: u16 = 0xA5A5;

pub struct State {
    pub head: Head,
    pub ground: Vec<u8>,
    pub learned: Vec<u16>,
    pub link: Vec<u8>,
    pub mark: Vec<u8>,
    pub cost: Vec<u16>,
    pub trail: Vec<u8>,
}

impl State {
    pub fn with_room(entries: usize) -> State {
        let (bytes, words) = (vec![BYTE; entries], vec![WORD; entries]);
        State {
            head: Head::default(),
            ground: bytes.clone(),
            learned: words.clone(),
            link: bytes.clone(),
            mark: bytes.clone(),
            cost: words,
            trail: bytes,
        }
    }

    pub fn new(width: usize, height: usize, start: usize, goal: usize) -> State {
        let mut state = State::with_room(width * height + SPARE);
        state.head = ground::layout(width, height, start, goal, &mut state.map()).unwrap();
        state
    }

    pub fn n(&self) -> usize {
        self.head.cells()
    }

    pub fn map(&mut self) -> Map<'_> {
        Map { ground: &mut self.ground, learned: &mut self.learned, link: &mut self.link }
    }

    pub fn report(&mut self, cell: usize) -> Result<(), Refusal> {
        ground::report(self.head, &mut self.map(), cell)
    }

    pub fn plan(&mut self) -> Result<Planned, Refusal> {
        let mut map = Map { ground: &mut self.ground, learned: &mut self.learned, link: &mut self.link };
        let mut scratch = Scratch { mark: &mut self.mark, cost: &mut self.cost, trail: &mut self.trail };
        search::plan(self.head, &mut map, &mut scratch)
    }

    pub fn advance(&mut self) -> Result<usize, Refusal> {
        self.head = route::advance(self.head, &mut self.map())?;
        Ok(self.head.cell)
    }

    pub fn list(&mut self, room: usize) -> Result<Vec<u16>, Refusal> {
        let mut list = vec![WORD; room];
        let head = self.head;
        let asked = route::question(head, &self.map(), room);
        let answer = route::list(head, &self.map(), &mut list);
        assert_eq!(asked, answer.err().unwrap_or(0));
        let written = answer.unwrap_or(0);
        assert!(list[written..].iter().all(|&entry| entry == WORD));
        answer.map(|count| list[..count].to_vec())
    }

    pub fn save(&mut self) -> Result<Vec<u8>, Refusal> {
        let mut bytes = vec![BYTE; record::record_length(self.n())];
        let length = record::save(self.head, &self.map(), &mut bytes)?;
        assert_eq!(length, bytes.len());
        Ok(bytes)
    }

    pub fn load(&mut self, bytes: &[u8]) -> Result<Head, Refusal> {
        self.head = record::load(bytes, &mut self.map())?;
        Ok(self.head)
    }

    /// The entries beyond N are as they were before the first call.
    pub fn beyond_untouched(&self) -> bool {
        let n = self.n();
        let bytes = [&self.ground, &self.link, &self.mark, &self.trail];
        let words = [&self.learned, &self.cost];
        bytes.iter().all(|buffer| buffer[n..].iter().all(|&entry| entry == BYTE))
            && words.iter().all(|buffer| buffer[n..].iter().all(|&entry| entry == WORD))
    }
}

pub fn route(length: usize, expanded: usize) -> Result<Planned, Refusal> {
    Ok(Planned { outcome: Outcome::Route(length), expanded })
}

pub fn no_way(expanded: usize) -> Result<Planned, Refusal> {
    Ok(Planned { outcome: Outcome::NoWay, expanded })
}

pub const ARRIVED: Result<Planned, Refusal> = Ok(Planned { outcome: Outcome::Arrived, expanded: 0 });
