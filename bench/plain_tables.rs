//! Saved tables, in version 2, in plain safe Rust: what `ckrt_bench_probe save` is measured against. The word's meaning, the tables and the work
//! are the same: all room is taken first, each row is read and goes onto its table where that may go on so, the whole is
//! tested, written again and compared. Tables are arrays, that of mutexes keeps those that became free until the room is
//! needed, objects are found by halving, and whether a thread waits is looked up.
use std::collections::VecDeque;
use std::env;
use std::time::Instant;

const PLACES: usize = 65;
const MOMENT_END: u64 = 1 << 63;
const INPUT_LIMIT: usize = 4_096;
const HELD_LIMIT: usize = 16_384;
const TABLES_ROOM: usize = 98_304;
const ENDED: u8 = 64;
const KEYS: usize = 32;
const ROUNDS: u8 = 4;

#[derive(Clone, Copy)]
struct Few<T: Copy, const N: usize> {
    items: [T; N],
    count: usize,
}

impl<T: Copy, const N: usize> Few<T, N> {
    fn new(blank: T) -> Self {
        Few { items: [blank; N], count: 0 }
    }

    fn push(&mut self, item: T) -> bool {
        if self.count == N {
            return false;
        }
        self.items[self.count] = item;
        self.count += 1;
        true
    }

    fn all(&self) -> &[T] {
        &self.items[..self.count]
    }
}

#[derive(Clone, Copy, PartialEq)]
struct Handler {
    routine: u32,
    argument: u32,
}

#[derive(Clone, Copy)]
struct Values {
    values: [u32; KEYS],
    round: u8,
    next_key: u8,
}

#[derive(Clone, Copy)]
struct Live {
    pc: u32,
    registers: [u32; 32],
    is_initial: bool,
    is_detached: bool,
    is_enabled: bool,
    is_asynchronous: bool,
    is_requested: bool,
    unwinding: Option<u32>,
    handlers: Few<Handler, 16>,
    specific: Values,
}

#[derive(Clone, Copy)]
enum Thread {
    Live(Live),
    Ended(u32),
}

#[derive(Clone, Copy, PartialEq)]
enum Retake {
    Done,
    TimedOut,
    Unwind,
}

#[derive(Clone, Copy, PartialEq)]
enum Reason {
    Join(u8),
    Lock(u32),
    Retake(u32, Retake),
    Condition(u32, u32),
    Barrier(u32),
    Read(u32),
    Write(u32),
    Input,
    Sleep,
}

#[derive(Clone, Copy)]
struct Wait {
    thread: u8,
    reason: Reason,
    deadline: Option<u64>,
}

struct Keys {
    is_on: bool,
    destructors: [Option<u32>; KEYS],
}

struct Threads {
    slots: Vec<Option<Thread>>,
    waits: Few<Wait, 64>,
    is_waiting: [bool; 256],
    harts: [Option<u8>; 8],
    hart_count: usize,
    keys: Keys,
}

#[derive(Clone, Copy)]
struct Entry<T> {
    address: u32,
    value: T,
}

#[derive(Clone, Copy, PartialEq)]
enum Kind {
    Normal,
    Recursive,
    ErrorChecking,
}

#[derive(Clone, Copy)]
struct Mutex {
    kind: Kind,
    owner: Option<u8>,
    count: u32,
}

#[derive(Clone, Copy)]
struct RwLock {
    writer: Option<u8>,
    readers: [u16; PLACES],
}

#[derive(Clone, Copy)]
enum Status {
    Running,
    Exited(u32),
    Faulted(u8, u32, u8),
}

struct Tables {
    threads: Threads,
    mutexes: Few<Entry<Mutex>, 256>,
    barriers: Few<Entry<u32>, 64>,
    rwlocks: Few<Entry<RwLock>, 64>,
    clock: u64,
    input: VecDeque<u8>,
    is_closed: bool,
    status: Status,
}

const FREE: Mutex = Mutex { kind: Kind::Normal, owner: None, count: 0 };
const UNHELD: RwLock = RwLock { writer: None, readers: [0; PLACES] };

impl Tables {
    fn new(harts: usize) -> Self {
        let blank = Wait { thread: 0, reason: Reason::Sleep, deadline: None };
        Tables {
            threads: Threads {
                slots: vec![None; PLACES],
                waits: Few::new(blank),
                is_waiting: [false; 256],
                harts: [None; 8],
                hart_count: harts,
                keys: Keys { is_on: true, destructors: [Some(0); KEYS] },
            },
            mutexes: Few::new(Entry { address: 0, value: FREE }),
            barriers: Few::new(Entry { address: 0, value: 0 }),
            rwlocks: Few::new(Entry { address: 0, value: UNHELD }),
            clock: 0,
            input: VecDeque::with_capacity(INPUT_LIMIT),
            is_closed: false,
            status: Status::Running,
        }
    }
}

// OBJECTS BY ADDRESS

fn find<T: Copy>(entries: &[Entry<T>], address: u32) -> Option<T> {
    let place = entries.binary_search_by_key(&address, |entry| entry.address).ok()?;
    Some(entries[place].value)
}

fn append<T: Copy, const N: usize>(table: &mut Few<Entry<T>, N>, entry: Entry<T>) -> bool {
    let is_next = table.all().last().is_none_or(|last| last.address < entry.address);
    is_next && table.push(entry)
}

fn is_thread_or_none(thread: Option<u8>) -> bool {
    thread.is_none_or(|thread| (1..=64).contains(&thread))
}

impl Mutex {
    fn is_plain(&self) -> bool {
        self.kind == Kind::Normal && self.owner.is_none()
    }

    fn is_possible(&self) -> bool {
        let most = if self.kind == Kind::Recursive { 65_535 } else { 1 };
        is_thread_or_none(self.owner) && if self.owner.is_some() { (1..=most).contains(&self.count) } else { self.count == 0 }
    }

    fn may_be_named_by(&self, wait: &Wait) -> bool {
        let is_own = self.owner == Some(wait.thread);
        match wait.reason {
            Reason::Lock(_) => self.owner.is_some() && (!is_own || self.kind == Kind::Normal),
            Reason::Retake(..) => self.owner.is_some() && !is_own,
            Reason::Condition(..) => !is_own || (self.kind == Kind::Recursive && self.count < 65_535),
            _ => true,
        }
    }
}

impl RwLock {
    fn is_read(&self) -> bool {
        self.readers.iter().any(|count| *count > 0)
    }

    fn is_possible(&self) -> bool {
        let is_held = self.writer.is_some() != self.is_read();
        is_held && is_thread_or_none(self.writer) && self.readers[0] == 0
    }

    fn admits(&self, reason: Reason) -> bool {
        match reason {
            Reason::Read(_) => self.writer.is_none(),
            Reason::Write(_) => self.writer.is_none() && !self.is_read(),
            _ => false,
        }
    }

    fn is_held_by(&self, thread: u8) -> bool {
        self.writer == Some(thread) || self.readers.get(usize::from(thread)).is_some_and(|count| *count > 0)
    }
}

fn append_mutex(table: &mut Few<Entry<Mutex>, 256>, entry: Entry<Mutex>) -> bool {
    if entry.value.is_plain() || !entry.value.is_possible() {
        return false;
    }
    if append(table, entry) {
        return true;
    }
    let mut left = Few::new(Entry { address: 0, value: FREE });
    for entry in table.all().iter().filter(|entry| !entry.value.is_plain()) {
        left.push(*entry);
    }
    let is_appended = append(&mut left, entry);
    if is_appended {
        *table = left;
    }
    is_appended
}

fn mutex_named(reason: Reason) -> Option<u32> {
    match reason {
        Reason::Lock(address) | Reason::Retake(address, _) | Reason::Condition(_, address) => Some(address),
        _ => None,
    }
}

fn rwlock_named(reason: Reason) -> Option<u32> {
    match reason {
        Reason::Read(address) | Reason::Write(address) => Some(address),
        _ => None,
    }
}

// How many objects have an entry or are named by a wait, where that is more than the limit; no wait is looked at where the
// entries are too few for that.
fn are_too_many<T: Copy>(waits: &[Wait], entries: &[Entry<T>], limit: usize, named: fn(Reason) -> Option<u32>) -> bool {
    let mut count = entries.len();
    for (place, wait) in waits.iter().enumerate() {
        if count + (waits.len() - place) <= limit {
            return false;
        }
        let Some(address) = named(wait.reason) else { continue };
        let is_named_later = waits[place + 1..].iter().any(|later| named(later.reason) == Some(address));
        if find(entries, address).is_none() && !is_named_later {
            count += 1;
        }
    }
    limit < count
}

// THREADS

impl Threads {
    fn live(&self, thread: u8) -> Option<&Live> {
        match self.slots.get(usize::from(thread)) {
            Some(Some(Thread::Live(live))) => Some(live),
            _ => None,
        }
    }

    fn is_ready(&self, thread: u8) -> bool {
        !self.is_waiting[usize::from(thread)] && self.live(thread).is_some() && !self.harts.contains(&Some(thread))
    }

    fn append_thread(&mut self, id: u8, thread: Thread) -> bool {
        let place = usize::from(id);
        if place == 0 || place >= PLACES || self.slots[place..].iter().any(Option::is_some) {
            return false;
        }
        if let Thread::Live(live) = &thread {
            let is_initial = |slot: &Option<Thread>| matches!(slot, Some(Thread::Live(live)) if live.is_initial);
            let unwinds_rightly = live.unwinding.is_none() || (!live.is_enabled && !live.is_asynchronous);
            let is_aligned = live.pc % 4 == 0 && live.handlers.all().iter().all(|handler| handler.routine % 4 == 0);
            let values = &live.specific;
            let is_in_round = if values.round == 0 { values.next_key == 0 } else { live.unwinding.is_some() };
            let is_round = is_in_round && values.round <= ROUNDS && usize::from(values.next_key) <= KEYS;
            if !is_aligned || !unwinds_rightly || !is_round || (live.is_initial && self.slots.iter().any(is_initial)) {
                return false;
            }
        }
        self.slots[place] = Some(thread);
        true
    }

    fn may_wait(&self, wait: &Wait) -> bool {
        let is_possible = match wait.reason {
            Reason::Join(target) => {
                let is_joined = self.waits.all().iter().any(|wait| wait.reason == Reason::Join(target));
                wait.thread != target && self.live(target).is_some_and(|live| !live.is_detached) && !is_joined
            }
            Reason::Retake(_, Retake::Unwind) => self.live(wait.thread).is_some_and(|live| live.unwinding.is_some()),
            _ => true,
        };
        let is_timed = match wait.reason {
            Reason::Lock(_) | Reason::Condition(..) => wait.deadline.is_none_or(|moment| moment < MOMENT_END),
            Reason::Sleep => wait.deadline.is_some_and(|moment| moment < MOMENT_END),
            _ => wait.deadline.is_none(),
        };
        is_possible && is_timed
    }

    fn set_keys(&mut self, keys: Keys) {
        let is_of_keys = |values: &Values| values.values.iter().zip(&keys.destructors).all(|(value, key)| *value == 0 || key.is_some());
        let is_proper = |slot: &Thread| match slot {
            Thread::Live(live) => is_of_keys(&live.specific),
            Thread::Ended(_) => true,
        };
        if self.slots.iter().flatten().all(is_proper) {
            self.keys = keys;
        }
    }

    fn append_wait(&mut self, wait: Wait) -> bool {
        if !self.is_ready(wait.thread) || !self.may_wait(&wait) {
            return false;
        }
        self.is_waiting[usize::from(wait.thread)] = true;
        self.waits.push(wait)
    }

    fn append_on_hart(&mut self, hart: usize, thread: u8) {
        if hart < self.hart_count && self.harts[hart].is_none() && self.is_ready(thread) {
            self.harts[hart] = Some(thread);
        }
    }
}

// THE TEST OF THE WHOLE

fn are_mutexes_well_formed(tables: &Tables) -> bool {
    let waits = tables.threads.waits.all();
    !are_too_many(waits, tables.mutexes.all(), 256, mutex_named)
        && waits.iter().all(|wait| match mutex_named(wait.reason) {
            Some(address) => find(tables.mutexes.all(), address).unwrap_or(FREE).may_be_named_by(wait),
            None => true,
        })
}

fn are_conditions_well_formed(waits: &[Wait]) -> bool {
    waits.iter().all(|wait| match wait.reason {
        Reason::Condition(condition, mutex) => !waits.iter().any(|other| matches!(other.reason, Reason::Condition(c, m) if c == condition && m != mutex)),
        _ => true,
    })
}

fn are_barriers_well_formed(tables: &Tables) -> bool {
    let waits = tables.threads.waits.all();
    let count_at = |address| waits.iter().filter(|wait| wait.reason == Reason::Barrier(address)).count();
    tables.barriers.all().iter().all(|entry| count_at(entry.address) < entry.value as usize)
        && waits.iter().all(|wait| match wait.reason {
            Reason::Barrier(address) => find(tables.barriers.all(), address).is_some(),
            _ => true,
        })
}

fn are_rwlocks_well_formed(tables: &Tables) -> bool {
    let waits = tables.threads.waits.all();
    !are_too_many(waits, tables.rwlocks.all(), 64, rwlock_named)
        && waits.iter().all(|wait| match rwlock_named(wait.reason) {
            Some(address) => {
                let lock = find(tables.rwlocks.all(), address).unwrap_or(UNHELD);
                let first = waits.iter().find(|wait| rwlock_named(wait.reason) == Some(address));
                !lock.is_held_by(wait.thread) && !first.is_some_and(|first| lock.admits(first.reason))
            }
            None => true,
        })
}

fn is_well_formed(tables: &Tables) -> bool {
    let waits = tables.threads.waits.all();
    let has_input = tables.is_closed || !tables.input.is_empty();
    let is_status_possible = match tables.status {
        Status::Running => {
            tables.threads.slots.iter().any(|slot| matches!(slot, Some(Thread::Live(_))))
                && waits.iter().all(|wait| wait.deadline.is_none_or(|moment| tables.clock < moment))
        }
        Status::Exited(_) => true,
        Status::Faulted(thread, pc, _) => pc % 4 == 0 && tables.threads.live(thread).is_some(),
    };
    are_mutexes_well_formed(tables)
        && are_conditions_well_formed(waits)
        && are_barriers_well_formed(tables)
        && are_rwlocks_well_formed(tables)
        && tables.clock < MOMENT_END
        && !(has_input && waits.iter().any(|wait| wait.reason == Reason::Input))
        && is_status_possible
}

// READING: where too few bytes are left for a number it is 0.

struct Cursor<'a> {
    rest: &'a [u8],
}

impl<'a> Cursor<'a> {
    fn array<const N: usize>(&mut self) -> [u8; N] {
        match self.rest.split_first_chunk::<N>() {
            Some((front, rest)) => {
                self.rest = rest;
                *front
            }
            None => [0; N],
        }
    }

    fn byte(&mut self) -> u8 {
        self.array::<1>()[0]
    }

    fn half(&mut self) -> u16 {
        u16::from_le_bytes(self.array())
    }

    fn word(&mut self) -> u32 {
        u32::from_le_bytes(self.array())
    }

    fn long(&mut self) -> u64 {
        u64::from_le_bytes(self.array())
    }

    fn id(&mut self) -> Option<u8> {
        Some(self.byte()).filter(|id| *id != 0)
    }

    fn queue(&mut self, limit: usize) -> &'a [u8] {
        let count = usize::from(self.half());
        if count > limit || count > self.rest.len() {
            return &[];
        }
        let (front, rest) = self.rest.split_at(count);
        self.rest = rest;
        front
    }
}

/// Keys with their words; what has no place is left out.
fn read_key_words(cursor: &mut Cursor, count: u8, mut take: impl FnMut(usize, u32)) {
    for _ in 0..count {
        let (key, word) = (cursor.word() as usize, cursor.word());
        if key < KEYS {
            take(key, word);
        }
    }
}

fn read_values(cursor: &mut Cursor) -> Values {
    let [round, next_key, count, _] = cursor.array();
    let mut values = [0; KEYS];
    read_key_words(cursor, count, |key, value| values[key] = value);
    Values { values, round, next_key }
}

fn read_keys(cursor: &mut Cursor) -> Keys {
    let (is_on, count) = (cursor.byte() == 1, cursor.byte());
    let mut destructors = [None; KEYS];
    read_key_words(cursor, count, |key, destructor| destructors[key] = Some(destructor));
    let is_aligned = destructors.iter().flatten().all(|destructor| destructor % 4 == 0);
    if !is_aligned || (!is_on && destructors.iter().any(Option::is_some)) {
        return Keys { is_on: true, destructors: [None; KEYS] };
    }
    Keys { is_on, destructors }
}

fn read_thread(cursor: &mut Cursor) -> (u8, Thread) {
    let [id, flags, count, _] = cursor.array();
    let value = cursor.word();
    let pc = cursor.word();
    let mut registers = [0; 32];
    for register in &mut registers[1..] {
        *register = cursor.word();
    }
    let mut handlers = Few::new(Handler { routine: 0, argument: 0 });
    for _ in 0..count {
        handlers.push(Handler { routine: cursor.word(), argument: cursor.word() });
    }
    let specific = read_values(cursor);
    if flags == ENDED {
        return (id, Thread::Ended(value));
    }
    let is = |flag: u8| flags & flag != 0;
    let unwinding = is(32).then_some(value);
    let live = Live {
        pc,
        registers,
        is_initial: is(1),
        is_detached: is(2),
        is_enabled: !is(4),
        is_asynchronous: is(8),
        is_requested: is(16),
        unwinding,
        handlers,
        specific,
    };
    (id, Thread::Live(live))
}

fn read_wait(cursor: &mut Cursor) -> Wait {
    let [thread, kind, result, is_timed] = cursor.array();
    let (first, second, moment) = (cursor.word(), cursor.word(), cursor.long());
    let outcome = match result {
        0 => Retake::Done,
        110 => Retake::TimedOut,
        _ => Retake::Unwind,
    };
    let reason = match kind {
        1 => Reason::Join(first as u8),
        2 => Reason::Lock(first),
        3 => Reason::Retake(first, outcome),
        4 => Reason::Condition(first, second),
        5 => Reason::Barrier(first),
        6 => Reason::Read(first),
        7 => Reason::Write(first),
        8 => Reason::Input,
        _ => Reason::Sleep,
    };
    Wait { thread, reason, deadline: (is_timed == 1).then_some(moment) }
}

fn read_threads(cursor: &mut Cursor, threads: &mut Threads) {
    let harts: [u8; 8] = cursor.array();
    for _ in 0..cursor.byte() {
        let (id, thread) = read_thread(cursor);
        threads.append_thread(id, thread);
    }
    for _ in 0..cursor.byte() {
        let wait = read_wait(cursor);
        threads.append_wait(wait);
    }
    for (hart, thread) in harts.iter().enumerate().filter(|(_, thread)| **thread != 0) {
        threads.append_on_hart(hart, *thread);
    }
}

fn read_objects(cursor: &mut Cursor, tables: &mut Tables) {
    for _ in 0..cursor.half() {
        let address = cursor.word();
        let kind = match cursor.byte() {
            1 => Kind::Recursive,
            2 => Kind::ErrorChecking,
            _ => Kind::Normal,
        };
        let (owner, count) = (cursor.id(), u32::from(cursor.half()));
        append_mutex(&mut tables.mutexes, Entry { address, value: Mutex { kind, owner, count } });
    }
    for _ in 0..cursor.byte() {
        let entry = Entry { address: cursor.word(), value: cursor.word() };
        let _ = entry.value > 0 && append(&mut tables.barriers, entry);
    }
    for _ in 0..cursor.byte() {
        let (address, writer) = (cursor.word(), cursor.id());
        let mut readers = [0; PLACES];
        for _ in 0..cursor.byte() {
            let (id, count) = (cursor.byte(), cursor.half());
            if let Some(reader) = readers.get_mut(usize::from(id)) {
                *reader = count;
            }
        }
        let lock = RwLock { writer, readers };
        let _ = lock.is_possible() && append(&mut tables.rwlocks, Entry { address, value: lock });
    }
}

fn read_status(cursor: &mut Cursor) -> Status {
    let [kind, thread, cause] = cursor.array();
    let word = cursor.word();
    match kind {
        0 => Status::Running,
        1 => Status::Exited(word),
        _ => Status::Faulted(thread, word, cause.clamp(1, 9)),
    }
}

fn decode(bytes: &[u8], harts: usize) -> Option<(Tables, VecDeque<u8>)> {
    let mut tables = Tables::new(harts);
    let mut held = VecDeque::with_capacity(HELD_LIMIT);
    let mut cursor = Cursor { rest: bytes };
    tables.clock = cursor.long();
    tables.is_closed = cursor.byte() == 1;
    tables.status = read_status(&mut cursor);
    read_threads(&mut cursor, &mut tables.threads);
    read_objects(&mut cursor, &mut tables);
    tables.threads.set_keys(read_keys(&mut cursor));
    tables.input.extend(cursor.queue(INPUT_LIMIT));
    held.extend(cursor.queue(HELD_LIMIT));
    if !is_well_formed(&tables) {
        return None;
    }
    let mut room = vec![0; TABLES_ROOM];
    let length = encode(&tables, &held, &mut room);
    (bytes == &room[..length]).then_some((tables, held))
}

// WRITING

struct Writer<'a> {
    out: &'a mut [u8],
    end: usize,
}

impl Writer<'_> {
    fn put(&mut self, bytes: &[u8]) {
        self.out[self.end..self.end + bytes.len()].copy_from_slice(bytes);
        self.end += bytes.len();
    }

    fn queue(&mut self, queue: &VecDeque<u8>) {
        let (first, second) = queue.as_slices();
        self.put(&(queue.len() as u16).to_le_bytes());
        self.put(first);
        self.put(second);
    }
}

fn put_thread(writer: &mut Writer, id: u8, thread: &Thread) {
    let live = match thread {
        Thread::Live(live) => live,
        Thread::Ended(value) => {
            writer.put(&[id, ENDED, 0, 0]);
            writer.put(&value.to_le_bytes());
            writer.put(&[0; 132]);
            return;
        }
    };
    let marks = [live.is_initial, live.is_detached, !live.is_enabled, live.is_asynchronous, live.is_requested, live.unwinding.is_some()];
    let flags = marks.iter().enumerate().map(|(bit, mark)| u8::from(*mark) << bit).sum();
    writer.put(&[id, flags, live.handlers.count as u8, 0]);
    writer.put(&live.unwinding.unwrap_or(0).to_le_bytes());
    writer.put(&live.pc.to_le_bytes());
    for register in &live.registers[1..] {
        writer.put(&register.to_le_bytes());
    }
    for handler in live.handlers.all() {
        writer.put(&handler.routine.to_le_bytes());
        writer.put(&handler.argument.to_le_bytes());
    }
    put_values(writer, &live.specific);
}

fn put_values(writer: &mut Writer, specific: &Values) {
    let values = specific.values.iter().enumerate().filter(|(_, value)| **value != 0);
    writer.put(&[specific.round, specific.next_key, values.clone().count() as u8, 0]);
    for (key, value) in values {
        writer.put(&(key as u32).to_le_bytes());
        writer.put(&value.to_le_bytes());
    }
}

fn put_keys(writer: &mut Writer, keys: &Keys) {
    writer.put(&[u8::from(keys.is_on), keys.destructors.iter().flatten().count() as u8]);
    for (key, destructor) in keys.destructors.iter().enumerate() {
        if let Some(destructor) = destructor {
            writer.put(&(key as u32).to_le_bytes());
            writer.put(&destructor.to_le_bytes());
        }
    }
}

fn put_wait(writer: &mut Writer, wait: &Wait) {
    let (kind, result, first, second) = match wait.reason {
        Reason::Join(target) => (1, 0, u32::from(target), 0),
        Reason::Lock(mutex) => (2, 0, mutex, 0),
        Reason::Retake(mutex, Retake::Done) => (3, 0, mutex, 0),
        Reason::Retake(mutex, Retake::TimedOut) => (3, 110, mutex, 0),
        Reason::Retake(mutex, Retake::Unwind) => (3, 255, mutex, 0),
        Reason::Condition(condition, mutex) => (4, 0, condition, mutex),
        Reason::Barrier(barrier) => (5, 0, barrier, 0),
        Reason::Read(lock) => (6, 0, lock, 0),
        Reason::Write(lock) => (7, 0, lock, 0),
        Reason::Input => (8, 0, 0, 0),
        Reason::Sleep => (9, 0, 0, 0),
    };
    writer.put(&[wait.thread, kind, result, u8::from(wait.deadline.is_some())]);
    writer.put(&first.to_le_bytes());
    writer.put(&second.to_le_bytes());
    writer.put(&wait.deadline.unwrap_or(0).to_le_bytes());
}

fn put_threads(writer: &mut Writer, threads: &Threads) {
    writer.put(&threads.harts.map(|thread| thread.unwrap_or(0)));
    writer.put(&[threads.slots.iter().flatten().count() as u8]);
    for (id, slot) in threads.slots.iter().enumerate() {
        if let Some(thread) = slot {
            put_thread(writer, id as u8, thread);
        }
    }
    writer.put(&[threads.waits.count as u8]);
    for wait in threads.waits.all() {
        put_wait(writer, wait);
    }
}

fn put_objects(writer: &mut Writer, tables: &Tables) {
    let mutexes = tables.mutexes.all().iter().filter(|entry| !entry.value.is_plain());
    writer.put(&(mutexes.clone().count() as u16).to_le_bytes());
    for entry in mutexes {
        writer.put(&entry.address.to_le_bytes());
        writer.put(&[entry.value.kind as u8, entry.value.owner.unwrap_or(0)]);
        writer.put(&(entry.value.count as u16).to_le_bytes());
    }
    writer.put(&[tables.barriers.count as u8]);
    for entry in tables.barriers.all() {
        writer.put(&entry.address.to_le_bytes());
        writer.put(&entry.value.to_le_bytes());
    }
    writer.put(&[tables.rwlocks.count as u8]);
    for entry in tables.rwlocks.all() {
        let readers = entry.value.readers.iter().enumerate().filter(|(_, count)| **count > 0);
        writer.put(&entry.address.to_le_bytes());
        writer.put(&[entry.value.writer.unwrap_or(0), readers.clone().count() as u8]);
        for (id, count) in readers {
            writer.put(&[id as u8]);
            writer.put(&count.to_le_bytes());
        }
    }
}

fn encode(tables: &Tables, held: &VecDeque<u8>, out: &mut [u8]) -> usize {
    let mut writer = Writer { out, end: 0 };
    writer.put(&tables.clock.to_le_bytes());
    writer.put(&[u8::from(tables.is_closed)]);
    let (kind, thread, cause, word) = match tables.status {
        Status::Running => (0, 0, 0, 0),
        Status::Exited(code) => (1, 0, 0, code),
        Status::Faulted(thread, pc, cause) => (2, thread, cause, pc),
    };
    writer.put(&[kind, thread, cause]);
    writer.put(&word.to_le_bytes());
    put_threads(&mut writer, &tables.threads);
    put_objects(&mut writer, tables);
    put_keys(&mut writer, &tables.threads.keys);
    writer.queue(&tables.input);
    writer.queue(held);
    writer.end
}

fn time_both(bytes: &[u8], harts: usize, room: &mut [u8]) {
    let start = Instant::now();
    let decoded = decode(bytes, harts);
    let decoding = start.elapsed().as_nanos();
    let (tables, held) = decoded.expect("saved tables");
    let start = Instant::now();
    let length = encode(&tables, &held, room);
    let encoding = start.elapsed().as_nanos();
    assert_eq!(&room[..length], bytes);
    eprintln!("decoding {decoding} encoding {encoding}");
}

fn main() -> std::io::Result<()> {
    let words: Vec<String> = env::args().skip(1).collect();
    let [verb, path, harts, count] = &words[..] else { panic!("save FILE HARTS COUNT") };
    assert_eq!(verb, "save");
    let bytes = std::fs::read(path)?;
    let mut room = vec![0; TABLES_ROOM];
    for _ in 0..count.parse().expect("COUNT") {
        time_both(&bytes, harts.parse().expect("HARTS"), &mut room);
    }
    Ok(())
}
