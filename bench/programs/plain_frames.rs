//! The program `time_frames` in plain Rust: frames of both versions are decoded and encoded by hand, as one would without proofs.
//!
//! Build it by `rustc -O -C target-cpu=x86-64-v2 plain_frames.rs`.

use std::io::{self, Read};

type Text = Vec<u8>;

type Table = Vec<(u8, u16)>;

enum Put {
    Keep,
    Absent,
    Value(Text),
}

struct Change {
    put: Put,
    table: Option<Table>,
}

struct ViewId {
    number: u64,
    site: u8,
}

struct TxnId {
    site: u8,
    life: u32,
    seq: u32,
}

enum Owner {
    Refresh,
    Txn(TxnId),
}

enum Obstacle {
    Held { owner: Owner },
    OtherView { now: Option<ViewId> },
    Barred { inside: u32, total: u32 },
}

enum Message {
    Invite { id: ViewId },
    Accept { id: ViewId },
    Stale { id: ViewId, promise: ViewId },
    ViewCommit { id: ViewId, members: Vec<u8> },
    ReadRequest { txn: TxnId, view: ViewId, number: u32, rec: u8 },
    ReadAnswer { txn: TxnId, number: u32, value: Option<Text> },
    WriteRequest { txn: TxnId, view: ViewId, number: u32, rec: u8 },
    WriteAnswer { txn: TxnId, number: u32 },
    Refuse { txn: TxnId, number: u32, why: Obstacle },
    Prepare { txn: TxnId, view: ViewId, number: u32, reads: Vec<u8>, writes: Vec<(u8, Change)> },
    Vote { txn: TxnId },
    Outcome { txn: TxnId, commit: bool },
    Ack { txn: TxnId },
    Inquire { txn: TxnId },
    RefreshRequest { view: ViewId, rec: u8 },
    RefreshAnswer { view: ViewId, rec: u8, value: Option<Text>, table: Option<Table>, date: ViewId },
    Probe { view: ViewId },
}

enum Call {
    Begin,
    Regroup,
    Read { txn: TxnId, number: u32, name: Text },
    Write { txn: TxnId, number: u32, name: Text, value: Text },
    Commit { txn: TxnId, number: u32 },
    Abort { txn: TxnId, number: u32 },
    Delete { txn: TxnId, number: u32, name: Text },
    Weigh { txn: TxnId, number: u32, name: Text, table: Table },
}

enum Answer {
    Begun { txn: TxnId, view: ViewId },
    Value { txn: TxnId, number: u32, value: Text },
    Written { txn: TxnId, number: u32 },
    Committed { txn: TxnId, number: u32 },
    Aborted { txn: TxnId, number: u32 },
    Inviting { view: ViewId },
    NoView { promise: ViewId },
    Unknown { txn: TxnId },
    Skipped { txn: TxnId, expected: u32 },
    Busy { txn: TxnId, number: u32 },
    NoRecord { txn: TxnId, number: u32 },
    TooManyOps { txn: TxnId, number: u32 },
    Inaccessible { txn: TxnId, number: u32, name: Text, inside: u32, total: u32 },
    LockHeld { txn: TxnId, number: u32, name: Text, at: u8, owner: Owner },
    ViewChanged { txn: TxnId, number: u32, at: u8, held: ViewId, now: Option<ViewId> },
    TimedOut { txn: TxnId, number: u32, at: u8 },
    Spent { number: u64 },
    TooManyLive,
    Absent { txn: TxnId, number: u32 },
    Deleted { txn: TxnId, number: u32 },
    Weighed { txn: TxnId, number: u32 },
    BadTable { txn: TxnId, number: u32 },
}

enum Body {
    Message(Message),
    Call(Call),
    Reply(Answer),
    Tick,
    ProbeNow,
    Stop,
}

struct Frame {
    version: u8,
    from: u8,
    to: u8,
    body: Body,
}

/// The length of the longest prefix that begins a frame.
struct BadFrame {
    at: usize,
}

type Taken<T> = Result<T, BadFrame>;

struct Reader<'a> {
    bytes: &'a [u8],
    at: usize,
    /// Whether the frame is of the second version.
    is_later: bool,
}

impl<'a> Reader<'a> {
    fn byte(&mut self, least: u8, most: u8) -> Taken<u8> {
        match self.bytes.get(self.at) {
            Some(&byte) if least <= byte && byte <= most => {
                self.at += 1;
                Ok(byte)
            }
            _ => Err(BadFrame { at: self.at }),
        }
    }

    fn array<const N: usize>(&mut self) -> Taken<[u8; N]> {
        match self.bytes[self.at..].first_chunk::<N>() {
            Some(bytes) => {
                self.at += N;
                Ok(*bytes)
            }
            None => Err(BadFrame { at: self.bytes.len() }),
        }
    }

    fn u32(&mut self) -> Taken<u32> {
        Ok(u32::from_be_bytes(self.array()?))
    }

    fn u64(&mut self) -> Taken<u64> {
        Ok(u64::from_be_bytes(self.array()?))
    }

    fn some_u32(&mut self) -> Taken<u32> {
        match self.u32()? {
            0 => Err(BadFrame { at: self.at - 1 }),
            number => Ok(number),
        }
    }

    fn site(&mut self) -> Taken<u8> {
        self.byte(1, 16)
    }

    fn view(&mut self) -> Taken<ViewId> {
        let number = self.u64()?;
        let site = if number == 0 { self.byte(0, 0)? } else { self.site()? };
        Ok(ViewId { number, site })
    }

    fn maybe_view(&mut self) -> Taken<Option<ViewId>> {
        match self.byte(0, 1)? {
            0 => Ok(None),
            _ => Ok(Some(self.view()?)),
        }
    }

    fn txn(&mut self) -> Taken<TxnId> {
        Ok(TxnId { site: self.site()?, life: self.some_u32()?, seq: self.some_u32()? })
    }

    fn owner(&mut self) -> Taken<Owner> {
        match self.byte(0, 1)? {
            0 => Ok(Owner::Refresh),
            _ => Ok(Owner::Txn(self.txn()?)),
        }
    }

    fn obstacle(&mut self) -> Taken<Obstacle> {
        match self.byte(1, if self.is_later { 3 } else { 2 })? {
            1 => Ok(Obstacle::Held { owner: self.owner()? }),
            2 => Ok(Obstacle::OtherView { now: self.maybe_view()? }),
            _ => Ok(Obstacle::Barred { inside: self.u32()?, total: self.u32()? }),
        }
    }

    fn word(&mut self, count: usize, allowed: fn(u8) -> bool) -> Taken<Text> {
        let rest = &self.bytes[self.at..];
        let there = &rest[..rest.len().min(count)];
        match there.iter().position(|byte| !allowed(*byte)) {
            Some(place) => Err(BadFrame { at: self.at + place }),
            None if there.len() < count => Err(BadFrame { at: self.bytes.len() }),
            None => {
                self.at += count;
                Ok(there.to_vec())
            }
        }
    }

    fn name(&mut self) -> Taken<Text> {
        let count = self.byte(1, 16)?.into();
        self.word(count, |byte| byte.is_ascii_lowercase() || byte.is_ascii_digit() || byte == b'_')
    }

    /// The count of a value's bytes: 1 to 64, or 1 to 1,024 in two bytes.
    fn length(&mut self) -> Taken<usize> {
        if !self.is_later {
            return Ok(self.byte(1, 64)?.into());
        }
        let high = self.byte(0, 4)?;
        let low = match high {
            0 => self.byte(1, 255)?,
            4 => self.byte(0, 0)?,
            _ => self.byte(0, 255)?,
        };
        Ok(u16::from_be_bytes([high, low]).into())
    }

    fn value(&mut self) -> Taken<Text> {
        let count = self.length()?;
        self.word(count, |byte| byte.is_ascii_graphic())
    }

    fn content(&mut self) -> Taken<Option<Text>> {
        if self.is_later && self.byte(0, 1)? == 0 {
            return Ok(None);
        }
        Ok(Some(self.value()?))
    }

    fn weight(&mut self) -> Taken<u16> {
        match u16::from_be_bytes(self.array()?) {
            0 => Err(BadFrame { at: self.at - 1 }),
            weight => Ok(weight),
        }
    }

    fn table(&mut self) -> Taken<Table> {
        self.ascending((1, 16), (1, 16), |reader, site| Ok((site, reader.weight()?)))
    }

    fn maybe_table(&mut self) -> Taken<Option<Table>> {
        if self.is_later && self.byte(0, 1)? == 1 {
            return Ok(Some(self.table()?));
        }
        Ok(None)
    }

    fn change(&mut self) -> Taken<Change> {
        if !self.is_later {
            return Ok(Change { put: Put::Value(self.value()?), table: None });
        }
        let put = match self.byte(0, 2)? {
            0 => Put::Absent,
            1 => Put::Value(self.value()?),
            _ => {
                self.byte(1, 1)?;
                return Ok(Change { put: Put::Keep, table: Some(self.table()?) });
            }
        };
        Ok(Change { put, table: self.maybe_table()? })
    }

    /// Ascending items behind their count, each read from the least byte that it may have and the most.
    fn ascending<T>(
        &mut self,
        counts: (u8, u8),
        range: (u8, u8),
        item: fn(&mut Self, u8) -> Taken<T>,
    ) -> Taken<Vec<T>> {
        let count = self.byte(counts.0, counts.1)?;
        let mut items = Vec::with_capacity(count.into());
        let mut least = range.0;
        for left in (0..count).rev() {
            let key = self.byte(least, range.1 - left)?;
            items.push(item(self, key)?);
            least = key.saturating_add(1);
        }
        Ok(items)
    }

    fn sites(&mut self) -> Taken<Vec<u8>> {
        self.ascending((1, 16), (1, 16), |_, site| Ok(site))
    }

    fn recs(&mut self) -> Taken<Vec<u8>> {
        self.ascending((0, 64), (0, 255), |_, rec| Ok(rec))
    }

    fn writes(&mut self) -> Taken<Vec<(u8, Change)>> {
        self.ascending((0, 64), (0, 255), |reader, rec| Ok((rec, reader.change()?)))
    }

    fn rec(&mut self) -> Taken<u8> {
        self.byte(0, 255)
    }

    fn message(&mut self, kind: u8) -> Taken<Message> {
        Ok(match kind {
            1 => Message::Invite { id: self.view()? },
            2 => Message::Accept { id: self.view()? },
            3 => Message::Stale { id: self.view()?, promise: self.view()? },
            4 => Message::ViewCommit { id: self.view()?, members: self.sites()? },
            5 => Message::ReadRequest { txn: self.txn()?, view: self.view()?, number: self.some_u32()?, rec: self.rec()? },
            6 => Message::ReadAnswer { txn: self.txn()?, number: self.some_u32()?, value: self.content()? },
            7 => Message::WriteRequest { txn: self.txn()?, view: self.view()?, number: self.some_u32()?, rec: self.rec()? },
            8 => Message::WriteAnswer { txn: self.txn()?, number: self.some_u32()? },
            9 => Message::Refuse { txn: self.txn()?, number: self.some_u32()?, why: self.obstacle()? },
            10 => Message::Prepare {
                txn: self.txn()?,
                view: self.view()?,
                number: self.some_u32()?,
                reads: self.recs()?,
                writes: self.writes()?,
            },
            11 => Message::Vote { txn: self.txn()? },
            12 => Message::Outcome { txn: self.txn()?, commit: self.byte(0, 1)? == 1 },
            13 => Message::Ack { txn: self.txn()? },
            14 => Message::Inquire { txn: self.txn()? },
            15 => Message::RefreshRequest { view: self.view()?, rec: self.rec()? },
            16 => Message::RefreshAnswer {
                view: self.view()?,
                rec: self.rec()?,
                value: self.content()?,
                table: self.maybe_table()?,
                date: self.view()?,
            },
            _ => Message::Probe { view: self.view()? },
        })
    }

    fn call(&mut self) -> Taken<Call> {
        Ok(match self.byte(1, if self.is_later { 8 } else { 6 })? {
            1 => Call::Begin,
            2 => Call::Regroup,
            3 => Call::Read { txn: self.txn()?, number: self.some_u32()?, name: self.name()? },
            4 => Call::Write { txn: self.txn()?, number: self.some_u32()?, name: self.name()?, value: self.value()? },
            5 => Call::Commit { txn: self.txn()?, number: self.some_u32()? },
            6 => Call::Abort { txn: self.txn()?, number: self.some_u32()? },
            7 => Call::Delete { txn: self.txn()?, number: self.some_u32()?, name: self.name()? },
            _ => Call::Weigh { txn: self.txn()?, number: self.some_u32()?, name: self.name()?, table: self.table()? },
        })
    }

    fn answer(&mut self) -> Taken<Answer> {
        Ok(match self.byte(1, if self.is_later { 22 } else { 18 })? {
            1 => Answer::Begun { txn: self.txn()?, view: self.view()? },
            2 => Answer::Value { txn: self.txn()?, number: self.some_u32()?, value: self.value()? },
            3 => Answer::Written { txn: self.txn()?, number: self.some_u32()? },
            4 => Answer::Committed { txn: self.txn()?, number: self.some_u32()? },
            5 => Answer::Aborted { txn: self.txn()?, number: self.some_u32()? },
            6 => Answer::Inviting { view: self.view()? },
            7 => Answer::NoView { promise: self.view()? },
            8 => Answer::Unknown { txn: self.txn()? },
            9 => Answer::Skipped { txn: self.txn()?, expected: self.some_u32()? },
            10 => Answer::Busy { txn: self.txn()?, number: self.some_u32()? },
            11 => Answer::NoRecord { txn: self.txn()?, number: self.some_u32()? },
            12 => Answer::TooManyOps { txn: self.txn()?, number: self.some_u32()? },
            13 => Answer::Inaccessible {
                txn: self.txn()?,
                number: self.some_u32()?,
                name: self.name()?,
                inside: self.u32()?,
                total: self.u32()?,
            },
            14 => Answer::LockHeld {
                txn: self.txn()?,
                number: self.some_u32()?,
                name: self.name()?,
                at: self.site()?,
                owner: self.owner()?,
            },
            15 => Answer::ViewChanged {
                txn: self.txn()?,
                number: self.some_u32()?,
                at: self.site()?,
                held: self.view()?,
                now: self.maybe_view()?,
            },
            16 => Answer::TimedOut { txn: self.txn()?, number: self.some_u32()?, at: self.site()? },
            17 => Answer::Spent { number: self.u64()? },
            18 => Answer::TooManyLive,
            19 => Answer::Absent { txn: self.txn()?, number: self.some_u32()? },
            20 => Answer::Deleted { txn: self.txn()?, number: self.some_u32()? },
            21 => Answer::Weighed { txn: self.txn()?, number: self.some_u32()? },
            _ => Answer::BadTable { txn: self.txn()?, number: self.some_u32()? },
        })
    }
}

fn decode(bytes: &[u8]) -> Taken<Frame> {
    let mut reader = Reader { bytes, at: 0, is_later: false };
    reader.byte(0x56, 0x56)?;
    let version = reader.byte(1, 2)?;
    reader.is_later = version == 2;
    let kind = match reader.byte(1, 36)? {
        18..=31 => return Err(BadFrame { at: 2 }),
        kind => kind,
    };
    let from = if kind <= 17 || kind == 33 { reader.site()? } else { reader.byte(0, 0)? };
    let to = if kind == 33 { reader.byte(0, 0)? } else { reader.site()? };
    let body = match kind {
        32 => Body::Call(reader.call()?),
        33 => Body::Reply(reader.answer()?),
        34 => Body::Tick,
        35 => Body::ProbeNow,
        36 => Body::Stop,
        kind => Body::Message(reader.message(kind)?),
    };
    if reader.at < bytes.len() {
        return Err(BadFrame { at: reader.at });
    }
    Ok(Frame { version, from, to, body })
}

struct Writer<'a> {
    out: &'a mut Vec<u8>,
    is_later: bool,
}

impl Writer<'_> {
    fn byte(&mut self, byte: u8) -> &mut Self {
        self.out.push(byte);
        self
    }

    fn u32(&mut self, number: u32) -> &mut Self {
        self.out.extend_from_slice(&number.to_be_bytes());
        self
    }

    fn u64(&mut self, number: u64) -> &mut Self {
        self.out.extend_from_slice(&number.to_be_bytes());
        self
    }

    fn view(&mut self, view: &ViewId) -> &mut Self {
        self.u64(view.number).byte(view.site)
    }

    fn maybe_view(&mut self, view: &Option<ViewId>) -> &mut Self {
        match view {
            None => self.byte(0),
            Some(view) => self.byte(1).view(view),
        }
    }

    fn txn(&mut self, txn: &TxnId) -> &mut Self {
        self.byte(txn.site).u32(txn.life).u32(txn.seq)
    }

    fn owner(&mut self, owner: &Owner) -> &mut Self {
        match owner {
            Owner::Refresh => self.byte(0),
            Owner::Txn(txn) => self.byte(1).txn(txn),
        }
    }

    fn obstacle(&mut self, why: &Obstacle) -> &mut Self {
        match why {
            Obstacle::Held { owner } => self.byte(1).owner(owner),
            Obstacle::OtherView { now } => self.byte(2).maybe_view(now),
            Obstacle::Barred { inside, total } => self.byte(3).u32(*inside).u32(*total),
        }
    }

    /// Bytes behind their count.
    fn counted(&mut self, bytes: &[u8]) -> &mut Self {
        self.out.push(bytes.len() as u8);
        self.out.extend_from_slice(bytes);
        self
    }

    fn value(&mut self, value: &[u8]) -> &mut Self {
        if !self.is_later {
            return self.counted(value);
        }
        self.out.extend_from_slice(&(value.len() as u16).to_be_bytes());
        self.out.extend_from_slice(value);
        self
    }

    /// A content, which is a value in the first version.
    fn content(&mut self, content: &Option<Text>) -> &mut Self {
        match content {
            None => self.byte(0),
            Some(value) if self.is_later => self.byte(1).value(value),
            Some(value) => self.value(value),
        }
    }

    fn table(&mut self, table: &Table) -> &mut Self {
        self.byte(table.len() as u8);
        for (site, weight) in table {
            self.out.push(*site);
            self.out.extend_from_slice(&weight.to_be_bytes());
        }
        self
    }

    fn maybe_table(&mut self, table: &Option<Table>) -> &mut Self {
        match table {
            None if self.is_later => self.byte(0),
            None => self,
            Some(table) => self.byte(1).table(table),
        }
    }

    fn change(&mut self, change: &Change) -> &mut Self {
        match &change.put {
            Put::Absent => self.byte(0),
            Put::Value(value) if self.is_later => self.byte(1).value(value),
            Put::Value(value) => self.value(value),
            Put::Keep => self.byte(2),
        };
        self.maybe_table(&change.table)
    }

    fn writes(&mut self, writes: &[(u8, Change)]) -> &mut Self {
        self.byte(writes.len() as u8);
        for (rec, change) in writes {
            self.byte(*rec).change(change);
        }
        self
    }

    fn head(&mut self, kind: u8, frame: &Frame) -> &mut Self {
        self.out.extend_from_slice(&[0x56, frame.version, kind, frame.from, frame.to]);
        self
    }

    fn message(&mut self, frame: &Frame, message: &Message) -> &mut Self {
        match message {
            Message::Invite { id } => self.head(1, frame).view(id),
            Message::Accept { id } => self.head(2, frame).view(id),
            Message::Stale { id, promise } => self.head(3, frame).view(id).view(promise),
            Message::ViewCommit { id, members } => self.head(4, frame).view(id).counted(members),
            Message::ReadRequest { txn, view, number, rec } => self.head(5, frame).txn(txn).view(view).u32(*number).byte(*rec),
            Message::ReadAnswer { txn, number, value } => self.head(6, frame).txn(txn).u32(*number).content(value),
            Message::WriteRequest { txn, view, number, rec } => self.head(7, frame).txn(txn).view(view).u32(*number).byte(*rec),
            Message::WriteAnswer { txn, number } => self.head(8, frame).txn(txn).u32(*number),
            Message::Refuse { txn, number, why } => self.head(9, frame).txn(txn).u32(*number).obstacle(why),
            Message::Prepare { txn, view, number, reads, writes } => {
                self.head(10, frame).txn(txn).view(view).u32(*number).counted(reads).writes(writes)
            }
            Message::Vote { txn } => self.head(11, frame).txn(txn),
            Message::Outcome { txn, commit } => self.head(12, frame).txn(txn).byte((*commit).into()),
            Message::Ack { txn } => self.head(13, frame).txn(txn),
            Message::Inquire { txn } => self.head(14, frame).txn(txn),
            Message::RefreshRequest { view, rec } => self.head(15, frame).view(view).byte(*rec),
            Message::RefreshAnswer { view, rec, value, table, date } => {
                self.head(16, frame).view(view).byte(*rec).content(value).maybe_table(table).view(date)
            }
            Message::Probe { view } => self.head(17, frame).view(view),
        }
    }

    fn coded(&mut self, code: u8, txn: &TxnId, number: u32) -> &mut Self {
        self.byte(code).txn(txn).u32(number)
    }

    fn call(&mut self, call: &Call) -> &mut Self {
        match call {
            Call::Begin => self.byte(1),
            Call::Regroup => self.byte(2),
            Call::Read { txn, number, name } => self.coded(3, txn, *number).counted(name),
            Call::Write { txn, number, name, value } => self.coded(4, txn, *number).counted(name).value(value),
            Call::Commit { txn, number } => self.coded(5, txn, *number),
            Call::Abort { txn, number } => self.coded(6, txn, *number),
            Call::Delete { txn, number, name } => self.coded(7, txn, *number).counted(name),
            Call::Weigh { txn, number, name, table } => self.coded(8, txn, *number).counted(name).table(table),
        }
    }

    fn answer(&mut self, answer: &Answer) -> &mut Self {
        match answer {
            Answer::Begun { txn, view } => self.byte(1).txn(txn).view(view),
            Answer::Value { txn, number, value } => self.coded(2, txn, *number).value(value),
            Answer::Written { txn, number } => self.coded(3, txn, *number),
            Answer::Committed { txn, number } => self.coded(4, txn, *number),
            Answer::Aborted { txn, number } => self.coded(5, txn, *number),
            Answer::Inviting { view } => self.byte(6).view(view),
            Answer::NoView { promise } => self.byte(7).view(promise),
            Answer::Unknown { txn } => self.byte(8).txn(txn),
            Answer::Skipped { txn, expected } => self.coded(9, txn, *expected),
            Answer::Busy { txn, number } => self.coded(10, txn, *number),
            Answer::NoRecord { txn, number } => self.coded(11, txn, *number),
            Answer::TooManyOps { txn, number } => self.coded(12, txn, *number),
            Answer::Inaccessible { txn, number, name, inside, total } => {
                self.coded(13, txn, *number).counted(name).u32(*inside).u32(*total)
            }
            Answer::LockHeld { txn, number, name, at, owner } => self.coded(14, txn, *number).counted(name).byte(*at).owner(owner),
            Answer::ViewChanged { txn, number, at, held, now } => self.coded(15, txn, *number).byte(*at).view(held).maybe_view(now),
            Answer::TimedOut { txn, number, at } => self.coded(16, txn, *number).byte(*at),
            Answer::Spent { number } => self.byte(17).u64(*number),
            Answer::TooManyLive => self.byte(18),
            Answer::Absent { txn, number } => self.coded(19, txn, *number),
            Answer::Deleted { txn, number } => self.coded(20, txn, *number),
            Answer::Weighed { txn, number } => self.coded(21, txn, *number),
            Answer::BadTable { txn, number } => self.coded(22, txn, *number),
        }
    }
}

fn encode(frame: &Frame, out: &mut Vec<u8>) {
    let mut writer = Writer { out, is_later: frame.version == 2 };
    match &frame.body {
        Body::Message(message) => writer.message(frame, message),
        Body::Call(call) => writer.head(32, frame).call(call),
        Body::Reply(answer) => writer.head(33, frame).answer(answer),
        Body::Tick => writer.head(34, frame),
        Body::ProbeNow => writer.head(35, frame),
        Body::Stop => writer.head(36, frame),
    };
}

fn split(mut rest: &[u8]) -> Vec<&[u8]> {
    let mut pieces = Vec::new();
    while let Some((count, behind)) = rest.split_first_chunk() {
        let Some((piece, behind)) = behind.split_at_checked(u32::from_be_bytes(*count) as usize) else {
            break;
        };
        pieces.push(piece);
        rest = behind;
    }
    pieces
}

fn decode_all(pieces: &[&[u8]], frames: &mut Vec<Frame>) -> u64 {
    frames.clear();
    let mut sum = 0;
    for piece in pieces {
        match decode(piece) {
            Ok(frame) => frames.push(frame),
            Err(BadFrame { at }) => sum += at as u64,
        }
    }
    sum + frames.len() as u64
}

fn encode_all(frames: &[Frame], out: &mut Vec<u8>) -> u64 {
    let mut sum = 0;
    for frame in frames {
        out.clear();
        encode(frame, out);
        sum += out.last().map_or(0, |last| u64::from(*last));
    }
    sum
}

fn main() -> io::Result<()> {
    let words: Vec<String> = std::env::args().skip(1).collect();
    let times: u32 = words.get(1).and_then(|number| number.parse().ok()).unwrap_or(1);
    let mut input = Vec::new();
    io::stdin().read_to_end(&mut input)?;
    let pieces = split(&input);
    let mut frames = Vec::new();
    let sum: u64 = match words.first().map_or("", String::as_str) {
        "decode" => (0..times).map(|_| decode_all(&pieces, &mut frames)).sum(),
        "encode" => {
            decode_all(&pieces, &mut frames);
            let mut out = Vec::new();
            (0..times).map(|_| encode_all(&frames, &mut out)).sum()
        }
        _ => 0,
    };
    println!("{sum}");
    Ok(())
}
