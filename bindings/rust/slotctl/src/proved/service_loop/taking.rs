// Erased by bindings/rust/erase from crates/service_loop/src/taking.rt, sha256 4eaeb7068ceaec9fde422dcc5a775a599a07dab789f230affc51cbd54af0d1f9.
//! Lines that take a number, after a turn of the loop: `take ID` is `enter ID`, and then in the wide world one `seek ID`, elsewhere `probe ID` as often
//! as it takes. Where tokens are given, `put ID 0` asks for one behind it.

use crate::kit::alloc::{AllocError, Allocator};
use crate::kit::Vec;
use crate::proved::model_asked::event::Event;
use crate::proved::model_asked::reply::Reply;
use crate::proved::model_steps::refusal::Refusal;
use crate::proved::model_steps::view::View;
use crate::proved::service_loop::attended::Attended;
use crate::proved::service_loop::audit::Asker;
use crate::proved::service_loop::connection::{Connection, ConnectionStage};
use crate::proved::service_loop::gathering::{prefetch, Batch, Called};
use crate::proved::service_loop::losing::note_lost;
use crate::proved::service_loop::manner::Manner;
use crate::proved::service_loop::persist::{Persist, Prefetch};
use crate::proved::service_loop::searching::{most_said, searching};
use crate::proved::service_loop::shared::SharedBuffers;
use crate::proved::service_loop::stream::Stream;
use crate::proved::service_loop::turns::{number_at, send_replies};
use crate::proved::text_lines::events::print_event;
use crate::proved::text_lines::print::{print_reply, print_words, put_number};
use crate::proved::text_lines::replies::Replies;
use crate::proved::text_player::service::Service;

/// What ends a line.
const LF: u8 = 10;

/// The most bytes of a line that takes a number: a word of 5 letters, a space, a number of at most 20 digits, and LF.
const LINE_ROOM: usize = 27;

// Whether a number is searched for behind this reply: `enter` was accepted, or a `probe` missed.
fn wants_search(reply: &Reply<()>) -> bool {
    matches!(reply, Reply::Ok | Reply::Missed)
}

// Whether a number was taken.
fn is_got(reply: &Reply<()>) -> bool {
    matches!(reply, Reply::Got(_))
}

/// Whether this refuses a number since as many compete as may.
pub(crate) fn is_crowded(reply: &Reply<()>) -> bool {
    matches!(reply, Reply::Refused(Refusal::Crowded))
}

// What `take` of an identity said, and how often it searched for a number.
#[derive(Clone, Copy, Debug)]
struct Took {
    answer: Reply<()>,
    searches: usize,
}

// Says `enter` of an identity, and then searches for a number as long as a reply wants it, and no more often than that may be said.
fn take_one<R, D: Service<R>>(
    rt: &R,
    service: &mut D,
    view: &mut View,
    identity: u64,
    wide: bool,
) -> Took {
    let most = most_said(wide);
    let mut answer = service.apply(rt, Event::Enter(identity), view);
    let mut searches = 0;
    while searches < most && wants_search(&answer) {
        answer = service.apply(rt, searching(wide, identity), view);
        searches += 1;
    }
    Took { answer, searches }
}

// Searches for a number of an identity so many times, whatever is said to it.
fn search_on<R, D: Service<R>>(rt: &R, service: &mut D, identity: u64, wide: bool, count: usize) {
    let mut view = View::new();
    let mut said = 0;
    while said < count {
        service.apply(rt, searching(wide, identity), &mut view);
        said += 1;
    }
}

/// Takes a number for an identity by events of the service, one after another: `enter`; and then in the wide world one `seek`, elsewhere `probe` until
/// it holds a number or is refused, and no more often than there are numbers. Returns the last reply: a refusal of `enter` is answered as it is, and no
/// number is searched for. Where the answers were prefetched, so many more are said behind it, and answered to nobody, that `seek` is said once, or
/// `probe` as often as there are numbers.
pub fn say_taking<R, D: Service<R>>(
    rt: &R,
    service: &mut D,
    view: &mut View,
    identity: u64,
    wide: bool,
    ahead: bool,
) -> Reply<()> {
    let took = take_one(rt, service, view, identity, wide);
    if ahead {
        search_on(rt, service, identity, wide, most_said(wide) - took.searches);
    }
    took.answer
}

// Whether a token is asked for.
fn asks_token(tokens: bool, ahead: bool, got: bool) -> bool {
    tokens && (ahead || got)
}

// Asks for a token of an identity, or not. Returns what is replied to it, if it got a number.
fn ask_token<R, D: Service<R>>(
    rt: &R,
    service: &mut D,
    identity: u64,
    asks: bool,
    got: bool,
) -> Option<Reply<()>> {
    if !asks {
        return None;
    }
    let mut view = View::new();
    let reply = service.apply(rt, Event::Put(identity, 0), &mut view);
    if got {
        Some(reply)
    } else {
        None
    }
}

/// What was said to a client that takes a number.
#[derive(Clone, Copy, Debug)]
pub struct Taken {
    /// The reply that tells the number, or why there is none.
    pub answer: Reply<()>,
    /// The reply that tells the token, if one was asked for behind a number.
    pub token: Option<Reply<()>>,
}

/// Takes a number for an identity (`say_taking`), and then asks for a token, if tokens are given: `put` of any value. It is asked for if a number was
/// got, and always where the answers were prefetched.
pub fn take_with_token<R, D: Service<R>>(
    rt: &R,
    service: &mut D,
    view: &mut View,
    identity: u64,
    manner: Manner,
    ahead: bool,
) -> Taken {
    let answer = say_taking(rt, service, view, identity, manner.wide, ahead);
    let got = is_got(&answer);
    let asks = asks_token(manner.tokens, ahead, got);
    let token = ask_token(rt, service, identity, asks, got);
    Taken { answer, token }
}

/// Appends the line that a client is answered that takes a number: with the token behind it, or the refusal of that.
pub(crate) fn print_taken<A: Allocator>(taken: Taken, view: &View, out: &mut Replies<A>) {
    match taken.token {
        Some(Reply::Value(token)) => {
            print_words(taken.answer, view, out);
            out.put(b" ");
            put_number(token, out);
            out.put(b"\n");
        }
        Some(Reply::Refused(why)) => print_reply(Reply::Refused(why), view, out),
        _ => print_reply(taken.answer, view, out),
    }
}

// The connection of a seat takes a number, where there is one that rests. It is the one of this number.
fn take_number_at<R, D: Service<R>, S: Stream, A: Allocator, B: Allocator>(
    rt: &R,
    service: &mut Attended<D>,
    shared: &mut SharedBuffers<B>,
    seats: &mut [Option<Connection<S, A>>],
    number: u64,
    key: usize,
    manner: Manner,
    ahead: bool,
) {
    if key < seats.len() {
        if let Some(connection) = &mut seats[key] {
            if let ConnectionStage::Idle = connection.stage {
                service.listen_to(number);
                service.audit.listen_to(Asker::Taker { answered: false });
                connection.take_number(rt, service, shared, manner, ahead);
                service.audit.listen_to(Asker::Client);
            }
        }
    }
}

// Whether so much is to be kept before another connection takes a number. It is not asked where the answers were prefetched.
fn is_full<D, K: Persist<D>>(service: &D, persister: &K, ahead: bool) -> bool {
    !ahead && persister.is_full(service)
}

// The connections of these seats take numbers, one after another, until so much is to be kept. Nothing is sent.
fn take_numbers<R, D: Service<R>, K: Persist<D>, S: Stream, A: Allocator, B: Allocator>(
    rt: &R,
    service: &mut Attended<D>,
    persister: &K,
    shared: &mut SharedBuffers<B>,
    seats: &mut [Option<Connection<S, A>>],
    numbers: &[u64],
    called: &[usize],
    manner: Manner,
    ahead: bool,
) {
    for key in called {
        if is_full(&service.service, persister, ahead) {
            break;
        }
        take_number_at(
            rt,
            service,
            shared,
            seats,
            number_at(numbers, *key),
            *key,
            manner,
            ahead,
        );
    }
}

/// After a turn of the loop: for each of these seats whose first waiting line is `take ID` a number is taken (`say_taking`), what the service tells of it
/// is kept, and only then are answers sent. Who keeps a stay is noted by the numbers of the connections, in the order of all turns. Where so much is to
/// be kept that others have to wait, their lines wait for the next turn.
///
/// # Errors
///
/// The fault of what keeps, with no byte sent.
pub fn serve_takings<R, D: Service<R>, K: Persist<D>, S: Stream, A: Allocator, B: Allocator>(
    rt: &R,
    service: &mut Attended<D>,
    persister: &mut K,
    shared: &mut SharedBuffers<B>,
    seats: &mut [Option<Connection<S, A>>],
    numbers: &[u64],
    called: &[usize],
    manner: Manner,
    ahead: bool,
) -> Result<(), K::Fault> {
    take_numbers(
        rt, service, persister, shared, seats, numbers, called, manner, ahead,
    );
    persister.persist(&mut service.service)?;
    send_replies(seats, called);
    Ok(())
}

// The line of an event is added to others, with its LF.
fn add_event<B: Allocator>(
    event: Event,
    words: &mut Replies<B>,
    lines: &mut Vec<u8, B>,
) -> Result<(), AllocError> {
    print_event(event, words);
    let added = lines.extend_from_slice(words.as_slice());
    words.clear();
    added?;
    lines.push(LF)?;
    Ok(())
}

// The lines that search for a number of an identity are added to others.
fn add_searches<B: Allocator>(
    identity: u64,
    wide: bool,
    words: &mut Replies<B>,
    lines: &mut Vec<u8, B>,
) -> Result<(), AllocError> {
    let most = most_said(wide);
    add_event(Event::Enter(identity), words, lines)?;
    let mut said = 0;
    while said < most {
        add_event(searching(wide, identity), words, lines)?;
        said += 1;
    }
    Ok(())
}

// The lines that take a number for an identity are added to others.
fn add_taking<B: Allocator>(
    identity: u64,
    manner: Manner,
    words: &mut Replies<B>,
    lines: &mut Vec<u8, B>,
) -> Result<(), AllocError> {
    add_searches(identity, manner.wide, words, lines)?;
    if manner.tokens {
        add_event(Event::Put(identity, 0), words, lines)?;
    }
    Ok(())
}

// For which identity the connection of a seat takes a number, where there is one that does.
fn taking_at<S: Stream, A: Allocator>(
    seats: &[Option<Connection<S, A>>],
    key: usize,
) -> Option<u64> {
    if key < seats.len() {
        if let Some(connection) = &seats[key] {
            return connection.taking();
        }
    }
    None
}

// The most bytes of the lines that take one number.
fn taking_room(manner: Manner) -> usize {
    LINE_ROOM * (most_said(manner.wide) + 2)
}

// Whether there is room in a batch for the lines that take one number more. In an empty one there is.
fn has_room<B: Allocator>(batch: &Batch<B>, manner: Manner) -> bool {
    batch.lines.is_empty() || batch.lines.len() <= batch.most.saturating_sub(taking_room(manner))
}

// The lines of the connection of a seat are added to the batch, where it takes a number. Says whether there was room for them, and memory.
fn add_taking_at<S: Stream, A: Allocator, B: Allocator>(
    batch: &mut Batch<B>,
    words: &mut Replies<B>,
    seats: &[Option<Connection<S, A>>],
    key: usize,
    manner: Manner,
) -> bool {
    let Some(identity) = taking_at(seats, key) else {
        return true;
    };
    if !has_room(batch, manner) {
        return false;
    }
    let before = batch.lines.len();
    if add_taking(identity, manner, words, &mut batch.lines).is_err() {
        batch.lines.truncate(before);
        return false;
    }
    true
}

// The lines of these seats that take numbers are the batch, as far as there is room. Says how many of the seats were looked at.
fn gather_takings<S: Stream, A: Allocator, B: Allocator>(
    batch: &mut Batch<B>,
    words: &mut Replies<B>,
    seats: &[Option<Connection<S, A>>],
    called: &[usize],
    manner: Manner,
) -> usize {
    batch.lines.clear();
    batch.holds = false;
    let mut seen = 0;
    while seen < called.len() && add_taking_at(batch, words, seats, called[seen], manner) {
        seen += 1;
    }
    seen
}

// The connection of a seat is at fault, where there is one that takes a number.
fn give_up_taking_at<S: Stream, A: Allocator>(seats: &mut [Option<Connection<S, A>>], key: usize) {
    if key < seats.len() {
        if let Some(connection) = &mut seats[key] {
            connection.give_up_taking();
        }
    }
}

// The connections of these seats that take numbers are at fault; nothing is taken of any, and nothing sent.
fn give_up_takings<S: Stream, A: Allocator>(
    seats: &mut [Option<Connection<S, A>>],
    called: &[usize],
) {
    for key in called {
        give_up_taking_at(seats, *key);
    }
}

/// Takes numbers as `serve_takings` does, over a service that prefetches its answers: the lines go to the persister first, for as many of the seats as there
/// is room, one at least. In the wide world `seek` is said once, elsewhere `probe` as often as there are numbers, whatever is said to it: an identity
/// that holds a number is refused more of them.
/// Where the answers are not prefetched in time, those whose lines went are at fault, and nothing is sent: of each `enter` it is noted that nobody keeps
/// the stay, unless a connection does. The lines that went are those of the seats that are counted, in their order, and no others.
///
/// # Errors
///
/// The fault of what keeps, with no byte sent.
pub fn prefetch_takings<R, D: Service<R>, K: Persist<D>, S: Stream, A: Allocator, B: Allocator>(
    rt: &R,
    service: &mut Attended<D>,
    persister: &mut K,
    batch: &mut Batch<B>,
    shared: &mut SharedBuffers<B>,
    seats: &mut [Option<Connection<S, A>>],
    numbers: &[u64],
    called: &[usize],
    manner: Manner,
) -> Result<Called, K::Fault> {
    let seen = gather_takings(batch, &mut shared.replies, seats, called, manner);
    let few = &called[..seen];
    match prefetch(&mut service.service, persister, batch)? {
        Prefetch::Known => {
            serve_takings(
                rt, service, persister, shared, seats, numbers, few, manner, true,
            )?;
            Ok(Called::Served(seen))
        }
        Prefetch::Lost => {
            give_up_takings(seats, few);
            note_lost(service, &batch.lines, batch.kind);
            Ok(Called::Unserved(seen))
        }
    }
}
