//! Figures of the line, for docs/MEASURED.md: what goes over it for 1,000 keys, how long full reports are, and the age of LEVEL on the loopback.
//! It takes some 20 s.
use futonrobin::{Screen, Shown};
use line::{Candidate, Invigilator, SharedKey, State};
use oorandom::Rand32;
use std::net::SocketAddr;
use std::thread;
use std::time::{Duration, Instant};
use terminal::bad_line::{Faults, Passed};
use terminal::desk::Desk;
use terminal::halves::Halves;
use terminal::keys::Key;
use terminal::played::recorded;
use terminal::udp::{drain, socket_at, socket_to};

const KEYS: usize = 1_000;
/// A quick typist; and how often the programs look.
const KEY: Duration = Duration::from_millis(200);
const TICK: Duration = Duration::from_millis(20);
/// How long the loopback is watched.
const WATCHED: Duration = Duration::from_secs(20);

fn main() {
    for width in [40, 80] {
        keys(width);
    }
    full_reports();
    cost();
    loopback();
}

fn typed() -> impl Iterator<Item = Key> {
    recorded().into_iter().cycle().take(KEYS)
}

/// The recorded keys again and again, five in a second, on a line without faults and a clock of its own.
fn keys(width: u32) {
    let mut now = Instant::now();
    let mut halves = Halves::new(width, Faults::default(), 1, now);
    for key in typed() {
        for datagram in halves.press(key) {
            halves.hear(&datagram);
        }
        for _ in 0..KEY.as_millis() / TICK.as_millis() {
            now += TICK;
            for datagram in halves.pass(now) {
                halves.hear(&datagram);
            }
        }
    }
    let told = |Passed { datagrams, bytes, longest }| format!("{datagrams} datagrams, {bytes} bytes, {longest} in the longest");
    println!("{KEYS} keys in {} s at {width} columns, {} calls:", (KEY * KEYS as u32).as_secs(), halves.desk.screen.serial());
    println!("  candidate to invigilator: {}", told(halves.there.passed));
    println!("  invigilator to candidate: {}", told(halves.back.passed));
}

/// The datagrams of one full report.
fn full(name: &str, screen: &Screen) {
    let (shared, now) = (SharedKey::draw(), Instant::now());
    let lengths: Vec<_> = Candidate::new(&shared, screen, now).full(screen, now).iter().map(Vec::len).collect();
    println!("full report of {name}, {} columns: {lengths:?}", screen.width());
}

fn full_reports() {
    for width in [40, 80] {
        full("a new screen", &Screen::new(width, 1));
        let mut desk = Desk::new(width, 1);
        recorded().into_iter().for_each(|key| drop(desk.press(key).unwrap()));
        full("the recorded keys' last screen", &desk.screen);
        let (mut listing, mut noise, mut random) = (Screen::new(width, 1), Screen::new(width, 1), Rand32::new(1));
        for n in 1..=24 {
            let line = format!("{n}0 PRINT \"WARD {n}: {} BEDS FREE, {} TAKEN\"\r\n", n * 7 % 10, 31 - n);
            listing.print_checked(line.as_bytes()).unwrap();
        }
        full("a listing of 24 lines", &listing);
        for _ in 0..25 * width {
            noise.set_attr(random.rand_u32() as u8).unwrap();
            noise.print_checked(&[random.rand_range(33..256) as u8]).unwrap();
        }
        full("random characters in random colours", &noise);
    }
}

/// What a key costs at either end beyond its call and its report: deflating and sealing, and opening, inflating and the arrival.
fn cost() {
    let (shared, now, mut desk) = (SharedKey::draw(), Instant::now(), Desk::new(80, 1));
    let (mut candidate, mut invigilator) = (Candidate::new(&shared, &desk.screen, now), Invigilator::new(&shared));
    let (mut sending, mut taking, mut calls) = (Duration::ZERO, Duration::ZERO, 0);
    for key in recorded().into_iter().cycle().take(10 * KEYS) {
        for report in desk.press(key).unwrap() {
            let begun = Instant::now();
            let sent = candidate.send(&desk.screen, &report, now);
            let made = Instant::now();
            sent.iter().for_each(|datagram| _ = invigilator.receive(datagram, ([127, 0, 0, 1], 9).into(), now));
            (sending, taking, calls) = (sending + (made - begun), taking + made.elapsed(), calls + 1);
        }
    }
    println!("a step report, of {calls}: {:?} to deflate and seal, {:?} to take", sending / calls, taking / calls);
}

/// Both ends over UDP in loops as the programs have them: the ages at which the mirror is called level.
fn loopback() {
    let (shared, listening) = (SharedKey::draw(), socket_at(([127, 0, 0, 1], 0).into()).unwrap());
    let (to, begun) = (listening.local_addr().unwrap(), Instant::now());
    let mut invigilator = Invigilator::new(&shared);
    let typing = thread::spawn(move || type_to(to, &shared, begun));
    let (mut ages, mut looks) = (Vec::new(), 0);
    while begun.elapsed() < WATCHED {
        let now = Instant::now();
        drain(&listening, |bytes, from| _ = invigilator.receive(bytes, from, now)).unwrap();
        invigilator.ask(now).iter().for_each(|(to, question)| drop(listening.send_to(question, to)));
        let state = invigilator.follower.state(now);
        looks += 1;
        if let (true, State::Shows { age: Some(age), .. }) = (state.is_level(), state) {
            ages.push(age.as_millis());
        }
        thread::sleep(TICK);
    }
    typing.join().unwrap();
    ages.sort_unstable();
    let at = |percent: usize| ages[(ages.len() - 1) * percent / 100];
    println!("LEVEL on the loopback, a key every {} ms: at {} of {looks} looks;", KEY.as_millis(), ages.len());
    println!("  its age in ms: median {}, 99th percentile {}, greatest {}", at(50), at(99), at(100));
}

/// A candidate that sends there.
fn type_to(to: SocketAddr, shared: &SharedKey, begun: Instant) {
    let (socket, mut desk, mut keys) = (socket_to(to).unwrap(), Desk::new(80, 1), typed());
    let (mut end, mut last) = (Candidate::new(shared, &desk.screen, begun), begun);
    while begun.elapsed() < WATCHED {
        let now = Instant::now();
        drain(&socket, |bytes, _| end.receive(bytes, now)).unwrap();
        let mut sent = end.due(&desk.screen, now);
        if now - last >= KEY {
            last = now;
            for report in keys.next().map(|key| desk.press(key).unwrap()).into_iter().flatten() {
                sent.extend(end.send(&desk.screen, &report, now));
            }
        }
        sent.iter().for_each(|datagram| drop(socket.send_to(datagram, to)));
        thread::sleep(TICK);
    }
}
