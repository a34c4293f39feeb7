//! The STM supervision unit as a stream program: raw command bytes on standard
//! input, one line per command on standard output.
//!
//! Speeds are cm/s, limits km/h, distances cm, times tenths of a second and
//! decelerations mm/s². A speed v meets a limit k by comparing 9×v with 250×k.
//!
//! Build with `rustc -O plain.rs`; the figures are run by `rustc --test plain.rs`.

use std::cmp::Reverse;
use std::io::{self, BufReader, BufWriter, Read, Write};

// ---------------------------------------------------------------- commands

const START: u8 = 0x01;
const STATE: u8 = 0x02;
const ODOMETER: u8 = 0x10;
const CURVE: u8 = 0x20;
const CURVE_END: u8 = 0x21;
const SECTION: u8 = 0x22;
const SECTION_END: u8 = 0x23;
const STOP_PASSED: u8 = 0x30;
const PROCEED: u8 = 0x31;
const BALISE_ERROR: u8 = 0x32;
const TEST_BRAKES: u8 = 0x40;
const AREA_EVENT: u8 = 0x50;
const RECORD: u8 = 0x51;
const SIGNAL_PASSED: u8 = 0x52;
const RECORD_END: u8 = 0x53;

/// Every code with its whole length in bytes.
const LENGTHS: [(u8, usize); 15] = [
    (START, 24),
    (STATE, 6),
    (ODOMETER, 14),
    (CURVE, 12),
    (CURVE_END, 6),
    (SECTION, 8),
    (SECTION_END, 6),
    (STOP_PASSED, 6),
    (PROCEED, 5),
    (BALISE_ERROR, 5),
    (TEST_BRAKES, 5),
    (AREA_EVENT, 8),
    (RECORD, 12),
    (SIGNAL_PASSED, 7),
    (RECORD_END, 6),
];
const LONGEST: usize = 24;

fn length_of(code: u8) -> Option<usize> {
    LENGTHS.iter().find(|(c, _)| *c == code).map(|(_, n)| *n)
}

#[derive(Clone, Copy, PartialEq, Eq, Debug)]
enum State {
    De = 0,
    Cs = 1,
    Hs = 2,
    Da = 3,
    Fa = 4,
}

#[derive(Clone, Copy)]
struct Train {
    soft: bool,
    cylinder: bool,
    speed: i64,
    length: i64,
    full: i64,
    soft_deceleration: i64,
    t_b: i64,
    g_c: i64,
    g_p: i64,
    g_bf: i64,
    f_margin: i64,
    emergency_margin: i64,
    sufficient: f32,
    p_full: f32,
    t_ebchk: i64,
    /// What the leads of the curves have besides T_B (F-3).
    extra: i64,
}

struct Odometer {
    speed: i64,
    moved: i64,
    measured: i64,
    p_ext: i16,
    buttons: u8,
}

const LOSS: u8 = 1;
const TEXT: u8 = 2;
const HALKA: u8 = 4;
const NEUTRAL: u8 = 8;

#[derive(Clone, Copy)]
struct Curve {
    id: u8,
    stop: bool,
    distance: i64,
    speed: i64,
    gradient: i64,
    past_b: bool,
}

#[derive(Clone, Copy)]
struct Section {
    id: u8,
    speed: i64,
    /// Ground moved since the end was given, for a section that is ending.
    ending: Option<i64>,
}

/// The areas of the track, with their digits (F-6).
#[derive(Clone, Copy, PartialEq, Eq, Debug)]
enum Area {
    Partial = 4,
    NonEquipped = 7,
    Full = 8,
    Ht = 9,
}

/// What command 50 tells of.
#[derive(Clone, Copy)]
enum Event {
    /// A main or distant signal without full HT information.
    Signal,
    Gmd(i64),
    /// A balise error that deletes HT information.
    HtDeleted,
    /// A group without overlap.
    NoOverlap,
    Entry(Area),
}

/// The kinds of signal (F-7).
#[derive(Clone, Copy, PartialEq, Eq, Debug)]
enum Signal {
    Main,
    Distant,
}

#[derive(Clone, Copy, PartialEq, Eq, Debug)]
enum Route {
    /// R.
    Straight,
    /// G.
    Diverging,
}

/// The conditions of an ET record that is held; a terminated one is not (001, table 4.6-2).
#[derive(Clone, Copy, PartialEq, Eq, Debug)]
enum Condition {
    Undecided { ground: i64 },
    DefinitelyActive,
    PreliminaryPassive,
    PreliminaryActive,
    Locked,
}

/// An ET record of the category of a route and of the kind of signal that controls it, with the curve that it may become.
#[derive(Clone, Copy)]
struct Record {
    route: Route,
    controlled_by: Signal,
    condition: Condition,
    curve: Curve,
}

enum Command {
    Start(Train),
    State(State),
    Odometer(Odometer),
    Curve(Curve),
    CurveEnd(u8),
    Section(Section),
    SectionEnd(u8),
    StopPassed(u8),
    Proceed,
    BaliseError,
    TestBrakes,
    AreaEvent(Event),
    Record(Record),
    SignalPassed(Signal, Route),
    RecordEnd(u8),
}

fn wide(bytes: &[u8], at: usize) -> i64 {
    i64::from(u16::from_be_bytes([bytes[at], bytes[at + 1]]))
}

fn signed(bytes: &[u8], at: usize) -> i16 {
    i16::from_be_bytes([bytes[at], bytes[at + 1]])
}

/// Reads the operands of a command of known code and right length.
/// `None` when one of them is out of range.
fn decode(code: u8, o: &[u8]) -> Option<Command> {
    let byte = |at: usize| i64::from(o[at]);
    let id_ok = |id: u8| id <= 254;
    match code {
        START => {
            let train = Train {
                soft: o[0] & 1 != 0,
                cylinder: o[0] & 2 != 0,
                speed: wide(o, 1),
                length: 100 * wide(o, 3),
                full: wide(o, 5),
                soft_deceleration: wide(o, 7),
                t_b: byte(9),
                g_c: byte(10),
                g_p: byte(11),
                g_bf: byte(12),
                f_margin: byte(13),
                emergency_margin: byte(14),
                sufficient: f32::from(o[15]),
                p_full: wide(o, 16) as f32,
                t_ebchk: byte(18),
                extra: if o[0] & 4 != 0 { UNTESTED } else { 0 },
            };
            let good = o[0] & !7 == 0
                && (10..=300).contains(&train.speed)
                && (10..=1000).contains(&wide(o, 3))
                && (400..=2000).contains(&train.full)
                && (400..=train.full).contains(&train.soft_deceleration)
                && (1..=100).contains(&train.t_b)
                && train.g_c <= 200
                && train.g_p <= 200
                && train.g_bf <= 200
                && (1..=30).contains(&train.f_margin)
                && (11..=30).contains(&train.emergency_margin)
                && (30..=150).contains(&o[15])
                && (150..=600).contains(&wide(o, 16))
                && (1..=100).contains(&train.t_ebchk);
            good.then_some(Command::Start(train))
        }
        STATE => match o[0] {
            0 => Some(Command::State(State::De)),
            1 => Some(Command::State(State::Cs)),
            2 => Some(Command::State(State::Hs)),
            3 => Some(Command::State(State::Da)),
            4 => Some(Command::State(State::Fa)),
            _ => None,
        },
        ODOMETER => {
            let report = Odometer {
                speed: wide(o, 0),
                moved: wide(o, 2),
                measured: i64::from(signed(o, 4)),
                p_ext: signed(o, 6),
                buttons: o[8],
            };
            let good = report.speed <= 10_000 && report.moved <= 1_200 && report.buttons & !15 == 0;
            good.then_some(Command::Odometer(report))
        }
        CURVE => {
            let curve = Curve {
                id: o[0],
                stop: o[1] == 1,
                distance: 100 * wide(o, 2),
                speed: wide(o, 4),
                gradient: i64::from(o[6] as i8),
                past_b: false,
            };
            let speed_good = match o[1] {
                0 => (10..=300).contains(&curve.speed),
                1 => curve.speed == 10 || curve.speed == 40,
                _ => false,
            };
            let good = id_ok(curve.id)
                && speed_good
                && wide(o, 2) <= 10_000
                && (-30..=30).contains(&curve.gradient);
            good.then_some(Command::Curve(curve))
        }
        CURVE_END => id_ok(o[0]).then_some(Command::CurveEnd(o[0])),
        SECTION => {
            let section = Section {
                id: o[0],
                speed: wide(o, 1),
                ending: None,
            };
            let good = id_ok(section.id) && (10..=300).contains(&section.speed);
            good.then_some(Command::Section(section))
        }
        SECTION_END => id_ok(o[0]).then_some(Command::SectionEnd(o[0])),
        STOP_PASSED => (o[0] <= 2).then_some(Command::StopPassed(o[0])),
        PROCEED => Some(Command::Proceed),
        BALISE_ERROR => Some(Command::BaliseError),
        TEST_BRAKES => Some(Command::TestBrakes),
        AREA_EVENT => event_of(o[0], wide(o, 1)).map(Command::AreaEvent),
        RECORD => {
            let (route, controlled_by) = match o[1] {
                0 => (Route::Straight, Signal::Distant),
                1 => (Route::Straight, Signal::Main),
                2 => (Route::Diverging, Signal::Distant),
                3 => (Route::Diverging, Signal::Main),
                _ => return None,
            };
            let curve = Curve {
                id: o[0],
                stop: false,
                distance: 100 * wide(o, 2),
                speed: wide(o, 4),
                gradient: i64::from(o[6] as i8),
                past_b: false,
            };
            let good = id_ok(curve.id)
                && wide(o, 2) <= 10_000
                && (10..=300).contains(&curve.speed)
                && (-30..=30).contains(&curve.gradient);
            good.then_some(Command::Record(Record {
                route,
                controlled_by,
                condition: Condition::Undecided { ground: 0 },
                curve,
            }))
        }
        SIGNAL_PASSED => {
            let kind = match o[0] {
                0 => Signal::Main,
                1 => Signal::Distant,
                _ => return None,
            };
            let route = match o[1] {
                0 => Route::Straight,
                1 => Route::Diverging,
                _ => return None,
            };
            Some(Command::SignalPassed(kind, route))
        }
        RECORD_END => id_ok(o[0]).then_some(Command::RecordEnd(o[0])),
        _ => None,
    }
}

/// The event of this number with this speed, which is 0 where there is none.
fn event_of(number: u8, speed: i64) -> Option<Event> {
    match (number, speed) {
        (0, 0) => Some(Event::Signal),
        (1, 10..=300) => Some(Event::Gmd(speed)),
        (2, 0) => Some(Event::HtDeleted),
        (3, 0) => Some(Event::NoOverlap),
        (4, 0) => Some(Event::Entry(Area::NonEquipped)),
        (5, 0) => Some(Event::Entry(Area::Ht)),
        (6, 0) => Some(Event::Entry(Area::Full)),
        _ => None,
    }
}

// ---------------------------------------------------------------- feedback

#[derive(Clone, Copy, PartialEq, Debug)]
enum Phase {
    Waiting,
    Settling { p0: f32, within: u32 },
    Set { p_ref: f32, tick: u32 },
}

struct Feedback {
    phase: Phase,
    p_int: f32,
    /// TRYCKGIVARFEL at the last report.
    fault: bool,
}

impl Feedback {
    fn new() -> Feedback {
        Feedback {
            phase: Phase::Waiting,
            p_int: 0.0,
            fault: false,
        }
    }

    fn reference(&self) -> Option<f32> {
        match self.phase {
            Phase::Set { p_ref, .. } => Some(p_ref),
            _ => None,
        }
    }

    fn drop(&self) -> f32 {
        self.reference().unwrap_or(0.0) - self.p_int
    }

    fn measure(&mut self, train: &Train, half_kpa: i16) {
        let p_ext = f32::from(half_kpa) / 2.0;
        self.fault = p_ext < -50.0 || p_ext > 955.0;
        self.p_int = if p_ext < -50.0 {
            self.reference().unwrap_or(0.0)
        } else if train.cylinder {
            cylinder(p_ext, train.p_full)
        } else {
            p_ext.clamp(0.0, 550.0)
        };
        self.phase = next_phase(self.phase, self.p_int);
    }
}

fn cylinder(p_ext: f32, p_full: f32) -> f32 {
    let p = if p_ext < 0.0 || p_ext > 955.0 {
        0.0
    } else {
        p_ext
    };
    (500.0 - (150.0 * p) / p_full).clamp(0.0, 550.0)
}

fn next_phase(phase: Phase, p_int: f32) -> Phase {
    match phase {
        Phase::Settling { p0, within } if (p_int - p0).abs() <= 20.0 => {
            if within + 1 == 30 {
                Phase::Set { p_ref: p0, tick: 0 }
            } else {
                Phase::Settling {
                    p0,
                    within: within + 1,
                }
            }
        }
        Phase::Waiting | Phase::Settling { .. } => {
            if (400.0..=550.0).contains(&p_int) {
                Phase::Settling {
                    p0: p_int,
                    within: 0,
                }
            } else {
                Phase::Waiting
            }
        }
        Phase::Set { p_ref, tick } if tick + 1 == 10 => Phase::Set {
            p_ref: adapted(p_ref, p_int),
            tick: 0,
        },
        Phase::Set { p_ref, tick } => Phase::Set {
            p_ref,
            tick: tick + 1,
        },
    }
}

fn adapted(p_ref: f32, p_int: f32) -> f32 {
    if p_ref < p_int {
        p_ref + 1.5
    } else if p_int < p_ref && p_ref <= p_int + 30.0 {
        p_ref - 0.5
    } else {
        p_ref
    }
}

// ---------------------------------------------------------------- curves

const A: u8 = 1;
const AB: u8 = 2;
const BF: u8 = 3;
const B: u8 = 4;
const C: u8 = 5;
const D: u8 = 6;
const E: u8 = 7;
const F: u8 = 8;

fn at_least(v: i64, k: i64) -> bool {
    9 * v >= 250 * k
}

fn above(v: i64, k: i64) -> bool {
    9 * v > 250 * k
}

impl Train {
    fn lead_d(&self) -> i64 {
        self.t_b + self.extra
    }
    fn lead_c(&self) -> i64 {
        self.lead_d() + self.g_c
    }
    fn lead_permitted(&self) -> i64 {
        self.lead_c() + self.g_p
    }
    fn lead_b(&self) -> i64 {
        self.lead_permitted() + 30
    }
    fn lead_bf(&self) -> i64 {
        self.lead_b() + self.g_bf
    }
}

impl Curve {
    fn w(&self) -> i64 {
        if self.stop {
            0
        } else {
            250 * self.speed
        }
    }

    fn deceleration(&self, train: &Train, halka: bool) -> i64 {
        let b = if halka {
            train.soft_deceleration
        } else {
            train.full
        };
        b + if self.gradient > 0 { 9 } else { 10 } * self.gradient
    }

    /// Whether the boundary with this lead is reached at speed v.
    fn reached(&self, b: i64, v: i64, lead: i64) -> bool {
        let (u, w) = (9 * v, self.w());
        above(v, self.speed) && 50 * (u * u - w * w) >= 81 * b * (10 * self.distance - v * lead)
    }

    fn reached_f(&self, b: i64, v: i64, f_margin: i64) -> bool {
        let (u, w) = (9 * v - 250 * f_margin, self.w());
        above(v, self.speed) && u > w && 50 * (u * u - w * w) >= 81 * b * 10 * self.distance
    }

    /// The computed interval: A, or Bf and later.
    fn interval(&self, train: &Train, halka: bool, v: i64) -> u8 {
        let b = self.deceleration(train, halka);
        if self.reached_f(b, v, train.f_margin) {
            F
        } else if self.reached(b, v, 0) {
            E
        } else if self.reached(b, v, train.lead_d()) {
            D
        } else if self.reached(b, v, train.lead_c()) {
            C
        } else if self.reached(b, v, train.lead_b()) {
            B
        } else if self.reached(b, v, train.lead_bf()) {
            BF
        } else {
            A
        }
    }

    /// The most whole cm that can still be covered at v with no change of the computed interval: the least over the boundaries
    /// after it of the ground up to the last cm before each.
    fn to_change(&self, train: &Train, halka: bool, v: i64) -> u32 {
        let now = self.interval(train, halka, v);
        let b = self.deceleration(train, halka);
        let w = self.w();
        let left = |u: i64, lead: i64| {
            let reaches = (50 * (u * u - w * w) + 81 * b * v * lead).div_euclid(810 * b);
            self.distance - reaches - 1
        };
        let mut least = None;
        if above(v, self.speed) {
            let leads = [
                (BF, train.lead_bf()),
                (B, train.lead_b()),
                (C, train.lead_c()),
                (D, train.lead_d()),
                (E, 0),
            ];
            let later = leads.iter().filter(|(interval, _)| *interval > now);
            least = later.map(|(_, lead)| left(9 * v, *lead)).min();
            let u = 9 * v - 250 * train.f_margin;
            if now < F && u > w {
                least = Some(least.map_or(left(u, 0), |n| n.min(left(u, 0))));
            }
        }
        least.map_or(u32::MAX, |n| n as u32)
    }

    /// Whether the curve brakes, its computed interval given.
    fn brakes(&self, interval: u8, v: i64) -> bool {
        let fast = if self.stop {
            above(v, self.speed)
        } else {
            at_least(v, self.speed + 10)
        };
        interval >= D && fast
    }

    /// Whether the permitted boundary is reached at k km/h.
    fn reached_at_limit(&self, b: i64, k: i64, lead: i64) -> bool {
        let (u, w) = (250 * k, self.w());
        k > self.speed && 9 * 50 * (u * u - w * w) >= 81 * b * (9 * 10 * self.distance - u * lead)
    }

    /// The largest k of 0..=300 at which the permitted boundary isn't reached.
    fn permitted(&self, train: &Train, halka: bool) -> i64 {
        let b = self.deceleration(train, halka);
        let lead = train.lead_permitted();
        let (mut low, mut high) = (0, 300);
        while low < high {
            let middle = (low + high + 1) / 2;
            if self.reached_at_limit(b, middle, lead) {
                high = middle - 1;
            } else {
                low = middle;
            }
        }
        low
    }
}

// ---------------------------------------------------------------- areas

/// km/h: the most in the partially equipped area where no GMD was passed.
const DARK: i64 = 130;
/// cm from the first group without overlap to the partially equipped area.
const OVERLAP_GROUND: i64 = 5_000;

impl Area {
    /// Whether an event is taken in this area: table 4.4-4 of 001, a GMD inside, and the entries.
    fn takes(self, event: Event) -> bool {
        match event {
            Event::Signal => self == Area::NonEquipped || self == Area::Ht,
            Event::Gmd(_) => self == Area::NonEquipped || self == Area::Partial,
            Event::HtDeleted | Event::NoOverlap => self == Area::Full,
            Event::Entry(to) => self != to,
        }
    }
}

// ---------------------------------------------------------------- ET records

const RECORD_PLACES: usize = 8;
/// cm after which a record is locked that no controlling signal has decided.
const EVALUATION: i64 = 10_000;

impl Record {
    /// What a passed signal makes of a record: `None` if it is terminated.
    fn after(self, kind: Signal, route: Route) -> Option<Record> {
        let undecided = matches!(self.condition, Condition::Undecided { .. });
        if !undecided || kind != self.controlled_by {
            return Some(self);
        }
        let condition = match (kind, route == self.route) {
            (Signal::Main, false) => return None,
            (Signal::Main, true) => Condition::DefinitelyActive,
            (Signal::Distant, false) => Condition::PreliminaryPassive,
            (Signal::Distant, true) => Condition::PreliminaryActive,
        };
        Some(Record { condition, ..self })
    }

    fn move_by(&mut self, moved: i64) {
        self.curve.distance = (self.curve.distance - moved).max(0);
        if let Condition::Undecided { ground } = self.condition {
            self.condition = if ground + moved >= EVALUATION {
                Condition::Locked
            } else {
                Condition::Undecided { ground: ground + moved }
            };
        }
    }

    /// Whether a repeater may take its place.
    fn gives_way(&self) -> bool {
        matches!(
            self.condition,
            Condition::DefinitelyActive | Condition::PreliminaryActive
        )
    }

    /// Whether it counts as a curve.
    fn supervised(&self) -> bool {
        self.gives_way() || self.condition == Condition::Locked
    }
}

// ---------------------------------------------------------------- unit

const OVERSPEED: u16 = 1 << 0;
const OVERSPEED_EMERGENCY: u16 = 1 << 1;
const CURVE_FULL: u16 = 1 << 2;
const CURVE_HALKA: u16 = 1 << 3;
const CURVE_EMERGENCY: u16 = 1 << 4;
const STOP_AIMED: u16 = 1 << 5;
const STOP_UNEXPECTED: u16 = 1 << 6;
const STOP_UNEXPECTED_FULL: u16 = 1 << 7;
const LANDSLIDE: u16 = 1 << 8;
const BALISE: u16 = 1 << 9;
const ROLLING: u16 = 1 << 10;
const NO_SERVICE_DROP: u16 = 1 << 11;

const EMERGENCY: u16 =
    OVERSPEED_EMERGENCY | CURVE_EMERGENCY | STOP_AIMED | STOP_UNEXPECTED | NO_SERVICE_DROP;
const FULL: u16 = CURVE_FULL | STOP_UNEXPECTED_FULL | LANDSLIDE;

const PLACES: usize = 16;
const CHECKED_DROP: f32 = 60.0;
/// Tenths of a second: the extra lead where no approved ETCS test exists and no brake test has passed (F-3).
const UNTESTED: i64 = 50;
const ROLLED_TOO_FAR: i64 = 500;

type Report = [u8; 19];

/// A brake test that runs (F-3): its own pressure settles, then it brakes, counting the reports since.
#[derive(Clone, Copy)]
enum BrakeTest {
    Settling(Phase),
    Braking { p0: f32, count: i64 },
}

struct Unit {
    train: Train,
    state: State,
    feedback: Feedback,
    speed: i64,
    buttons: u8,
    curves: Vec<Curve>,
    records: Vec<Record>,
    sections: Vec<Section>,
    /// The 40 after an unexpected stop.
    forty: bool,
    causes: u16,
    halted_since_stop: bool,
    halted_since_landslide: bool,
    braked_since: bool,
    /// Reports still to come before bit 9 may be released, where its last error came at 80 km/h or below (F-2).
    waiting: Option<i64>,
    /// Ground rolled in neutral since a halt, while that is counted.
    rolled: Option<i64>,
    /// Reports since the order began, until the check is satisfied or has judged.
    service_check: Option<i64>,
    emergency_check: Option<i64>,
    service_fault: bool,
    emergency_fault: bool,
    test: Option<BrakeTest>,
    /// Whether the last brake test that ended passed.
    tested: Option<bool>,
    area: Area,
    /// The speed of the last GMD passed in this stay in the partially equipped area.
    gmd: Option<i64>,
    /// Ground since the first group without overlap, while the change of area pends.
    since_group: Option<i64>,
}

impl Unit {
    fn new(train: Train) -> Unit {
        Unit {
            train,
            state: State::De,
            feedback: Feedback::new(),
            speed: 0,
            buttons: LOSS | TEXT | HALKA | NEUTRAL,
            curves: Vec::with_capacity(PLACES),
            records: Vec::with_capacity(RECORD_PLACES),
            sections: Vec::with_capacity(PLACES),
            forty: false,
            causes: 0,
            halted_since_stop: false,
            halted_since_landslide: false,
            braked_since: false,
            waiting: None,
            rolled: None,
            service_check: None,
            emergency_check: None,
            service_fault: false,
            emergency_fault: false,
            test: None,
            tested: None,
            area: Area::Full,
            gmd: None,
            since_group: None,
        }
    }

    /// Refusals 10 to 18.
    fn refusal(&self, command: &Command) -> Option<u8> {
        let in_da = self.state == State::Da;
        let in_hs_or_da = in_da || self.state == State::Hs;
        let allowed = match command {
            Command::Start(_) | Command::Odometer(_) | Command::TestBrakes => true,
            Command::State(next) => self.path_to(*next),
            Command::StopPassed(_) | Command::BaliseError => in_da,
            Command::Curve(_)
            | Command::CurveEnd(_)
            | Command::Section(_)
            | Command::SectionEnd(_)
            | Command::Proceed
            | Command::AreaEvent(_)
            | Command::Record(_)
            | Command::SignalPassed(..)
            | Command::RecordEnd(_) => in_hs_or_da,
        };
        if !allowed {
            return Some(10);
        }
        match command {
            Command::State(State::Da) if self.feedback.reference().is_none() => Some(11),
            Command::CurveEnd(id) if self.curves.iter().all(|c| c.id != *id) => Some(12),
            Command::SectionEnd(id)
                if self
                    .sections
                    .iter()
                    .all(|s| s.id != *id || s.ending.is_some()) =>
            {
                Some(12)
            }
            Command::Curve(new)
                if self.curves.len() == PLACES && self.curves.iter().all(|c| c.id != new.id) =>
            {
                Some(13)
            }
            Command::Section(new)
                if self.sections.len() == PLACES
                    && self.sections.iter().all(|s| s.id != new.id) =>
            {
                Some(13)
            }
            Command::TestBrakes if self.state != State::De => Some(14),
            Command::TestBrakes if self.test.is_some() => Some(15),
            Command::AreaEvent(event) if !self.area.takes(*event) => Some(16),
            Command::Record(new) => match self.record(new.curve.id) {
                None if self.records.len() == RECORD_PLACES => Some(17),
                Some(held) if !held.gives_way() => Some(18),
                _ => None,
            },
            Command::RecordEnd(id) if self.record(*id).is_none() => Some(12),
            _ => None,
        }
    }

    fn record(&self, id: u8) -> Option<&Record> {
        self.records.iter().find(|r| r.curve.id == id)
    }

    fn path_to(&self, next: State) -> bool {
        next == State::Fa
            || matches!(
                (self.state, next),
                (State::De, State::Cs)
                    | (State::De, State::Da)
                    | (State::Cs, State::Hs)
                    | (State::Hs, State::Cs)
                    | (State::Hs, State::Da)
                    | (State::Da, State::Cs)
            )
    }

    fn obey(&mut self, command: Command) {
        match command {
            Command::Start(train) => *self = Unit::new(train),
            Command::State(next) => self.enter(next),
            Command::Odometer(report) => self.odometer(&report),
            Command::Curve(new) => match self.curves.iter_mut().find(|c| c.id == new.id) {
                Some(held) => {
                    *held = Curve {
                        past_b: held.past_b,
                        ..new
                    }
                }
                None => self.curves.push(new),
            },
            Command::CurveEnd(id) => self.curves.retain(|c| c.id != id),
            Command::Section(new) => match self.sections.iter_mut().find(|s| s.id == new.id) {
                Some(held) => *held = new,
                None => self.sections.push(new),
            },
            Command::SectionEnd(id) => {
                if let Some(held) = self.sections.iter_mut().find(|s| s.id == id) {
                    held.ending = Some(0);
                }
            }
            Command::StopPassed(kind) => {
                let before = self.causes;
                match kind {
                    0 => {
                        self.causes |= STOP_AIMED;
                        self.halted_since_stop = false;
                    }
                    1 => {
                        self.causes |= STOP_UNEXPECTED | STOP_UNEXPECTED_FULL;
                        self.braked_since = false;
                        self.forty = true;
                    }
                    _ => {
                        self.causes |= LANDSLIDE;
                        self.halted_since_landslide = false;
                    }
                }
                self.begin_checks(before);
            }
            Command::Proceed => self.forty = false,
            Command::BaliseError => {
                let before = self.causes;
                self.causes |= BALISE;
                self.waiting = if above(self.speed, 80) { None } else { Some(20) };
                self.begin_checks(before);
            }
            Command::TestBrakes => self.test = Some(BrakeTest::Settling(Phase::Waiting)),
            Command::AreaEvent(event) => self.pass(event),
            Command::Record(new) => {
                self.records.retain(|r| r.curve.id != new.curve.id);
                self.records.push(new);
            }
            Command::SignalPassed(kind, route) => {
                let held = std::mem::take(&mut self.records);
                self.records
                    .extend(held.into_iter().filter_map(|r| r.after(kind, route)));
            }
            Command::RecordEnd(id) => self.records.retain(|r| r.curve.id != id),
        }
    }

    /// An event that is taken in this area.
    fn pass(&mut self, event: Event) {
        match event {
            Event::Signal | Event::HtDeleted => self.enter_area(Area::Partial),
            Event::Gmd(speed) => {
                if self.area != Area::Partial {
                    self.sections.clear();
                    self.enter_area(Area::Partial);
                }
                self.gmd = Some(speed);
            }
            Event::NoOverlap => {
                self.since_group.get_or_insert(0);
            }
            Event::Entry(to) => self.enter_area(to),
        }
    }

    fn enter_area(&mut self, to: Area) {
        self.area = to;
        self.gmd = None;
        self.since_group = None;
    }

    fn enter(&mut self, next: State) {
        self.state = next;
        if self.test.is_some() {
            self.end_test(false);
        }
        if next == State::Cs {
            self.curves.clear();
            self.records.clear();
            self.sections.clear();
            self.forty = false;
            self.causes = 0;
            self.halted_since_stop = false;
            self.halted_since_landslide = false;
            self.braked_since = false;
            self.waiting = None;
            self.rolled = None;
            self.service_check = None;
            self.emergency_check = None;
            self.service_fault = false;
            self.since_group = None;
        }
    }

    fn odometer(&mut self, report: &Odometer) {
        if self.state == State::Hs || self.state == State::Da {
            self.move_by(report.moved);
        }
        self.feedback.measure(&self.train, report.p_ext);
        let fresh = report.buttons & !self.buttons;
        self.buttons = report.buttons;
        self.speed = report.speed;
        match self.state {
            State::De => self.try_brakes(),
            State::Da => self.judge(report, fresh),
            _ => {}
        }
    }

    /// A report in DE, once measured, for a brake test that runs.
    fn try_brakes(&mut self) {
        let Some(test) = self.test else { return };
        let p_int = self.feedback.p_int;
        if self.feedback.fault || self.speed > 0 {
            self.end_test(false);
            return;
        }
        match test {
            BrakeTest::Settling(phase) => {
                self.test = Some(match next_phase(phase, p_int) {
                    Phase::Set { p_ref, .. } => BrakeTest::Braking { p0: p_ref, count: 0 },
                    unsettled => BrakeTest::Settling(unsettled),
                })
            }
            BrakeTest::Braking { p0, .. } if p0 - p_int >= CHECKED_DROP => self.end_test(true),
            BrakeTest::Braking { count, .. } if count + 1 == self.train.t_b => self.end_test(false),
            BrakeTest::Braking { p0, count } => {
                self.test = Some(BrakeTest::Braking { p0, count: count + 1 })
            }
        }
    }

    fn end_test(&mut self, passed: bool) {
        self.test = None;
        self.tested = Some(passed);
        if passed {
            self.train.extra = 0;
        }
    }

    fn move_by(&mut self, moved: i64) {
        for curve in &mut self.curves {
            curve.distance = (curve.distance - moved).max(0);
        }
        for record in &mut self.records {
            record.move_by(moved);
        }
        for section in &mut self.sections {
            section.ending = section.ending.map(|ground| ground + moved);
        }
        let length = self.train.length;
        self.sections
            .retain(|s| s.ending.is_none_or(|ground| ground < length));
        self.since_group = self.since_group.map(|ground| ground + moved);
        if self.since_group.is_some_and(|ground| ground >= OVERLAP_GROUND) {
            self.enter_area(Area::Partial);
        }
    }

    /// A report in DA, once moved and measured: adds causes, then releases.
    fn judge(&mut self, report: &Odometer, fresh: u8) {
        let before = self.causes;
        let v = report.speed;

        let halt = report.speed == 0 && report.moved == 0;
        if halt {
            self.halted_since_stop = true;
            self.halted_since_landslide = true;
        }
        if 10 * report.measured >= 7 * self.train.full {
            self.braked_since = true;
        }
        self.waiting = self.waiting.map(|left| left - 1);
        self.rolled = if halt {
            Some(0)
        } else if report.buttons & NEUTRAL != 0 {
            self.rolled.map(|ground| ground + report.moved)
        } else {
            None
        };

        let vmax = self.vmax();
        if at_least(v, vmax + 10) {
            self.causes |= OVERSPEED;
        }
        if at_least(v, vmax + self.train.emergency_margin) {
            self.causes |= OVERSPEED_EMERGENCY;
        }

        let halka = self.halka();
        let insufficient = self.insufficient();
        let mut braking = false;
        let records = self.records.iter_mut().filter(|r| r.supervised());
        for curve in self.curves.iter_mut().chain(records.map(|r| &mut r.curve)) {
            let interval = curve.interval(&self.train, halka, v);
            if interval >= B {
                curve.past_b = true;
            }
            if curve.brakes(interval, v) {
                braking = true;
                if interval >= E || insufficient {
                    self.causes |= if halka { CURVE_HALKA } else { CURVE_FULL };
                }
                if interval == F {
                    self.causes |= CURVE_EMERGENCY;
                }
            }
        }

        if self.rolled.is_some_and(|ground| ground > ROLLED_TOO_FAR) {
            self.causes |= ROLLING;
        }

        if self.check_fails(|unit| &mut unit.service_check, self.train.t_b) {
            self.causes |= NO_SERVICE_DROP;
            self.service_fault = true;
        }
        if self.check_fails(|unit| &mut unit.emergency_check, self.train.t_ebchk) {
            self.emergency_fault = true;
            self.state = State::Fa;
            return;
        }
        self.begin_checks(before);
        self.release(fresh, vmax, braking);
    }

    /// Counts one report for a running check; true when it judges now and fails.
    fn check_fails(&mut self, check: fn(&mut Unit) -> &mut Option<i64>, limit: i64) -> bool {
        let dropped = self.feedback.drop() >= CHECKED_DROP;
        let running = check(self);
        match *running {
            None => false,
            Some(_) if dropped => {
                *running = None;
                false
            }
            Some(count) if count + 1 == limit => {
                *running = None;
                true
            }
            Some(count) => {
                *running = Some(count + 1);
                false
            }
        }
    }

    /// Begins the check of an order that stands now and did not before.
    fn begin_checks(&mut self, before: u16) {
        if before == 0 && self.causes != 0 {
            self.service_check = Some(0);
        }
        if before & EMERGENCY == 0 && self.causes & EMERGENCY != 0 {
            self.emergency_check = Some(0);
        }
    }

    fn release(&mut self, fresh: u8, vmax: i64, braking: bool) {
        let releasable = self.releasable(vmax, braking);
        if fresh & LOSS != 0 {
            self.causes &= !(releasable & !ROLLING);
        }
        if fresh & TEXT != 0 && self.causes & ROLLING != 0 {
            self.causes &= !ROLLING;
            self.rolled = self.rolled.map(|_| 0);
        }
        if self.causes == 0 {
            self.service_check = None;
            self.service_fault = false;
        }
        if self.causes & EMERGENCY == 0 {
            self.emergency_check = None;
        }
    }

    /// The standing causes that are releasable.
    fn releasable(&self, vmax: i64, braking: bool) -> u16 {
        let mut free = ROLLING;
        if !at_least(self.speed, vmax + 5) {
            free |= OVERSPEED | OVERSPEED_EMERGENCY | STOP_UNEXPECTED_FULL;
        }
        if !braking {
            free |= CURVE_FULL | CURVE_HALKA | CURVE_EMERGENCY;
        }
        if self.halted_since_stop {
            free |= STOP_AIMED;
        }
        if self.braked_since {
            free |= STOP_UNEXPECTED;
        }
        if self.halted_since_landslide {
            free |= LANDSLIDE;
        }
        if self.waiting.map_or(!above(self.speed, 80), |left| left <= 0) {
            free |= BALISE;
        }
        if self.causes & !NO_SERVICE_DROP & !free == 0 {
            free |= NO_SERVICE_DROP;
        }
        self.causes & free
    }

    fn halka(&self) -> bool {
        self.buttons & HALKA != 0
    }

    fn insufficient(&self) -> bool {
        self.feedback.drop() < self.train.sufficient
    }

    fn vmax(&self) -> i64 {
        let mut vmax = self.train.speed;
        for section in &self.sections {
            vmax = vmax.min(section.speed);
        }
        if self.forty {
            vmax = vmax.min(40);
        }
        if self.area == Area::Partial {
            vmax = vmax.min(self.gmd.unwrap_or(DARK));
        }
        vmax
    }

    fn order(&self) -> u8 {
        if self.causes & EMERGENCY != 0 {
            3
        } else if self.causes & FULL != 0 || (self.causes != 0 && !self.train.soft) {
            2
        } else if self.causes != 0 {
            1
        } else {
            0
        }
    }

    fn report(&self) -> Report {
        let mut report = [0; 19];
        report[0] = self.state as u8;
        report[8] = 255;
        report[14..18].fill(255);
        report[18] = self.area as u8;
        report[12] = u8::from(self.service_fault)
            | u8::from(self.emergency_fault) << 1
            | u8::from(self.feedback.fault) << 2
            | u8::from(self.test.is_some()) << 3
            | u8::from(self.tested == Some(true)) << 4
            | u8::from(self.tested == Some(false)) << 5;
        match self.state {
            State::De if matches!(self.test, Some(BrakeTest::Braking { .. })) => report[1] = 2,
            State::Da => self.report_in_da(&mut report),
            State::Fa => report[1] = 3,
            _ => {}
        }
        report
    }

    fn report_in_da(&self, report: &mut Report) {
        let vmax = self.vmax();
        let halka = self.halka();
        let mut permitted = vmax;
        let mut braking = false;
        let mut shown: Option<((Reverse<u8>, i64, bool, u8), &Curve)> = None;
        let records = self.records.iter().filter(|r| r.supervised());
        let supervised = self.curves.iter().map(|c| (false, c));
        for (is_record, curve) in supervised.chain(records.map(|r| (true, &r.curve))) {
            let interval = curve.interval(&self.train, halka, self.speed);
            let own = curve.permitted(&self.train, halka);
            permitted = permitted.min(own);
            braking |= curve.brakes(interval, self.speed);
            let rank = (Reverse(interval), own, is_record, curve.id);
            if shown.is_none_or(|(best, _)| rank < best) {
                shown = Some((rank, curve));
            }
        }

        report[1] = self.order();
        report[2..4].copy_from_slice(&self.causes.to_be_bytes());
        report[4..6].copy_from_slice(&(permitted as u16).to_be_bytes());
        report[6..8].copy_from_slice(&(vmax as u16).to_be_bytes());
        if let Some(((Reverse(computed), _, is_record, id), curve)) = shown {
            let interval = if curve.past_b && computed <= BF {
                AB
            } else {
                computed
            };
            report[8] = id;
            report[9] = interval;
            report[10] = match interval {
                A => 0,
                BF => 1,
                _ => 2,
            };
            report[11] = self.mode(interval, curve);
            report[12] |= u8::from(is_record) << 6;
            let change = curve.to_change(&self.train, halka, self.speed);
            report[14..18].copy_from_slice(&change.to_be_bytes());
        }
        let releasable = self.releasable(vmax, braking);
        report[13] =
            u8::from(releasable & !ROLLING != 0) | u8::from(releasable & ROLLING != 0) << 1;
    }

    fn mode(&self, interval: u8, curve: &Curve) -> u8 {
        match interval {
            A => 0,
            BF => 1,
            AB => 2,
            B => {
                let b = curve.deceleration(&self.train, self.halka());
                if curve.reached(b, self.speed, self.train.lead_permitted()) {
                    3
                } else {
                    2
                }
            }
            C => 3,
            D => {
                if self.insufficient() {
                    4
                } else {
                    3
                }
            }
            _ => 4,
        }
    }
}

// ---------------------------------------------------------------- chain

/// The unit once started, with the last accepted command and its report.
struct Host {
    unit: Option<Unit>,
    last: Vec<u8>,
    number: u32,
    report: Report,
}

impl Host {
    fn new() -> Host {
        Host {
            unit: None,
            last: Vec::new(),
            number: 0,
            report: [0; 19],
        }
    }

    /// Takes a command of known code and right length; gives the answer.
    fn take(&mut self, bytes: &[u8]) -> u8 {
        let code = bytes[0];
        let number = u32::from_be_bytes([bytes[1], bytes[2], bytes[3], bytes[4]]);
        let start = code == START;
        if self.unit.is_none() && !start {
            return 5;
        }
        if number == 0 {
            return 6;
        }
        let again = self.unit.is_some() && bytes == self.last;
        if !start && !again && self.number.checked_add(1) != Some(number) {
            return 7;
        }
        let failed = self
            .unit
            .as_ref()
            .is_some_and(|unit| unit.state == State::Fa);
        if failed && !start && !again {
            return 8;
        }
        if again {
            return 100;
        }
        let Some(command) = decode(code, &bytes[5..]) else {
            return 9;
        };
        match (&mut self.unit, command) {
            (None, Command::Start(train)) => self.unit = Some(Unit::new(train)),
            (None, _) => return 5,
            (Some(unit), command) => {
                if let Some(refusal) = unit.refusal(&command) {
                    return refusal;
                }
                unit.obey(command);
            }
        }
        if let Some(unit) = &self.unit {
            self.report = unit.report();
        }
        self.last.clear();
        self.last.extend_from_slice(bytes);
        self.number = number;
        0
    }
}

// ---------------------------------------------------------------- stream

fn write_report(output: &mut impl Write, answer: u8, report: &Report) -> io::Result<()> {
    const DIGITS: &[u8; 16] = b"0123456789ABCDEF";
    let mut text = [0; 38];
    for (pair, byte) in text.chunks_exact_mut(2).zip(report) {
        pair[0] = DIGITS[usize::from(byte >> 4)];
        pair[1] = DIGITS[usize::from(byte & 15)];
    }
    write!(output, "{answer} ")?;
    output.write_all(&text)?;
    output.write_all(b"\n")
}

/// Fills the buffer as far as the input goes; gives the count of bytes read.
fn fill(input: &mut impl Read, buffer: &mut [u8]) -> io::Result<usize> {
    let mut filled = 0;
    while filled < buffer.len() {
        match input.read(&mut buffer[filled..]) {
            Ok(0) => break,
            Ok(count) => filled += count,
            Err(error) if error.kind() == io::ErrorKind::Interrupted => {}
            Err(error) => return Err(error),
        }
    }
    Ok(filled)
}

fn run(mut input: impl Read, mut output: impl Write) -> io::Result<()> {
    let mut host = Host::new();
    let mut command = [0; LONGEST];
    while fill(&mut input, &mut command[..1])? == 1 {
        let Some(length) = length_of(command[0]) else {
            writeln!(output, "3")?;
            break;
        };
        if fill(&mut input, &mut command[1..length])? != length - 1 {
            writeln!(output, "4")?;
            break;
        }
        match host.take(&command[..length]) {
            answer @ (0 | 100) => write_report(&mut output, answer, &host.report)?,
            refusal => writeln!(output, "{refusal}")?,
        }
    }
    output.flush()
}

fn main() -> io::Result<()> {
    run(
        BufReader::with_capacity(1 << 16, io::stdin().lock()),
        BufWriter::with_capacity(1 << 16, io::stdout().lock()),
    )
}

// ---------------------------------------------------------------- figures

#[cfg(test)]
mod tests {
    use super::*;

    fn bytes(text: &str) -> Vec<u8> {
        let digits: String = text.split_whitespace().collect();
        (0..digits.len())
            .step_by(2)
            .map(|at| u8::from_str_radix(&digits[at..at + 2], 16).unwrap())
            .collect()
    }

    fn lines(input: &[u8]) -> String {
        let mut output = Vec::new();
        run(input, &mut output).unwrap();
        String::from_utf8(output).unwrap()
    }

    const EXAMPLE_START: &str = "01 00000001 00 00A0 0190 02BC 01F4 1E 14 14 1E 0A 0F 32 017C 0D";

    fn example_train() -> Train {
        match decode(START, &bytes(EXAMPLE_START)[5..]) {
            Some(Command::Start(train)) => train,
            _ => panic!("the example start is in range"),
        }
    }

    fn unit_in_da(train: Train, p_ref: f32) -> Unit {
        let mut unit = Unit::new(train);
        unit.feedback.phase = Phase::Set { p_ref, tick: 0 };
        unit.state = State::Da;
        unit
    }

    fn odometer(speed: i64, moved: i64, measured: i64, buttons: u8) -> Command {
        Command::Odometer(Odometer {
            speed,
            moved,
            measured,
            p_ext: 1000,
            buttons,
        })
    }

    /// A report at a standstill.
    fn standing(half_kpa: i16) -> Command {
        Command::Odometer(Odometer {
            speed: 0,
            moved: 0,
            measured: 0,
            p_ext: half_kpa,
            buttons: 0,
        })
    }

    /// Order and messages as a command leaves them.
    fn after(unit: &mut Unit, command: Command) -> (u8, u8) {
        unit.obey(command);
        let report = unit.report();
        (report[1], report[12])
    }

    fn settled_test(train: Train) -> Unit {
        let mut unit = Unit::new(train);
        assert_eq!(after(&mut unit, Command::TestBrakes), (0, 8));
        for _ in 0..30 {
            assert_eq!(after(&mut unit, standing(1000)), (0, 8));
        }
        assert_eq!(after(&mut unit, standing(1000)), (2, 8));
        unit
    }

    fn curve(stop: bool, distance: i64, speed: i64) -> Curve {
        Curve {
            id: 7,
            stop,
            distance,
            speed,
            gradient: 0,
            past_b: false,
        }
    }

    #[test]
    fn example_stream() {
        let state = "02 00000002 01";
        let input = bytes(&format!(
            "{EXAMPLE_START} {state} {state} 02 00000003 03 7F"
        ));
        assert_eq!(
            lines(&input),
            "0 0000000000000000FF0000000000FFFFFFFF08\n\
             0 0100000000000000FF0000000000FFFFFFFF08\n\
             100 0100000000000000FF0000000000FFFFFFFF08\n\
             10\n\
             3\n"
        );
    }

    #[test]
    fn ends_of_streams() {
        assert_eq!(lines(&[]), "");
        assert_eq!(lines(&[0x10]), "4\n");
        assert_eq!(lines(&[0xFF]), "3\n");
        assert_eq!(lines(&bytes("31 00000001 32 0000")), "5\n4\n");
        assert_eq!(lines(&bytes("31 00000001")), "5\n");
    }

    #[test]
    fn curve_figures() {
        let train = example_train();
        assert_eq!((train.full, train.t_b), (700, 30));
        let at = |d| curve(false, d, 40).interval(&train, false, 2500);
        assert!(at(35_824) >= E);
        assert!(at(35_825) < E);
        assert!(at(43_324) >= D);
        assert!(at(43_325) < D);
        assert_eq!(at(35_824), E);
        assert_eq!(at(35_825), D);
        assert_eq!(at(43_325), C);

        assert_eq!(train.f_margin, 10);
        let released = curve(true, 0, 40);
        assert_eq!(released.interval(&train, false, 1111), A);
        assert_eq!(released.interval(&train, false, 1112), F);
    }

    #[test]
    fn change_figures() {
        let train = example_train();
        let at = |d, v| curve(false, d, 40).to_change(&train, false, v);
        assert_eq!(at(43_324, 2500), 7_499);
        assert_eq!(at(43_325, 2500), 0);
        assert_eq!(at(35_824, 2500), 9_368);
        assert_eq!(at(26_455, 2500), u32::MAX);
        assert_eq!(at(1_467, 1200), u32::MAX);
        assert_eq!(at(1_467, 1111), u32::MAX);
        assert_eq!(at(0, 1200), u32::MAX);
    }

    #[test]
    fn the_next_centimetre_changes() {
        let train = example_train();
        for stop in [false, true] {
            for distance in (0..200_000).step_by(4_321) {
                for (gradient, v) in [(-30, 2500), (0, 1112), (0, 2500), (3, 4000), (30, 9999)] {
                    let at = |d| Curve {
                        gradient,
                        ..curve(stop, d, 40)
                    };
                    let now = at(distance).interval(&train, false, v);
                    let same = |n: &i64| at(distance - n).interval(&train, false, v) == now;
                    let most = (0..=distance).take_while(same).last().unwrap();
                    let figure = if most == distance { u32::MAX } else { most as u32 };
                    assert_eq!(at(distance).to_change(&train, false, v), figure);
                }
            }
        }
    }

    #[test]
    fn at_or_under_the_target_is_a() {
        let train = Train {
            t_b: 100,
            g_c: 200,
            g_p: 200,
            g_bf: 200,
            ..example_train()
        };
        assert_eq!(curve(false, 0, 90).interval(&train, false, 2500), A);
        assert_eq!(curve(false, 0, 90).permitted(&train, false), 90);
    }

    #[test]
    fn halving_finds_the_largest_speed() {
        let train = example_train();
        for stop in [false, true] {
            for distance in (0..1_000_000).step_by(4_321) {
                for gradient in [-30, -1, 0, 1, 30] {
                    let curve = Curve {
                        gradient,
                        ..curve(stop, distance, 40)
                    };
                    let b = curve.deceleration(&train, false);
                    let free = |k: &i64| !curve.reached_at_limit(b, *k, train.lead_permitted());
                    let largest = (0..=300).rev().find(free).unwrap();
                    assert_eq!(curve.permitted(&train, false), largest);
                }
            }
        }
    }

    #[test]
    fn overspeed_figures() {
        let train = Train {
            speed: 100,
            ..example_train()
        };
        let mut unit = unit_in_da(train, 500.0);
        unit.obey(odometer(3055, 0, 0, 0));
        assert_eq!((unit.causes, unit.report()[1]), (0, 0));
        unit.obey(odometer(3056, 0, 0, 0));
        assert_eq!(unit.causes, OVERSPEED);
        unit.obey(odometer(2917, 0, 0, 0));
        assert_eq!(unit.report()[13], 0);
        unit.obey(odometer(2917, 0, 0, LOSS));
        assert_eq!(unit.causes, OVERSPEED);
        unit.obey(odometer(2916, 0, 0, LOSS));
        assert_eq!((unit.causes, unit.report()[13]), (OVERSPEED, 1));
        unit.obey(odometer(2916, 0, 0, 0));
        unit.obey(odometer(2916, 0, 0, LOSS));
        assert_eq!(unit.causes, 0);
    }

    #[test]
    fn pressure_figures() {
        let train = Train {
            cylinder: true,
            ..example_train()
        };
        assert_eq!(train.p_full, 380.0);
        let mut feedback = Feedback::new();
        feedback.measure(&train, 2 * 380);
        assert_eq!((feedback.p_int, feedback.fault), (350.0, false));
        feedback.measure(&train, 2 * 956);
        assert_eq!((feedback.p_int, feedback.fault), (500.0, true));
        feedback.measure(&train, 2 * 955);
        assert!(!feedback.fault);
        feedback.measure(&train, 2 * -50);
        assert_eq!((feedback.p_int, feedback.fault), (500.0, false));
        feedback.measure(&train, 2 * -50 - 1);
        assert_eq!((feedback.p_int, feedback.fault), (0.0, true));

        assert_eq!(adapted(480.0, 450.0), 479.5);
        assert_eq!(adapted(480.5, 450.0), 480.5);
        assert_eq!(adapted(449.5, 450.0), 451.0);
        assert_eq!(adapted(450.0, 450.0), 450.0);
    }

    #[test]
    fn cylinder_is_near_the_exact_fraction() {
        for p_full in 150..=600 {
            for half in 0..=1910 {
                let exact = 500.0 * f64::from(p_full) - 75.0 * f64::from(half);
                let exact = exact.clamp(0.0, 550.0 * f64::from(p_full));
                let p_int = cylinder(half as f32 / 2.0, p_full as f32);
                let apart = (f64::from(p_int) * f64::from(p_full) - exact).abs();
                assert!(apart * 16_384.0 <= f64::from(p_full), "{} {}", half, p_full);
            }
        }
    }

    #[test]
    fn settling_takes_31_reports_and_adapts_at_the_41st() {
        let train = example_train();
        let mut feedback = Feedback::new();
        feedback.measure(&train, 2 * 400);
        for _ in 0..29 {
            feedback.measure(&train, 2 * 420);
            assert_eq!(feedback.reference(), None);
        }
        feedback.measure(&train, 2 * 420);
        assert_eq!(feedback.reference(), Some(400.0));
        for _ in 0..9 {
            feedback.measure(&train, 2 * 420);
            assert_eq!(feedback.reference(), Some(400.0));
        }
        feedback.measure(&train, 2 * 420);
        assert_eq!(feedback.reference(), Some(401.5));
    }

    #[test]
    fn measured_deceleration_figures() {
        let mut unit = unit_in_da(example_train(), 500.0);
        unit.obey(Command::StopPassed(1));
        assert_eq!(unit.causes, STOP_UNEXPECTED | STOP_UNEXPECTED_FULL);
        unit.obey(odometer(1300, 0, 489, 0));
        assert_eq!(unit.report()[13], 0);
        unit.obey(odometer(1300, 0, 490, 0));
        assert_eq!(unit.report()[13], 1);
        unit.obey(odometer(1300, 0, 0, LOSS));
        assert_eq!(unit.causes, STOP_UNEXPECTED_FULL);
    }

    #[test]
    fn a_section_ends_behind_the_train() {
        let train = Train {
            length: 1000,
            ..example_train()
        };
        let mut unit = unit_in_da(train, 500.0);
        unit.obey(Command::Section(Section {
            id: 1,
            speed: 50,
            ending: None,
        }));
        unit.obey(Command::SectionEnd(1));
        unit.obey(odometer(100, 999, 0, 0));
        assert_eq!(unit.vmax(), 50);
        unit.obey(odometer(100, 1, 0, 0));
        assert_eq!(unit.vmax(), 160);
    }

    #[test]
    fn a_brake_test_passes_with_60_kpa_up_to_t_b() {
        let train = Train {
            t_b: 3,
            ..example_train()
        };
        for early in [0, 1, 2] {
            let mut unit = settled_test(train);
            for _ in 0..early {
                assert_eq!(after(&mut unit, standing(1000 - 119)), (2, 8));
            }
            assert_eq!(after(&mut unit, standing(1000 - 120)), (0, 16));
            assert_eq!(after(&mut unit, Command::TestBrakes), (0, 24));
        }
        let mut unit = settled_test(train);
        assert_eq!(after(&mut unit, standing(1000)), (2, 8));
        assert_eq!(after(&mut unit, standing(1000)), (2, 8));
        assert_eq!(after(&mut unit, standing(1000 - 119)), (0, 32));
    }

    #[test]
    fn a_brake_test_fails_by_pressure_speed_and_state() {
        let train = example_train();
        for bad in [standing(-101), standing(1911), odometer(1, 0, 0, 0)] {
            let mut unit = settled_test(train);
            let (order, messages) = after(&mut unit, bad);
            assert_eq!((order, messages & !4), (0, 32));
        }
        let mut unit = settled_test(train);
        assert_eq!(after(&mut unit, standing(-100)), (0, 16));
        for state in [State::Cs, State::Da, State::Fa] {
            let mut unit = settled_test(train);
            assert_eq!(after(&mut unit, Command::State(state)).1, 32);
        }
    }

    #[test]
    fn the_extra_goes_with_the_first_test_that_passes() {
        let untested = Train {
            extra: UNTESTED,
            ..example_train()
        };
        let at = |train: &Train, d| curve(false, d, 40).interval(train, false, 2500);
        assert_eq!((at(&untested, 35_824), at(&untested, 35_825)), (E, D));
        assert_eq!((at(&untested, 55_824), at(&untested, 55_825)), (D, C));
        let mut unit = settled_test(untested);
        unit.obey(standing(880));
        assert_eq!((at(&unit.train, 43_324), at(&unit.train, 43_325)), (D, C));
        unit.obey(Command::TestBrakes);
        unit.obey(odometer(1, 0, 0, 0));
        assert_eq!((unit.tested, unit.train.extra), (Some(false), 0));
    }

    fn fast_unit() -> Unit {
        let train = Train {
            speed: 200,
            ..example_train()
        };
        unit_in_da(train, 500.0)
    }

    /// Hands an event to the unit, refused or not; gives the area's digit and VMAX.
    fn told(unit: &mut Unit, event: Event) -> (u8, i64) {
        let command = Command::AreaEvent(event);
        if unit.refusal(&command).is_none() {
            unit.obey(command);
        }
        (unit.report()[18], unit.vmax())
    }

    #[test]
    fn events_are_taken_by_the_table() {
        let taken = [
            (Area::NonEquipped, "0156"),
            (Area::Partial, "1456"),
            (Area::Ht, "046"),
            (Area::Full, "2345"),
        ];
        for (area, numbers) in taken {
            for number in 0..=6 {
                let event = event_of(number, if number == 1 { 90 } else { 0 }).unwrap();
                assert_eq!(area.takes(event), numbers.contains(char::from(b'0' + number)));
            }
        }
        assert!(event_of(7, 0).is_none() && event_of(0, 10).is_none());
        assert!(event_of(1, 9).is_none() && event_of(1, 301).is_none() && event_of(1, 0).is_none());
    }

    #[test]
    fn the_area_changes_at_50_m() {
        let mut unit = fast_unit();
        assert_eq!(told(&mut unit, Event::NoOverlap), (8, 200));
        for _ in 0..4 {
            unit.obey(odometer(3900, 1200, 0, 0));
        }
        told(&mut unit, Event::NoOverlap);
        unit.obey(odometer(3900, 199, 0, 0));
        assert_eq!((unit.report()[18], unit.causes), (8, 0));
        unit.obey(odometer(3900, 1, 0, 0));
        assert_eq!((unit.report()[18], unit.vmax(), unit.causes), (4, 130, OVERSPEED));
    }

    #[test]
    fn a_stay_has_its_own_speed() {
        let mut unit = fast_unit();
        assert_eq!(told(&mut unit, Event::HtDeleted), (4, 130));
        assert_eq!(told(&mut unit, Event::Gmd(90)), (4, 90));
        assert_eq!(told(&mut unit, Event::Gmd(170)), (4, 170));
        assert_eq!(told(&mut unit, Event::Entry(Area::Ht)), (9, 200));
        assert_eq!(told(&mut unit, Event::Gmd(90)), (9, 200));
        assert_eq!(told(&mut unit, Event::Signal), (4, 130));
    }

    #[test]
    fn an_entering_gmd_deletes_sections() {
        let section = || {
            Command::Section(Section {
                id: 1,
                speed: 50,
                ending: None,
            })
        };
        let mut unit = fast_unit();
        unit.obey(section());
        assert_eq!(told(&mut unit, Event::Entry(Area::NonEquipped)), (7, 50));
        assert_eq!(told(&mut unit, Event::Gmd(100)), (4, 100));
        unit.obey(section());
        assert_eq!(told(&mut unit, Event::Gmd(110)), (4, 50));
    }

    fn record(id: u8, category: u8, metres: u16, speed: u16) -> Command {
        let (d, k) = (metres.to_be_bytes(), speed.to_be_bytes());
        decode(RECORD, &[id, category, d[0], d[1], k[0], k[1], 0]).unwrap()
    }

    fn signal(kind: u8, route: u8) -> Command {
        decode(SIGNAL_PASSED, &[kind, route]).unwrap()
    }

    fn given(unit: &mut Unit, command: Command) -> u8 {
        let refusal = unit.refusal(&command);
        if refusal.is_none() {
            unit.obey(command);
        }
        refusal.unwrap_or(0)
    }

    /// The shown id, the message that it is a record's, the permitted speed and the causes.
    fn said(unit: &Unit) -> (u8, bool, u8, u16) {
        let report = unit.report();
        (report[8], report[12] & 64 != 0, report[5], unit.causes)
    }

    #[test]
    fn signals_decide_by_the_table() {
        use Condition::*;
        // Categories RF, RH, GF, GH; signals main R, main G, distant R, distant G.
        let undecided = Some(Undecided { ground: 0 });
        let table = [
            [undecided, undecided, Some(PreliminaryActive), Some(PreliminaryPassive)],
            [Some(DefinitelyActive), None, undecided, undecided],
            [undecided, undecided, Some(PreliminaryPassive), Some(PreliminaryActive)],
            [None, Some(DefinitelyActive), undecided, undecided],
        ];
        for (category, row) in (0..).zip(table) {
            for (number, condition) in (0..).zip(row) {
                let mut unit = fast_unit();
                assert_eq!(given(&mut unit, record(9, category, 500, 40)), 0);
                assert_eq!(given(&mut unit, signal(number / 2, number % 2)), 0);
                assert_eq!(unit.record(9).map(|r| r.condition), condition);
                // No later signal touches what is decided.
                if condition != undecided {
                    for later in 0..4 {
                        unit.obey(signal(later / 2, later % 2));
                    }
                    assert_eq!(unit.record(9).map(|r| r.condition), condition);
                }
            }
        }
    }

    #[test]
    fn a_record_locks_at_100_m() {
        for (last, locked) in [(399, false), (400, true), (401, true)] {
            let mut unit = fast_unit();
            unit.obey(record(9, 0, 90, 40));
            for _ in 0..8 {
                unit.obey(odometer(2500, 1200, 0, 0));
                assert_eq!(said(&unit), (255, false, 200, 0));
            }
            unit.obey(odometer(2500, last, 0, 0));
            assert_eq!(unit.record(9).unwrap().curve.distance, 0);
            if locked {
                assert_eq!(said(&unit), (9, true, 40, CURVE_FULL | CURVE_EMERGENCY));
            } else {
                assert_eq!(said(&unit), (255, false, 200, 0));
            }
        }
    }

    #[test]
    fn eight_records_and_repeaters() {
        let mut unit = fast_unit();
        for id in 0..8 {
            assert_eq!(given(&mut unit, record(id, id % 4, 5000, 40)), 0);
        }
        assert_eq!(given(&mut unit, record(8, 0, 5000, 40)), 17);
        assert_eq!(given(&mut unit, record(7, 0, 5000, 40)), 18);
        unit.obey(signal(0, 0));
        // Ids 3 and 7, of GH, are terminated; 1 and 5, of RH, are active.
        assert_eq!(unit.records.len(), 6);
        assert_eq!(given(&mut unit, record(5, 2, 4000, 90)), 0);
        assert_eq!(given(&mut unit, record(5, 2, 4000, 90)), 18);
        assert_eq!(given(&mut unit, record(8, 0, 5000, 40)), 0);
        assert_eq!(given(&mut unit, record(3, 0, 5000, 40)), 0);
        assert_eq!(given(&mut unit, record(7, 0, 5000, 40)), 17);
        assert_eq!(given(&mut unit, Command::RecordEnd(7)), 12);
        assert_eq!(given(&mut unit, Command::CurveEnd(5)), 12);
        assert_eq!(given(&mut unit, Command::RecordEnd(5)), 0);
        unit.obey(Command::State(State::Cs));
        assert!(unit.records.is_empty());
    }

    #[test]
    fn a_curve_is_shown_before_a_record() {
        for (of_curve, of_record) in [(3, 7), (7, 3)] {
            let mut unit = fast_unit();
            unit.obey(record(of_record, 1, 2000, 40));
            unit.obey(signal(0, 0));
            unit.obey(Command::Curve(Curve {
                id: of_curve,
                ..curve(false, 200_000, 40)
            }));
            unit.obey(odometer(2500, 0, 0, 0));
            assert_eq!(said(&unit).0, of_curve);
            assert!(!said(&unit).1);
            unit.obey(Command::CurveEnd(of_curve));
            assert_eq!(said(&unit).0, of_record);
            assert!(said(&unit).1);
        }
    }
}
