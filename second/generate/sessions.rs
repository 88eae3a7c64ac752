//! Random sessions, whole and damaged, of every length up to and over the longest that is read.
use super::charts;
use super::random::Random;

const LONGEST: usize = 16_384;
const EVENT_RECORD: usize = 3;

pub fn any(random: &mut Random) -> Vec<u8> {
    if random.one_in(12) {
        return long(random);
    }
    let chart = charts::any(random);
    let mut bytes = with_chart(&chart.bytes);
    for _ in 0..random.below(12) {
        add_event(random, &mut bytes, chart.draft.events);
    }
    if random.percent(40) {
        damage(random, &mut bytes, chart.bytes.len());
    }
    bytes
}

fn with_chart(chart: &[u8]) -> Vec<u8> {
    let mut bytes = b"SE".to_vec();
    bytes.extend((chart.len() as u16).to_le_bytes());
    bytes.extend(chart);
    bytes
}

/// Most events are the chart's; 0 and those beyond are refused, and the session goes on.
fn add_event(random: &mut Random, bytes: &mut Vec<u8>, events: u8) {
    let event = if random.percent(85) { random.between(1, events as usize) as u8 } else { random.pick(&[0, events + 1, 255]) };
    bytes.extend([b'E', b'V', event]);
}

/// As long as a session may be, or a little shorter or longer; a chart whose steps take their time is not worth it.
fn long(random: &mut Random) -> Vec<u8> {
    let draft = charts::valid(random);
    let mut bytes = with_chart(&draft.bytes());
    let length = LONGEST - 3 + random.below(6);
    while bytes.len() < length {
        add_event(random, &mut bytes, draft.events);
    }
    if random.percent(50) {
        bytes.truncate(length);
    }
    bytes
}

fn damage(random: &mut Random, bytes: &mut Vec<u8>, chart: usize) {
    const BEFORE_CHART: usize = 4;
    let events = (bytes.len() - BEFORE_CHART - chart) / EVENT_RECORD;
    match random.below(8) {
        0 => bytes[random.below(2)] ^= random.nonzero_byte(),
        1 => bytes.truncate(random.below(BEFORE_CHART + 1)),
        2 => bytes.truncate(random.between(BEFORE_CHART, BEFORE_CHART + chart)),
        3 => bytes[2] = bytes[2].wrapping_add(random.pick(&[1, 255, 3])),
        4 => bytes[3] = random.pick(&[0, 1, 255]),
        5 => bytes.truncate(bytes.len() - random.below(EVENT_RECORD)),
        6 => bytes.extend(&b"EV"[..random.between(1, 2)]),
        _ if events > 0 => {
            let record = BEFORE_CHART + chart + EVENT_RECORD * random.below(events);
            bytes[record + random.below(2)] ^= random.nonzero_byte();
        }
        _ => bytes.extend(b"ev\x01"),
    }
}
