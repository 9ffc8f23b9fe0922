//! Sharing a bus: the arbiter of request E14. Text in quotes in this file is from that
//! request.

/// "A bus has 10 requesters, 0 to 9".
pub const REQUESTERS: u8 = 10;
/// "the low place as 10"
pub const LOW_PLACE: u8 = 10;
/// "none yet as 15"
pub const NONE_YET: u8 = 15;

/// "A state names each ring's last granted member by number, the low place as 10, none yet
/// as 15."
#[derive(Clone, Copy, Debug, PartialEq, Eq)]
pub struct State {
    /// The place that the high ring granted last.
    pub high: u8,
    /// The member that the low ring granted last.
    pub low: u8,
}

impl State {
    /// "At first both rings stand before their lowest place."
    pub const FIRST: State = State { high: NONE_YET, low: NONE_YET };
}

/// What a step gives.
#[derive(Clone, Copy, Debug, PartialEq, Eq)]
pub struct Step {
    /// The member that has the grant: "No request gives no grant."
    pub granted: Option<u8>,
    /// The state after the step.
    pub state: State,
}

/// Whether a member is in a mask or request set.
fn has(set: u16, member: u8) -> bool {
    set.checked_shr(u32::from(member)).unwrap_or(0) & 1 == 1
}

/// Whether a mask or request set names requesters only; if not it has "a bit above 9".
fn requesters_only(set: u16) -> bool {
    set >> REQUESTERS == 0
}

/// Both rings of a mask, each the list of its places in their order.
struct Rings {
    high: Vec<u8>,
    low: Vec<u8>,
}

impl Rings {
    /// "in a high and a low group, by a mask (bit set: high)"; "The high ring has the high
    /// members by number and, last, one place for the whole low group."
    fn of(mask: u16) -> Rings {
        let members = 0..REQUESTERS;
        let (mut high, low): (Vec<u8>, Vec<u8>) = members.partition(|m| has(mask, *m));
        high.push(LOW_PLACE);
        Rings { high, low }
    }

    /// Whether the state names no "place its ring lacks".
    fn have(&self, state: State) -> bool {
        let has = |ring: &[u8], last: u8| last == NONE_YET || ring.contains(&last);
        has(&self.high, state.high) && has(&self.low, state.low)
    }

    /// The member that is granted and the state after it; none if nobody requests.
    fn grant(&self, last: State, requests: u16) -> Option<(u8, State)> {
        let member_requests = |member: u8| has(requests, member);
        // The low place stands "for the whole low group".
        let place_requests = |place: u8| match place {
            LOW_PLACE => self.low.iter().any(|member| member_requests(*member)),
            member => member_requests(member),
        };
        let place = next(&self.high, last.high, place_requests)?;
        if place != LOW_PLACE {
            return Some((place, State { high: place, ..last }));
        }
        // "the low place hands it to the next requesting low member after the last low one"
        let member = next(&self.low, last.low, member_requests)?;
        Some((member, State { high: place, low: member }))
    }
}

/// "the next requesting place after the last one granted", which is itself the last to be
/// tried. A ring that has granted none yet begins at its lowest place.
fn next(ring: &[u8], last: u8, requests: impl Fn(u8) -> bool) -> Option<u8> {
    let after = ring.iter().position(|place| *place == last).map_or(0, |at| at + 1);
    let mut round = ring.iter().copied().cycle().skip(after).take(ring.len());
    round.find(|place| requests(*place))
}

/// One step: the grant for a request set. 20: "A mask or request set with a bit above 9, or
/// a state that names a place its ring lacks".
pub fn step(mask: u16, state: State, requests: u16) -> Result<Step, u8> {
    let rings = Rings::of(mask);
    if !requesters_only(mask) || !requesters_only(requests) || !rings.have(state) {
        return Err(20);
    }
    Ok(match rings.grant(state, requests) {
        Some((member, state)) => Step { granted: Some(member), state },
        None => Step { granted: None, state },
    })
}

/// "For one mask and every list of request sets": the steps from the first state on. One
/// request set that is refused refuses the whole run, and so does the mask, even of an empty
/// list.
pub fn run(mask: u16, list: &[u16]) -> Result<Vec<Step>, u8> {
    if !requesters_only(mask) {
        return Err(20);
    }
    let mut state = State::FIRST;
    let mut steps = Vec::with_capacity(list.len());
    for requests in list {
        let step = step(mask, state, *requests)?;
        state = step.state;
        steps.push(step);
    }
    Ok(steps)
}
