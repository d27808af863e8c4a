//! Steps and traces: their reading, the firing rule, and runs.

use crate::broken::{broken, idle_answer, note_fired, Broken};
use crate::cause::{Refusal, INNER_BELOW, INNER_DIFFERS, NOT_IN_MARKING, NO_ROOM, OUTER};
use crate::marking::{
    changed, found, inner_projection, likes_in, outer_projection, read_block, Bag, InnerSums, Line, Marking,
};
use crate::model::{within_slice, Event, InnerCounts, Mode, Model, OuterCounts, LIKES, TOKENS};
use crate::text::Reader;

/// A step: an event, counted from 0, and the lines of the racks taken and given.
#[derive(Clone, Debug)]
pub struct Step {
    pub event: usize,
    pub taken: Vec<Line>,
    pub given: Vec<Line>,
}

/// The number of the `take` line, counted from the `fire` line.
const TAKE_LINE: usize = 2;

impl Step {
    /// The number of the `give` line.
    fn give_line(&self) -> usize {
        TAKE_LINE + self.taken.len() + 1
    }
}

/// Fires the step that a text begins with; gives the number of bytes used.
pub fn step(model: &Model, marking: &mut Marking, text: &[u8]) -> Result<usize, Refusal> {
    within_slice(text)?;
    let mut reader = Reader::new(text);
    let step = read_step(&mut reader, model)?;
    fire(model, marking, &step)?;
    Ok(reader.used())
}

fn read_step(reader: &mut Reader, model: &Model) -> Result<Step, Refusal> {
    let event = reader.number("fire", 1, model.events.len())? - 1;
    let taken = read_block(reader, model, "take")?;
    let given = read_block(reader, model, "give")?;
    Ok(Step { event, taken, given })
}

/// Fires a step where the predicate holds, the taken racks are in the marking and there is room.
pub fn fire(model: &Model, marking: &mut Marking, step: &Step) -> Result<(), Refusal> {
    if let Some(answer) = idle_answer() {
        return answer;
    }
    predicate(model, step)?;
    let after = changed(marking.bag(), &found(marking.bag(), &step.taken), &step.given);
    if broken(Broken::RoomBeforeMarking) || broken(Broken::LikesBeforeMarking) && too_many_alike(&after) {
        test_room(marking, step, &after)?;
    }
    if let Some(at) = not_in(marking, step) {
        if broken(Broken::RefusedStepMoves) {
            let rest = changed(marking.bag(), &step.taken[..at], &[]);
            marking.replace(rest, &[]);
        }
        let line = if broken(Broken::NotInMarkingAtFirst) { first_like(step, at) } else { at };
        return Err(Refusal::new(NOT_IN_MARKING, TAKE_LINE + 1 + line));
    }
    test_room(marking, step, &after)?;
    if !broken(Broken::FiredMovesNothing) {
        marking.replace(after, &step.given);
    }
    note_fired();
    Ok(())
}

/// The firing predicate (000, equation 5).
fn predicate(model: &Model, step: &Step) -> Result<(), Refusal> {
    let event = &model.events[step.event];
    if broken(Broken::GivenBeforeTaken) {
        test_outer(&step.given, &event.outer_post, step.give_line())?;
    }
    match event.mode {
        Mode::Idle(_) if broken(Broken::IdlingAnywhere) => {}
        Mode::Alone(net) => test_alone(model, net, step)?,
        _ => {
            test_outer(&step.taken, &event.outer_pre, TAKE_LINE)?;
            test_outer(&step.given, &event.outer_post, step.give_line())?;
        }
    }
    test_inner(model, event, step)
}

/// One rack of the net is taken, and one net-token given where it stood.
fn test_alone(model: &Model, net: usize, step: &Step) -> Result<(), Refusal> {
    if broken(Broken::AloneOnTwo) && two_of_net(model, net, step) {
        return Ok(());
    }
    let one = |line: &Line| line.times == 1 || broken(Broken::AloneOnLikes);
    let taken = match step.taken[..] {
        [rack] if one(&rack) && alone_takes(model, net, &rack) => rack,
        _ => return Err(Refusal::new(OUTER, TAKE_LINE)),
    };
    let elsewhere =
        |rack: &Line| broken(Broken::AloneGivesElsewhere) && racks_of(model, &[*rack], net).count() == 1;
    match step.given[..] {
        [given] if one(&given) && (given.place() == taken.place() || elsewhere(&given)) => Ok(()),
        _ if broken(Broken::AloneGiveAtTake) => Err(Refusal::new(OUTER, TAKE_LINE)),
        _ => Err(Refusal::new(OUTER, step.give_line())),
    }
}

/// Whether this net-token can be the one that `alone` of the net takes.
fn alone_takes(model: &Model, net: usize, rack: &Line) -> bool {
    let place = rack.place();
    match model.net_of(place) {
        None => broken(Broken::AloneOfBlackToken),
        Some(other) if other != net => broken(Broken::AloneOfAnyNet),
        Some(_) => {
            let first = model.types[..place].iter().all(|&other| other != model.types[place]);
            first || !broken(Broken::AloneAtFirstPlace)
        }
    }
}

/// Broken: whether two racks of the net are taken, and as many net-tokens given at their places.
fn two_of_net(model: &Model, net: usize, step: &Step) -> bool {
    let racks = |lines: &mut dyn Iterator<Item = &Line>| lines.map(|line| line.times).sum::<u64>();
    racks(&mut step.taken.iter()) == 2
        && racks(&mut racks_of(model, &step.taken, net)) == 2
        && outer_projection(&step.taken) == outer_projection(&step.given)
}

/// The inner projections of all nets: 9 over all of them, then 10.
fn test_inner(model: &Model, event: &Event, step: &Step) -> Result<(), Refusal> {
    let taken = inner_projection(model, &step.taken);
    let given = inner_projection(model, &step.given);
    let fails_pre = |net: usize| below(&taken[net], &event.inner_pre[net]) || rack_below(model, step, net);
    let fails_post = |net: usize| {
        let made = differs(&given[net], &taken[net], &event.inner_pre[net], &event.inner_post[net]);
        let let_pass = fresh_rack_filled(model, step, net) || leaves_with_tokens(model, step, net);
        made && !let_pass || leaves_filled(model, step, net)
    };
    if broken(Broken::PreAndPostNetByNet) {
        return test_net_by_net(model.nets.len(), fails_pre, fails_post);
    }
    refuse_net(INNER_BELOW, model.nets.len(), fails_pre)?;
    refuse_net(INNER_DIFFERS, model.nets.len(), fails_post)
}

fn test_outer(racks: &[Line], counts: &OuterCounts, line: usize) -> Result<(), Refusal> {
    if outer_projection(racks) != counts.map(u64::from) {
        return Err(Refusal::new(OUTER, line));
    }
    Ok(())
}

/// Refuses beside the least net at fault.
fn refuse_net(number: usize, nets: usize, at_fault: impl Fn(usize) -> bool) -> Result<(), Refusal> {
    let found = if broken(Broken::GreatestNet) {
        (0..nets).rev().find(|&net| at_fault(net))
    } else {
        (0..nets).find(|&net| at_fault(net))
    };
    found.map_or(Ok(()), |net| Err(Refusal::new(number, net + 1)))
}

/// Whether the inner projection of the taken racks is below pre at some inner place.
fn below(taken: &InnerSums, pre: &InnerCounts) -> bool {
    if broken(Broken::InnerPreNotTested) {
        return false;
    }
    taken.iter().zip(pre).any(|(&taken, &pre)| taken < u64::from(pre))
}

/// Whether the inner projection of the given racks is not the taken one, less pre, plus post.
fn differs(given: &InnerSums, taken: &InnerSums, pre: &InnerCounts, post: &InnerCounts) -> bool {
    let used_up = !broken(Broken::InnerPreNotUsedUp);
    let places = || taken.iter().zip(pre).zip(post);
    let after =
        places().map(|((&taken, &pre), &post)| taken as i64 - pre as i64 * i64::from(used_up) + post as i64);
    if broken(Broken::InnerTotalsOnly) {
        return given.iter().map(|&count| count as i64).sum::<i64>() != after.sum();
    }
    !after.eq(given.iter().map(|&count| count as i64))
}

/// The first taken line, counted from 0, whose likes so far, itself with them, are more than the marking has.
fn not_in(marking: &Marking, step: &Step) -> Option<usize> {
    let mut so_far = Bag::new();
    step.taken.iter().position(|line| {
        if broken(Broken::EqualTakenAsOne) {
            so_far.clear();
        }
        let times = if broken(Broken::NotInMarkingByLines) { 1 } else { line.times };
        *so_far.entry(line.row).or_default() += times;
        likes_in(&so_far, &line.row) > likes_in(marking.bag(), &line.row)
    })
}

/// Broken: the first line like this one.
fn first_like(step: &Step, at: usize) -> usize {
    step.taken.iter().position(|line| line.row == step.taken[at].row).unwrap_or(at)
}

/// Refuses more unlike net-tokens after the step than are held, or else more alike.
fn test_room(marking: &Marking, step: &Step, after: &Bag) -> Result<(), Refusal> {
    let with_taken = || changed(marking.bag(), &[], &step.given);
    let unlike = unlike(marking, step, after);
    let alike = if broken(Broken::LikesNotFreed) {
        too_many_alike(&with_taken())
    } else {
        too_many_alike(after) && !broken(Broken::LikesNotTested)
    };
    if unlike > TOKENS as u64 || alike {
        return Err(Refusal::new(NO_ROOM, step.give_line()));
    }
    Ok(())
}

/// How many unlike net-tokens there are after the step.
fn unlike(marking: &Marking, step: &Step, after: &Bag) -> u64 {
    let bag = marking.bag();
    let racks = |lines: &[Line]| lines.iter().map(|line| line.times).sum::<u64>();
    let there = bag.len() as u64;
    let new = |after: &Bag| after.keys().filter(|row| !bag.contains_key(*row)).count() as u64;
    let gone = after.iter().filter(|(row, &likes)| likes == 0 && bag.contains_key(*row)).count() as u64;
    if broken(Broken::RoomNotFreed) {
        there + new(&changed(bag, &[], &step.given))
    } else if broken(Broken::RoomByLines) {
        (there + step.given.len() as u64).saturating_sub(step.taken.len() as u64)
    } else if broken(Broken::RoomByRacks) {
        (bag.values().sum::<u64>() + racks(&step.given)).saturating_sub(racks(&step.taken))
    } else {
        there + new(after) - gone
    }
}

fn too_many_alike(bag: &Bag) -> bool {
    bag.values().any(|&likes| likes > LIKES)
}

/// A trace's run: why it stopped, the steps fired before, and the bytes that the header and they used; none where no step
/// was tried.
#[derive(Clone, Copy, Debug)]
pub struct Run {
    pub stop: Result<(), Refusal>,
    pub fired: usize,
    pub at: usize,
}

/// Runs a trace to its end, or to the first step that does not fire.
pub fn run(model: &Model, marking: &mut Marking, text: &[u8]) -> Run {
    let before = broken(Broken::RunUndone).then(|| marking.clone());
    let mut steps = Vec::new();
    let stop = run_steps(model, marking, text, &mut steps);
    if let (Some(before), Err(_)) = (before, stop) {
        *marking = before;
    }
    let fired = steps.len().saturating_sub(1);
    let skipped = usize::from(broken(Broken::StopBehindTheHeader));
    Run { stop, fired, at: steps.iter().skip(skipped).sum() }
}

/// Runs the header and the steps, and notes the bytes that each used.
fn run_steps(
    model: &Model,
    marking: &mut Marking,
    text: &[u8],
    used: &mut Vec<usize>,
) -> Result<(), Refusal> {
    within_slice(text)?;
    let mut reader = Reader::new(text);
    reader.header("run", &["1"])?;
    used.push(reader.used());
    let mut rest = &text[reader.used()..];
    while !rest.is_empty() {
        let at = text.len() - rest.len();
        let bytes = step(model, marking, rest).map_err(|refusal| stop(refusal, &text[..at]))?;
        used.push(bytes);
        rest = &rest[bytes..];
    }
    Ok(())
}

/// The refusal of a step as the stop of a run; broken copies count its lines from the trace's first.
fn stop(mut refusal: Refusal, before: &[u8]) -> Refusal {
    if broken(Broken::StopLinesOfTheTrace) && refusal.beside_a_line() {
        refusal.beside += before.iter().filter(|&&byte| byte == b'\n').count();
    }
    refusal
}

/// Broken: whether a taken rack of the net alone is below pre.
fn rack_below(model: &Model, step: &Step, net: usize) -> bool {
    let pre = &model.events[step.event].inner_pre[net];
    broken(Broken::InnerPreRackByRack)
        && racks_of(model, &step.taken, net)
            .any(|rack| rack.inside().iter().zip(pre).any(|(&count, &pre)| u32::from(count) < pre))
}

/// Broken: whether racks of a net that pre lacks may arrive with any inside.
fn fresh_rack_filled(model: &Model, step: &Step, net: usize) -> bool {
    broken(Broken::FreshRackFilled) && racks_of(model, &step.taken, net).next().is_none()
}

/// Whether racks of the net are taken and none is given.
fn leaves(model: &Model, step: &Step, net: usize) -> bool {
    let some = |racks: &[Line]| racks_of(model, racks, net).next().is_some();
    some(&step.taken) && !some(&step.given)
}

/// Broken: whether racks of a net of which none is given may leave with any inside.
fn leaves_with_tokens(model: &Model, step: &Step, net: usize) -> bool {
    broken(Broken::LeavesWithTokens) && leaves(model, step, net)
}

/// Broken: whether racks of a net of which none is given hold anything before the move.
fn leaves_filled(model: &Model, step: &Step, net: usize) -> bool {
    let filled = |rack: &Line| rack.inside().iter().any(|&count| count > 0);
    broken(Broken::LeavesOnlyEmpty)
        && leaves(model, step, net)
        && racks_of(model, &step.taken, net).any(filled)
}

fn racks_of<'a>(model: &'a Model, racks: &'a [Line], net: usize) -> impl Iterator<Item = &'a Line> {
    let of_net = move |line: &&Line| model.net_of(line.place()) == Some(net);
    racks.iter().filter(of_net)
}

/// Broken: both inner tests for a net before those of the next.
fn test_net_by_net(
    nets: usize,
    fails_pre: impl Fn(usize) -> bool,
    fails_post: impl Fn(usize) -> bool,
) -> Result<(), Refusal> {
    for net in 0..nets {
        if fails_pre(net) {
            return Err(Refusal::new(INNER_BELOW, net + 1));
        }
        if fails_post(net) {
            return Err(Refusal::new(INNER_DIFFERS, net + 1));
        }
    }
    Ok(())
}
