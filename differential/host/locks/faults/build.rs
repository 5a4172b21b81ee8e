//! Scenes of plans with faults.

use super::{Fault, Part};
use crate::cell_hashes::Place;
use crate::locks::assembly::{self, first_group, output, plain_cell, plain_input, Bytes};
use crate::locks::capacities::{self, Wanted};
use crate::locks::plan::Plan;
use crate::prng::Prng;
use ckb_std::{Cell, Scene};

/// The bytes of a part that stands in the plan's bytes.
fn plan_part(bytes: &mut Bytes, part: Part) -> Option<&mut Vec<u8>> {
    match part {
        Part::Args => Some(&mut bytes.args),
        Part::Lock => Some(&mut bytes.lock),
        Part::State => Some(&mut bytes.state),
        Part::Successor => Some(&mut bytes.successor),
        Part::Script | Part::Witness => None,
    }
}

/// The bytes of a part that is made with the scene.
fn scene_part(scene: &mut Scene, part: Part) -> Option<&mut Vec<u8>> {
    let first = first_group(&scene.inputs);
    match part {
        Part::Script => Some(&mut scene.script),
        Part::Witness => scene.witnesses.get_mut(first),
        _ => None,
    }
}

/// A plain cell, behind the others of its kind.
fn new_cell<'a>(scene: &'a mut Scene, place: Place, prng: &mut Prng) -> &'a mut Cell {
    let cell = match place {
        Place::Output => {
            scene.outputs.push(output(plain_cell(prng)));
            scene.outputs.last_mut().map(|output| &mut output.cell)
        }
        Place::Dep => {
            scene.deps.push(plain_cell(prng));
            scene.deps.last_mut()
        }
        Place::GroupInput | Place::ForeignInput => {
            let group = place == Place::GroupInput;
            scene.inputs.push(plain_input(prng, group));
            scene.inputs.last_mut().map(|input| &mut input.cell)
        }
    };
    cell.expect("a cell")
}

fn cells(scene: &mut Scene, place: Place) -> Vec<&mut Cell> {
    let group = place == Place::GroupInput;
    match place {
        Place::Output => {
            let outputs = scene.outputs.iter_mut();
            outputs.map(|output| &mut output.cell).collect()
        }
        Place::Dep => scene.deps.iter_mut().collect(),
        Place::GroupInput | Place::ForeignInput => {
            let inputs = scene.inputs.iter_mut();
            let there = inputs.filter(|input| input.group == group);
            there.map(|input| &mut input.cell).collect()
        }
    }
}

fn any_cell<'a>(scene: &'a mut Scene, place: Place, prng: &mut Prng) -> &'a mut Cell {
    if cells(scene, place).is_empty() {
        new_cell(scene, place, prng);
    }
    let mut cells = cells(scene, place);
    cells.swap_remove(prng.up_to(cells.len() - 1))
}

fn change_plan(plan: &mut Plan, faults: &[Fault], prng: &mut Prng) {
    for fault in faults {
        if let Fault::Plan(change) = fault {
            change(plan, prng);
        }
    }
    for fault in faults {
        match fault {
            Fault::Waits(recovery_since, since) if plan.state.flags & 1 == 1 => {
                (plan.state.recovery_since, plan.since) = (*recovery_since, *since);
            }
            _ => {}
        }
    }
}

/// The totals that the faults ask for.
fn totals(faults: &[Fault]) -> Option<Wanted> {
    let wanted = |fault: &Fault| match fault {
        Fault::Totals(wanted) => Some(*wanted),
        _ => None,
    };
    faults.iter().filter_map(wanted).last()
}

/// The scene of a plan, each fault made as soon as what it changes is there.
pub fn build(prng: &mut Prng, mut plan: Plan, faults: &[Fault]) -> Scene {
    change_plan(&mut plan, faults, prng);
    let mut bytes = assembly::bytes(&plan);
    for fault in faults {
        if let Fault::Bytes(part, change) = fault {
            plan_part(&mut bytes, *part)
                .into_iter()
                .for_each(|bytes| change(bytes, prng));
        }
    }
    let mut scene = assembly::scene(prng, &plan, bytes);
    let totals = totals(faults);
    if let Some(wanted) = totals {
        wanted.add_lines(&mut scene, prng);
    }
    for fault in faults {
        match fault {
            Fault::Plan(_) | Fault::Waits(..) | Fault::Totals(_) => {}
            Fault::Cell(place, change) => change(any_cell(&mut scene, *place, prng), prng),
            Fault::NewCell(place, change) => change(new_cell(&mut scene, *place, prng), prng),
            Fault::Bytes(part, change) => {
                let part = scene_part(&mut scene, *part);
                part.into_iter().for_each(|bytes| change(bytes, prng));
            }
            Fault::Scene(change) => change(&mut scene, &plan, prng),
        }
    }
    match totals {
        Some(wanted) => wanted.put(&mut scene, prng),
        None => capacities::cover(&mut scene, prng),
    }
    scene
}
