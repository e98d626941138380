//! Lists, recipes and panel files of the proved library, on the slices lent to them.
use crate::case::Case;
use crate::expected_runs::words;
use crate::library::{counted, in_groups, lend, read, Counted};
use crate::outcome::numbers;
use crate::recipe::List;
use crossglimmer::{slices, Counts, Filed, Lent, ListMasks, Work};

/// Lends the slices as an output and two work meshes.
fn carried(
    lent: &mut [Vec<u32>],
    call: impl FnOnce(Work, Lent) -> Result<Counts, crossglimmer::Refusal>,
) -> Counted {
    let (out, work) = lent.split_at_mut(3);
    let (first, second) = work.split_at_mut(3);
    let answer = lend(out, |out| {
        lend(first, |first| lend(second, |second| call(Work { first, second }, out)))
    });
    answer.map(counted)
}

pub fn list(list: List, case: &Case, lent: &mut [Vec<u32>]) -> Counted {
    let parameters = &case.parameters;
    let masks = ListMasks { arities: parameters.arities.as_deref(), regular: parameters.regular };
    let (list, ratio, height) = (named(list), parameters.ratio, parameters.height);
    carried(lent, |work, out| slices::list(list, read(&case.mesh), ratio, height, masks, work, out))
}

fn named(list: List) -> crossglimmer::List {
    match list {
        List::Bevel => crossglimmer::List::Bevel,
        List::Expand => crossglimmer::List::Expand,
        List::Join => crossglimmer::List::Join,
        List::Medial => crossglimmer::List::Medial,
        List::Meta => crossglimmer::List::Meta,
        List::Needle => crossglimmer::List::Needle,
        List::Ortho => crossglimmer::List::Ortho,
        List::Snub => crossglimmer::List::Snub,
        List::Truncate => crossglimmer::List::Truncate,
        List::Zip => crossglimmer::List::Zip,
    }
}

pub fn recipe(case: &Case, lent: &mut [Vec<u32>]) -> Counted {
    let (meshes, ledger) = lent.split_at_mut(9);
    let (steps, mesh) = (words(case), read(&case.mesh));
    carried(meshes, |work, out| slices::recipe(&steps, &mut ledger[0], mesh, work, out))
}

fn held(filed: Filed) -> Vec<usize> {
    let Filed { steps, positions, faces, corners } = filed;
    [steps, positions, faces, corners].map(|count| count as usize).to_vec()
}

pub fn file(case: &Case, lent: &mut [Vec<u32>]) -> Counted {
    lend(lent, |out| slices::panel_read(&case.extra.file, out)).map(held)
}

pub fn file_steps(case: &Case, lent: &mut Vec<u32>) -> Counted {
    in_groups(lent, |steps| slices::panel_steps(&case.extra.file, steps)).map(held)
}

pub fn file_write(case: &Case, lent: &mut Vec<u32>) -> Counted {
    let mut bytes: Vec<u8> = lent.iter().map(|number| *number as u8).collect();
    let written = slices::panel_write(&words(case), read(&case.mesh), &mut bytes);
    *lent = numbers(&bytes);
    written.map(|length| vec![length])
}
