//! What a closed mesh is made of: parts, handles, pinched hubs and spare positions.
use crate::mesh::Mesh;
use std::collections::HashMap;

#[derive(Clone, Copy, Debug, PartialEq, Eq)]
pub struct Build {
    /// Faces joined across edges are one part.
    pub parts: usize,
    pub handles: usize,
    /// Vertices with more than one fan.
    pub pinched: usize,
    /// Positions in no face.
    pub spare: usize,
}

pub fn build(mesh: &Mesh) -> Build {
    let next = successors(mesh);
    let mates = mates(mesh, &next);
    let corners = next.len();
    let round = next.iter().copied().enumerate().map(|(corner, next)| [corner, next]);
    let across = mates.iter().copied().enumerate().map(|(corner, mate)| [corner, mate]);
    let parts = groups(corners, round.chain(across)).len();
    // The corner after the mate is at the vertex that the window starts at.
    let turns = mates.iter().enumerate().map(|(corner, mate)| [corner, next[*mate]]);
    let fans = groups(corners, turns);
    let mut fans_of = vec![0; mesh.position_count()];
    for corner in &fans {
        fans_of[mesh.corners[*corner] as usize] += 1;
    }
    // Where a vertex counts once a fan, V - E + F is twice the parts less twice the handles.
    let twice = 2 * parts + corners / 2 - fans.len() - mesh.face_count();
    Build {
        parts,
        handles: twice / 2,
        pinched: fans_of.iter().filter(|count| **count > 1).count(),
        spare: fans_of.iter().filter(|count| **count == 0).count(),
    }
}

/// For each corner the next one round its face.
fn successors(mesh: &Mesh) -> Vec<usize> {
    let of_face = |ends: &[u32]| {
        let (start, end) = (ends[0] as usize, ends[1] as usize);
        (start..end).map(move |corner| if corner + 1 == end { start } else { corner + 1 })
    };
    mesh.offsets.windows(2).flat_map(of_face).collect()
}

/// For each corner the one whose window is the same edge turned round.
fn mates(mesh: &Mesh, next: &[usize]) -> Vec<usize> {
    let window = |corner: usize| (mesh.corners[corner], mesh.corners[next[corner]]);
    let starts: HashMap<(u32, u32), usize> =
        (0..next.len()).map(|corner| (window(corner), corner)).collect();
    let turned = |(from, to): (u32, u32)| starts[&(to, from)];
    (0..next.len()).map(|corner| turned(window(corner))).collect()
}

/// One corner of each group, where the two corners of a pair are in one group.
fn groups(corners: usize, pairs: impl Iterator<Item = [usize; 2]>) -> Vec<usize> {
    let mut above: Vec<usize> = (0..corners).collect();
    for pair in pairs {
        let [a, b] = pair.map(|corner| top(&mut above, corner));
        above[a] = b;
    }
    (0..corners).filter(|corner| above[*corner] == *corner).collect()
}

/// The corner that stands for the group; the way to it gets shorter.
fn top(above: &mut [usize], mut corner: usize) -> usize {
    while above[corner] != corner {
        above[corner] = above[above[corner]];
        corner = above[corner];
    }
    corner
}
