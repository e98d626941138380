//! Whole meshes: solids, tori, pillows, and ways to put them together and number them anew.
use crate::mesh::{Face, Mesh, Point};
use crate::random::Random;

/// T of document 01.
pub fn tetrahedron() -> Mesh {
    Mesh::new(
        &[vec![0, 1, 2], vec![0, 3, 1], vec![0, 2, 3], vec![1, 3, 2]],
        &[[1.0, 1.0, 1.0], [-1.0, 1.0, -1.0], [1.0, -1.0, -1.0], [-1.0, -1.0, 1.0]],
    )
}

pub fn cube() -> Mesh {
    let faces = ["0132", "4675", "0451", "2376", "0264", "1573"];
    let digit = |d: char| d.to_digit(10).expect("a digit");
    let faces: Vec<Face> = faces.iter().map(|face| face.chars().map(digit).collect()).collect();
    let side = |vertex: usize, bit: usize| if vertex >> bit & 1 == 1 { 1.0 } else { -1.0 };
    let points: Vec<Point> = (0..8).map(|v| [side(v, 2), side(v, 1), side(v, 0)]).collect();
    Mesh::new(&faces, &points)
}

pub fn octahedron() -> Mesh {
    bipyramid(4)
}

/// Points nearly evenly round a circle, by operations that round alike on every machine.
fn circle(sides: usize, height: f32) -> Vec<Point> {
    (0..sides).map(|side| turn(side, sides)).map(|[x, y]| [x, y, height]).collect()
}

/// The direction after `part` of `whole` of a turn.
fn turn(part: usize, whole: usize) -> [f32; 2] {
    let quarter = 4 * part / whole;
    let within = (4 * part % whole) as f32 / whole as f32;
    // About the tangent of half the angle; exact at the quarter's ends.
    let tangent = within * (0.785 + 0.215 * within * within);
    let square = tangent * tangent;
    let (x, y) = ((1.0 - square) / (1.0 + square), 2.0 * tangent / (1.0 + square));
    [[x, y], [-y, x], [-x, -y], [y, -x]][quarter]
}

/// The windows (i, i + 1) round a ring of `sides`.
fn ring(sides: usize) -> impl Iterator<Item = (u32, u32)> {
    (0..sides as u32).map(move |side| (side, (side + 1) % sides as u32))
}

pub fn prism(sides: usize) -> Mesh {
    let n = sides as u32;
    let mut faces: Vec<Face> = vec![(0..n).rev().collect(), (n..2 * n).collect()];
    faces.extend(ring(sides).map(|(i, j)| vec![i, j, n + j, n + i]));
    Mesh::new(&faces, &[circle(sides, -1.0), circle(sides, 1.0)].concat())
}

pub fn pyramid(sides: usize) -> Mesh {
    let mut faces: Vec<Face> = vec![(0..sides as u32).rev().collect()];
    faces.extend(ring(sides).map(|(i, j)| vec![i, j, sides as u32]));
    Mesh::new(&faces, &[circle(sides, -0.5), vec![[0.0, 0.0, 1.0]]].concat())
}

pub fn bipyramid(sides: usize) -> Mesh {
    let top = sides as u32;
    let mut faces: Vec<Face> = ring(sides).map(|(i, j)| vec![i, j, top]).collect();
    faces.extend(ring(sides).map(|(i, j)| vec![j, i, top + 1]));
    Mesh::new(&faces, &[circle(sides, 0.0), vec![[0.0, 0.0, 1.0], [0.0, 0.0, -1.0]]].concat())
}

/// Two faces back to back.
pub fn pillow(sides: usize) -> Mesh {
    let front: Face = (0..sides as u32).collect();
    let back: Face = (0..sides as u32).rev().collect();
    Mesh::new(&[front, back], &circle(sides, 0.25))
}

/// Quads round a torus; both counts 3 or more.
pub fn torus(across: usize, round: usize) -> Mesh {
    let vertex = |i: usize, j: usize| (i % across * round + j % round) as u32;
    let places = (0..across).flat_map(|i| (0..round).map(move |j| (i, j)));
    let quad =
        |(i, j)| vec![vertex(i, j), vertex(i + 1, j), vertex(i + 1, j + 1), vertex(i, j + 1)];
    let faces: Vec<Face> = places.clone().map(quad).collect();
    let point = |(i, j): (usize, usize)| {
        let ([out, up], [x, y]) = (turn(i, across), turn(j, round));
        let radius = 2.0 + 0.75 * out;
        [radius * x, radius * y, 0.75 * up]
    };
    Mesh::new(&faces, &places.map(point).collect::<Vec<_>>())
}

/// Three hexagons on a torus, each two of them with three edges in common.
pub fn three_hexagons() -> Mesh {
    let faces = [vec![0, 1, 2, 3, 4, 5], vec![0, 3, 2, 5, 4, 1], vec![0, 5, 2, 1, 4, 3]];
    Mesh::new(&faces, &circle(6, 0.5))
}

/// Triangles on few vertices: each ordered pair of the `prime` vertices is a directed edge once.
/// The prime is 1 more than a multiple of 6.
pub fn dense(prime: usize) -> Mesh {
    let third = |factor: &usize| (factor * factor + prime - factor + 1) % prime == 0;
    let factor = (2..prime).find(third).expect("a prime of the right kind");
    let triangle = |x: usize, y: usize| vec![x, y, (x + factor * (y + prime - x)) % prime];
    let pairs = (0..prime).flat_map(|x| (0..prime).map(move |y| (x, y)));
    let faces: Vec<Face> = pairs
        .filter(|(x, y)| x < y)
        .map(|(x, y)| triangle(x, y))
        .filter(|face| face[0] < face[2])
        .map(|face| face.into_iter().map(|vertex| vertex as u32).collect())
        .collect();
    Mesh::new(&faces, &circle(prime, 0.125))
}

/// Two meshes side by side, the second moved.
pub fn union(a: &Mesh, b: &Mesh) -> Mesh {
    let (shift, mut faces, mut points) = (a.position_count() as u32, a.faces(), a.points());
    let moved = |face: Face| face.into_iter().map(|vertex| vertex + shift).collect::<Face>();
    faces.extend(b.faces().into_iter().map(moved));
    points.extend(b.points().into_iter().map(|[x, y, z]| [x + 3.0, y, z]));
    Mesh::new(&faces, &points)
}

/// One vertex in place of the two; the second's number goes to the last vertex.
pub fn merged(mesh: &Mesh, kept: u32, dropped: u32) -> Mesh {
    let last = mesh.position_count() as u32 - 1;
    let renamed = |vertex: u32| if vertex == last { dropped } else { vertex };
    let new = |vertex: &u32| renamed(if *vertex == dropped { kept } else { *vertex });
    let mut points = mesh.points();
    points.swap_remove(dropped as usize);
    Mesh {
        offsets: mesh.offsets.clone(),
        corners: mesh.corners.iter().map(new).collect(),
        coordinates: points.concat(),
    }
}

/// Two meshes with one vertex in common.
pub fn sharing_a_hub(a: &Mesh, b: &Mesh, random: &mut Random) -> Mesh {
    let (first, second) = (a.position_count(), b.position_count());
    merged(&union(a, b), random.below(first) as u32, (first + random.below(second)) as u32)
}

/// Two meshes in one: a face of each is taken out and the rims are sewn together.
/// The faces have as many corners, and the second's is sewn on from its corner `turn` backwards.
pub fn sewn(a: &Mesh, from_a: usize, b: &Mesh, from_b: usize, turn: usize) -> Mesh {
    let both = union(a, b);
    let mut faces = both.faces();
    let second = faces.remove(a.face_count() + from_b);
    let first = faces.remove(from_a);
    let arity = first.len();
    let partner = |index: usize| second[(turn + arity - index) % arity];
    let place = |vertex: u32| (0..arity).find(|index| partner(*index) == vertex);
    let renamed = |vertex: &u32| place(*vertex).map_or(*vertex, |index| first[index]);
    let faces: Vec<Face> = faces.iter().map(|face| face.iter().map(renamed).collect()).collect();
    without_spares(&Mesh::new(&faces, &both.points()))
}

fn without_spares(mesh: &Mesh) -> Mesh {
    let used = |vertex: &usize| mesh.corners.contains(&(*vertex as u32));
    let kept: Vec<usize> = (0..mesh.position_count()).filter(used).collect();
    let points = mesh.points();
    let number = |vertex: &u32| kept.binary_search(&(*vertex as usize)).expect("used") as u32;
    Mesh {
        offsets: mesh.offsets.clone(),
        corners: mesh.corners.iter().map(number).collect(),
        coordinates: kept.iter().flat_map(|vertex| points[*vertex]).collect(),
    }
}

/// So many tori sewn together one after the other, one at least.
pub fn handles(count: usize, random: &mut Random) -> Mesh {
    let torus = |random: &mut Random| torus(3, random.between(3, 4));
    let mut mesh = torus(random);
    for _ in 1..count {
        let next = torus(random);
        let faces = (random.below(mesh.face_count()), random.below(next.face_count()));
        mesh = sewn(&mesh, faces.0, &next, faces.1, random.below(4));
    }
    mesh
}

pub fn with_spares(mesh: &Mesh, count: usize) -> Mesh {
    let mut mesh = mesh.clone();
    mesh.coordinates.extend((0..3 * count).map(|index| index as f32 - 4.0));
    mesh
}

/// The same mesh with its vertices and faces in another order and its faces turned.
pub fn shuffled(mesh: &Mesh, random: &mut Random) -> Mesh {
    let mut order: Vec<usize> = (0..mesh.position_count()).collect();
    random.shuffle(&mut order);
    let old_points = mesh.points();
    let points: Vec<Point> = order.iter().map(|old| old_points[*old]).collect();
    let mut new_number = vec![0; order.len()];
    for (new, old) in order.iter().enumerate() {
        new_number[*old] = new as u32;
    }
    let mut faces: Vec<Face> = mesh
        .runs()
        .map(|run| run.iter().map(|vertex| new_number[*vertex as usize]).collect())
        .collect();
    for face in &mut faces {
        let turn = random.below(face.len());
        face.rotate_left(turn);
    }
    random.shuffle(&mut faces);
    Mesh::new(&faces, &points)
}

/// Every face the other way round.
pub fn turned_over(mesh: &Mesh) -> Mesh {
    let reversed = |run: &[u32]| run.iter().rev().copied().collect::<Face>();
    Mesh::new(&mesh.runs().map(reversed).collect::<Vec<_>>(), &mesh.points())
}

/// Faces of different vertices each, needing no neighbours.
pub fn loose_faces(random: &mut Random) -> Mesh {
    let positions = random.between(3, 12);
    let face = |random: &mut Random| {
        let mut vertices: Face = (0..positions as u32).collect();
        random.shuffle(&mut vertices);
        vertices.truncate(random.between(3, positions));
        vertices
    };
    let faces: Vec<Face> = (0..random.between(0, 6)).map(|_| face(random)).collect();
    let points: Vec<Point> =
        (0..positions).map(|_| std::array::from_fn(|_| random.signed_unit())).collect();
    Mesh::new(&faces, &points)
}
