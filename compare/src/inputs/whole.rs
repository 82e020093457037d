//! What the whole-number engine is lent: a view without rays and a segment, in
//! signed 32-bit numbers.

use super::*;

/// How many numbers a view of so many planes has.
pub const fn whole_length(planes: usize) -> usize {
    1 + 4 * planes
}

/// A view and the ends of a segment, each of any length.
#[derive(Clone, Debug)]
pub struct WholeAsked {
    pub view: Vec<i32>,
    pub p0: Vec<i32>,
    pub p1: Vec<i32>,
}

impl WholeAsked {
    pub fn of(planes: &[WholePlane], p0: Whole, p1: Whole) -> WholeAsked {
        let narrow = |x: &i64| i32::try_from(*x).expect("it is within its limit");
        let of_plane = |plane: &WholePlane| [plane.normal[0], plane.normal[1], plane.normal[2], plane.distance];
        let numbers = planes.iter().flat_map(of_plane).map(|x| narrow(&x));
        let view = [planes.len() as i32].into_iter().chain(numbers).collect();
        WholeAsked { view, p0: p0.iter().map(narrow).collect(), p1: p1.iter().map(narrow).collect() }
    }

    /// With another number in front of the view.
    pub fn counted(mut self, count: i32) -> WholeAsked {
        self.view[0] = count;
        self
    }

    /// With other lengths.
    pub fn cut(mut self, view: usize, p0: usize, p1: usize) -> WholeAsked {
        self.view.resize(view, 1);
        self.p0.resize(p0, 1);
        self.p1.resize(p1, 1);
        self
    }

    /// How many numbers there are beside the count, those that have a limit:
    /// of the view, then of the ends.
    pub fn limited(&self) -> usize {
        self.view.len() - 1 + self.p0.len() + self.p1.len()
    }

    /// The number at a place among these, and its limit.
    pub fn at(&mut self, place: usize) -> (&mut i32, i32) {
        let planes = self.view.len() - 1;
        if place < planes {
            let limit = if place % 4 == 3 { DISTANCE } else { NORMAL };
            return (&mut self.view[1 + place], limit as i32);
        }
        let place = place - planes;
        let ends = self.p0.len();
        (if place < ends { &mut self.p0[place] } else { &mut self.p1[place - ends] }, COORDINATE as i32)
    }

    /// With a number at a place: the limit there, or one beside or beyond it.
    pub fn extreme(mut self, place: usize, kind: usize) -> WholeAsked {
        let (number, limit) = self.at(place);
        *number = EXTREMES[kind](limit);
        self
    }
}

/// Numbers about a limit, and about those of 32 bits; the least of them has no
/// negation, and cut to 16 bits some are small.
pub const EXTREMES: [fn(i32) -> i32; 12] = [
    |limit| limit,
    |limit| -limit,
    |limit| limit + 1,
    |limit| -limit - 1,
    |limit| limit - 1,
    |_| i32::MIN,
    |_| i32::MIN + 1,
    |_| i32::MAX,
    |limit| limit << 1,
    |limit| -(limit << 1),
    |_| 1 << 30,
    |_| 0,
];

/// Numbers that are no count, and some that are. Four times some of these is
/// 24 in 32 bits.
pub const WHOLE_COUNTS: [i32; 22] = [
    6,
    7,
    MOST_PLANES as i32 - 1,
    MOST_PLANES as i32,
    5,
    MOST_PLANES as i32 + 1,
    32,
    33,
    0,
    1,
    -1,
    -6,
    i32::MIN,
    i32::MIN + 6,
    i32::MAX,
    262,
    65_542,
    (1 << 24) + 6,
    (1 << 30) + 6,
    6 - (1 << 30),
    100,
    -7,
];

/// A view and a segment within the limits: crossings that all but coincide, a
/// line that grazes, or any.
pub fn whole_segment(rng: &mut Rng) -> (Vec<WholePlane>, Whole, Whole) {
    let (six, a, b) = match rng.below(4) {
        0 => grazing(rng),
        1 => farm_segment(rng),
        _ => near_tie(rng),
    };
    (among_others(rng, &six), a, b)
}

/// What is lent: one in four times with a number at or past its limit, another
/// count or other lengths, or several of these.
pub fn whole_asked(rng: &mut Rng) -> WholeAsked {
    let (planes, a, b) = whole_segment(rng);
    let mut asked = WholeAsked::of(&planes, a, b);
    let faults = match rng.below(32) {
        0 => 2,
        1 => 3,
        2..8 => 1,
        _ => 0,
    };
    for _ in 0..faults {
        let (view, count) = (asked.view.len(), asked.view.first().copied().unwrap_or(0));
        asked = match rng.below(8) {
            0..4 if view > 0 => {
                let place = rng.below(asked.limited() as u64) as usize;
                asked.extreme(place, rng.below(EXTREMES.len() as u64) as usize)
            }
            4 if view > 0 => asked.counted(rng.pick(&WHOLE_COUNTS)),
            5 if view > 0 => asked.counted(count.wrapping_add(rng.pick(&[-1, 1, 2, 1 << 8, 1 << 16, 1 << 30]))),
            6 => {
                let other = rng.pick(&[0, 1, 2, 4, 6]);
                let (p0, p1) = rng.pick(&[(other, 3), (3, other), (other, other)]);
                asked.cut(view, p0, p1)
            }
            _ => {
                let most = whole_length(MOST_PLANES);
                let any = rng.below(whole_length(PLANES_TRIED) as u64 + 30) as usize;
                // One number more or less, a plane, the four rays.
                let lengths = [view + 1, view.saturating_sub(1), view + 4, view.saturating_sub(4), view + 24];
                let lengths = [&lengths[..], &[24, 25, 26, 48, 49, most, most + 1, most + 4, any, any, 0]].concat();
                asked.cut(rng.pick(&lengths), 3, 3)
            }
        };
    }
    asked
}

/// A frustum and a segment about it, scaled to whole numbers, with so many
/// planes: to be timed.
pub fn whole_timed(rng: &mut Rng, count: usize) -> WholeAsked {
    let (six, a, b, ..) = asked(rng);
    let nearest = |x: f64, limit: i64| (x.round() as i64).clamp(-limit, limit);
    let centimetres = |p: Point| p.map(|x| nearest(x * 100.0, COORDINATE));
    let volume = with_planes(six, count);
    let planes = volume.numbers()[1..][..4 * count].as_chunks::<4>().0.iter().map(|&[x, y, z, distance]| {
        let normal = [x, y, z].map(|x| nearest(x * NORMAL as f64, NORMAL));
        WholePlane { normal, distance: nearest(distance * NORMAL as f64 * 100.0, DISTANCE) }
    });
    WholeAsked::of(&planes.collect::<Vec<_>>(), centimetres(a), centimetres(b))
}
