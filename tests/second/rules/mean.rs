//! Whether a stream is a weighted mean of corners. The weights themselves are found, where the upright line through the stream meets the two chains: no side
//! of an edge is asked. Where there are none, a course shows it. What was found is held to the words of the request before it counts.

use super::chain::{lower, upper, Position};

pub enum Found {
    /// whole weights, one for each corner
    Weights(Vec<i128>),
    /// a course on which the stream is stronger than every corner, and so than every mean of corners
    Course(i128, i128),
}

/// The edge of a chain that the upright line through an east meets; a chain of one corner is an edge from it to itself.
#[derive(Clone, Copy)]
struct Met {
    from: Position,
    to: Position,
    /// the weights of the two by which their mean lies on the line
    weights: [i128; 2],
}

impl Met {
    fn of(chain: &[Position], east: i64) -> Option<Met> {
        let edges = chain.windows(2).map(|edge| (edge[0], edge[1]));
        let alone = if let [corner] = *chain { Some((corner, corner)) } else { None };
        let (from, to) = edges.chain(alone).find(|(from, to)| (from.east..=to.east).contains(&east))?;
        let weights = if from == to { [1, 0] } else { [(to.east - east) as i128, (east - from.east) as i128] };
        Some(Met { from, to, weights })
    }

    /// The norths of the two times their weights, less as many times the north of the stream: above zero where the stream lies below the mean.
    fn above(&self, stream: Position) -> i128 {
        let higher = |corner: Position| (corner.north - stream.north) as i128;
        self.weights[0] * higher(self.from) + self.weights[1] * higher(self.to)
    }

    fn weight(&self, corner: Position) -> i128 {
        let of = |end: Position, weight: i128| if end == corner { weight } else { 0 };
        of(self.from, self.weights[0]) + of(self.to, self.weights[1])
    }

    /// The course straight across the edge, to the north.
    fn across(&self) -> (i128, i128) {
        ((self.from.north - self.to.north) as i128, ((self.to.east - self.from.east) as i128).max(1))
    }
}

pub fn found(corners: &[Position], stream: Position) -> Found {
    let (Some(high), Some(low)) = (Met::of(&upper(corners), stream.east), Met::of(&lower(corners), stream.east)) else {
        let west = corners.iter().all(|corner| stream.east < corner.east);
        return Found::Course(if west { -1 } else { 1 }, 0);
    };
    let (under, over) = (high.above(stream), -low.above(stream));
    if under < 0 {
        let (x, y) = high.across();
        return Found::Course(x, y);
    }
    if over < 0 {
        let (x, y) = low.across();
        return Found::Course(-x, -y);
    }
    // each mean by as much as the stream is away from the other one; where the two are the stream itself, one of them
    let shares = if under + over == 0 { (1, 0) } else { (over, under) };
    Found::Weights(corners.iter().map(|&corner| shares.0 * high.weight(corner) + shares.1 * low.weight(corner)).collect())
}

/// "A weighted mean of corners", and "the weights are whole numbers, none below 0 and not all 0": one for each corner.
pub fn is_mean(corners: &[Position], weights: &[i128], stream: Position) -> bool {
    let total: i128 = weights.iter().sum();
    let weighed = |part: fn(&Position) -> i64| -> i128 { corners.iter().zip(weights).map(|(corner, weight)| weight * part(corner) as i128).sum() };
    weights.len() == corners.len()
        && weights.iter().all(|&weight| weight >= 0)
        && weights.iter().any(|&weight| weight != 0)
        && weighed(|corner| corner.east) == total * stream.east as i128
        && weighed(|corner| corner.north) == total * stream.north as i128
}

/// No mean of corners is as strong on a course as a stream that is stronger than each of them.
pub fn is_stronger(corners: &[Position], (x, y): (i128, i128), stream: Position) -> bool {
    let set = |p: Position| x * p.east as i128 + y * p.north as i128;
    corners.iter().all(|&corner| set(corner) < set(stream))
}

pub fn covers(corners: &[Position], stream: Position) -> bool {
    match found(corners, stream) {
        Found::Weights(weights) => {
            assert!(is_mean(corners, &weights, stream), "{stream:?} is the mean of {corners:?} by {weights:?}");
            true
        }
        Found::Course(x, y) => {
            assert!(is_stronger(corners, (x, y), stream), "{stream:?} is stronger on ({x}, {y}) than {corners:?}");
            false
        }
    }
}
