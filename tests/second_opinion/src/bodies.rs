//! Joins and splits: the bodies of ground below a post, and those above it. Vertices that are
//! all below a post, or all above it, lie in one body where a way along edges leads from one
//! to the other by such vertices alone.
//!
//! They are told by searches from the post's neighbours. The plain one searches a whole body
//! before the next; the other, for plots where that would take too long, searches all of them
//! at one pace and stops where it knows how many they are.

use crate::surface::{Plot, Way, VIRTUAL_PIT};
use std::collections::VecDeque;

/// The posts of a plot up to which every body is searched to its end.
const FEW: usize = 80;

/// The joins of every post, and the splits.
pub fn joins_and_splits(plot: &Plot) -> [Vec<u8>; 2] {
    if plot.posts() <= FEW {
        plain(plot)
    } else {
        paced(plot)
    }
}

pub fn plain(plot: &Plot) -> [Vec<u8>; 2] {
    let edges = Edges::of(plot);
    [Way::Down, Way::Up].map(|way| less_one(plot, |post| edges.search(post, way)))
}

pub fn paced(plot: &Plot) -> [Vec<u8>; 2] {
    let edges = Edges::of(plot);
    [Way::Down, Way::Up].map(|way| {
        let mut memory = Memory::of(plot);
        less_one(plot, |post| edges.search_all(post, way, &mut memory))
    })
}

/// The bodies of each post less one, or 0 where it has none.
fn less_one(plot: &Plot, mut bodies: impl FnMut(usize) -> usize) -> Vec<u8> {
    (0..plot.posts()).map(|post| bodies(post).saturating_sub(1) as u8).collect()
}

/// Of each vertex from which post it was found last, and by which search; the vertices from which
/// a search is to go on.
struct Memory {
    found: Vec<(usize, usize)>,
    open: VecDeque<(usize, usize)>,
}

impl Memory {
    fn of(plot: &Plot) -> Memory {
        Memory { found: vec![(VIRTUAL_PIT, 0); plot.posts() + 1], open: VecDeque::new() }
    }
}

struct Edges<'a> {
    plot: &'a Plot<'a>,
    /// The neighbours of each post and, after the last, of the virtual pit.
    neighbours: Vec<Vec<usize>>,
}

impl<'a> Edges<'a> {
    fn of(plot: &'a Plot<'a>) -> Edges<'a> {
        let mut neighbours: Vec<Vec<usize>> = (0..plot.posts()).map(|p| plot.ring(p)).collect();
        let border = (0..plot.posts()).filter(|&p| neighbours[p].contains(&VIRTUAL_PIT));
        let border = border.collect();
        neighbours.push(border);
        Edges { plot, neighbours }
    }

    /// Where a vertex stands in a list of all of them.
    fn place(&self, vertex: usize) -> usize {
        vertex.min(self.plot.posts())
    }

    /// The neighbours of a vertex that are below the post, or above it.
    fn onward(&self, vertex: usize, post: usize, way: Way) -> impl Iterator<Item = usize> + '_ {
        let all = self.neighbours[self.place(vertex)].iter().copied();
        all.filter(move |&other| self.plot.moves(way, post, other))
    }

    /// The bodies that a post's lower neighbours, or its upper ones, lie in: each is searched
    /// from the first of them that no search has come to.
    fn search(&self, post: usize, way: Way) -> usize {
        let mut reached = vec![false; self.plot.posts() + 1];
        let mut bodies = 0;
        for start in self.onward(post, post, way) {
            let mut open = vec![start];
            bodies += !reached[self.place(start)] as usize;
            while let Some(vertex) = open.pop() {
                if !std::mem::replace(&mut reached[self.place(vertex)], true) {
                    open.extend(self.onward(vertex, post, way));
                }
            }
        }
        bodies
    }

    /// The same by searches from all of them at once, which take turns. Where one comes to what
    /// another has found, the two are of one body. Where all bodies but one have been searched
    /// to their ends, no more can meet.
    fn search_all(&self, post: usize, way: Way, memory: &mut Memory) -> usize {
        let Memory { found, open } = memory;
        open.clear();
        for (search, start) in self.onward(post, post, way).enumerate() {
            found[self.place(start)] = (post, search);
            open.push_back((start, search));
        }
        // Of each search the body, named by one of its searches; of each body what is open.
        let mut body: [usize; 8] = std::array::from_fn(|search| search);
        let mut left = [1; 8];
        let (mut bodies, mut ended) = (open.len(), 0);
        while bodies > ended + 1 {
            let (vertex, search) = open.pop_front().expect("two bodies are not at their ends");
            for other in self.onward(vertex, post, way) {
                let (from, by) = found[self.place(other)];
                let (one, another) = (body[search], body[by]);
                if from != post {
                    found[self.place(other)] = (post, search);
                    open.push_back((other, search));
                    left[one] += 1;
                } else if one != another {
                    body.iter_mut().filter(|name| **name == another).for_each(|name| *name = one);
                    left[one] += left[another];
                    bodies -= 1;
                }
            }
            left[body[search]] -= 1;
            ended += (left[body[search]] == 0) as usize;
        }
        bodies
    }
}
