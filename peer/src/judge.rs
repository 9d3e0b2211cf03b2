//! Judging: the shapes that the rows lead to (dynamic simplification), the
//! links between their values (the dependency graph), its strongly connected
//! components and, where none holds a fresh link, the longest path.

use crate::layout::{first_appearance, read, Refusal, Rule, Sheet, MOST_BYTES};
use crate::mix::Mixing;
use std::collections::HashMap;

const LEAST_STEPS: usize = 20_480;
const MOST_SHAPES: usize = 512;

/// `turns` is the length of the loop; the trail's steps come first.
#[derive(Clone, Debug, PartialEq, Eq)]
pub struct Verdict {
    pub endless: bool,
    pub deepest: usize,
    pub shapes: usize,
    pub fired: usize,
    pub share: usize,
    pub row: usize,
    pub trail: usize,
    pub turns: usize,
    pub steps: Vec<[u16; 5]>,
}

/// Judges lent lines; `lent_steps` is how many u16 are lent for the steps.
pub fn judge(numbers: &[u32], lent_steps: usize) -> Result<Verdict, Refusal> {
    if lent_steps < LEAST_STEPS {
        return Err(Refusal {
            number: 12,
            line: 0,
        });
    }
    let sheet = Sheet::new(numbers)?;
    let graph = explore(&sheet).ok_or(Refusal {
        number: 11,
        line: 0,
    })?;
    let parts = components(&graph);
    let mut verdict = counts(&sheet, &graph);
    match fresh_inside(&graph, &parts) {
        Some((node, link)) => show_loop(&graph, &parts, node, link, &mut verdict),
        None => show_deepest(&graph, &parts, &mut verdict),
    }
    Ok(verdict)
}

/// An answer that has its counts only.
fn counts(sheet: &Sheet, graph: &Graph) -> Verdict {
    Verdict {
        endless: false,
        deepest: 0,
        shapes: graph.shapes.len(),
        fired: graph.fired,
        share: share(graph.fired, sheet.rules.len()),
        row: 0,
        trail: 0,
        turns: 0,
        steps: Vec::new(),
    }
}

/// The answer for an endless sheet; 11 where more than 512 shapes are reached, 24 where the
/// sheet settles.
pub(crate) fn endless(sheet: &Sheet) -> Result<Verdict, Refusal> {
    let refusal = |number| Refusal { number, line: 0 };
    let graph = explore(sheet).ok_or(refusal(11))?;
    let parts = components(&graph);
    let (node, link) = fresh_inside(&graph, &parts).ok_or(refusal(24))?;
    let mut verdict = counts(sheet, &graph);
    show_loop(&graph, &parts, node, link, &mut verdict);
    Ok(verdict)
}

/// Whether a sheet settles; none where more than 512 shapes are reached.
pub(crate) fn settles(sheet: &Sheet) -> Option<bool> {
    let graph = explore(sheet)?;
    Some(fresh_inside(&graph, &components(&graph)).is_none())
}

/// The deepest generation of a sheet; 11 where more than 512 shapes are reached, 21 where the
/// sheet is endless.
pub(crate) fn deepest(sheet: &Sheet) -> Result<usize, Refusal> {
    let refusal = |number| Refusal { number, line: 0 };
    let graph = explore(sheet).ok_or(refusal(11))?;
    let parts = components(&graph);
    if fresh_inside(&graph, &parts).is_some() {
        return Err(refusal(21));
    }
    let best = generations(&graph, &parts);
    Ok(best.iter().map(|part| part.0).max().unwrap_or(0))
}

/// Judges a text: 12 comes before reading's refusals, 1 to 6, and 11 after them.
pub fn judge_text(text: &[u8], lent_steps: usize) -> Result<Verdict, Refusal> {
    if lent_steps < LEAST_STEPS {
        return Err(Refusal {
            number: 12,
            line: 0,
        });
    }
    // No text has more lines than bytes.
    let lines = read(text, MOST_BYTES)?;
    judge(lines.as_flattened(), lent_steps)
}

/// 100 × fired / rules to the nearest whole, a half to the even neighbour.
fn share(fired: usize, rules: usize) -> usize {
    if rules == 0 {
        return 0;
    }
    let (upward, rest) = (
        (200 * fired + rules) / (2 * rules),
        (200 * fired + rules) % (2 * rules),
    );
    if rest == 0 && upward % 2 == 1 {
        upward - 1
    } else {
        upward
    }
}

/// A reached shape. Equal fields form a class, numbered by first appearance.
#[derive(Clone, Copy)]
struct Shape {
    kind: u8,
    classes: u8,
    digits: [u8; 6],
    firsts: [u8; 6],
    base: u16,
    origin: Origin,
}

#[derive(Clone, Copy)]
enum Origin {
    Row(usize),
    Made { shape: u16, rule: u16, head: u8 },
}

/// A link from one class of a shape (a node) to another.
#[derive(Clone, Copy)]
struct Link {
    to: u16,
    rule: u16,
    head: u8,
    fresh: bool,
}

/// A fresh number made on `shape` by a rule that carries nothing.
#[derive(Clone, Copy)]
struct Birth {
    shape: u16,
    to: u16,
    rule: u16,
    head: u8,
}

/// Node `base + class` of a shape has the links `starts[node]..starts[node + 1]`.
#[derive(Default)]
struct Graph {
    shapes: Vec<Shape>,
    owners: Vec<u16>,
    starts: Vec<u32>,
    links: Vec<Link>,
    births: Vec<Birth>,
    fired: usize,
}

impl Graph {
    fn links_of(&self, node: u16) -> std::ops::Range<usize> {
        self.starts[node as usize] as usize..self.starts[node as usize + 1] as usize
    }

    /// The first field, from 1, of a node's class.
    fn field(&self, node: u16) -> u16 {
        let shape = &self.shapes[self.owners[node as usize] as usize];
        u16::from(shape.firsts[(node - shape.base) as usize]) + 1
    }

    fn step(&self, node: u16, link: usize) -> [u16; 5] {
        let link = self.links[link];
        [
            link.rule + 1,
            u16::from(link.head) + 1,
            self.field(node),
            self.field(link.to),
            u16::from(link.fresh),
        ]
    }

    /// Adds the reaching steps to a shape, last one first; gives their row.
    fn push_reaching(&self, mut at: u16, steps: &mut Vec<[u16; 5]>) -> usize {
        loop {
            match self.shapes[at as usize].origin {
                Origin::Row(row) => return row + 1,
                Origin::Made { shape, rule, head } => {
                    steps.push([rule + 1, u16::from(head) + 1, 0, 0, 0]);
                    at = shape;
                }
            }
        }
    }
}

/// A rule made ready for firing on shapes.
struct Plan {
    rule: u16,
    width: u8,
    /// For each body field the first with the same mark.
    same: [u8; 6],
    /// The first fields of the carried marks.
    carried: [u8; 6],
    carries: u8,
    heads: [Source; 4],
    count: u8,
}

/// For each field of an H line: a body field, or 6 and more for a fresh mark.
#[derive(Clone, Copy, Default)]
struct Source {
    kind: u8,
    width: u8,
    fields: [u8; 6],
}

impl Plan {
    fn new(index: usize, rule: &Rule) -> Plan {
        let body = rule.body.marks();
        let place = |mark: u8| body.iter().position(|&m| m == mark);
        let mut plan = Plan {
            rule: index as u16,
            width: rule.body.width,
            same: [0; 6],
            carried: [0; 6],
            carries: 0,
            heads: [Source::default(); 4],
            count: rule.heads().len() as u8,
        };
        for (same, &mark) in plan.same.iter_mut().zip(body) {
            *same = place(mark).unwrap_or(0) as u8;
        }
        let mut known = 0u8;
        for (source, head) in plan.heads.iter_mut().zip(rule.heads()) {
            source.kind = head.kind;
            source.width = head.width;
            for (field, &mark) in source.fields.iter_mut().zip(head.marks()) {
                *field = place(mark).map_or(5 + mark, |at| at as u8);
                if *field < 6 && known & 1 << *field == 0 {
                    known |= 1 << *field;
                    plan.carried[plan.carries as usize] = *field;
                    plan.carries += 1;
                }
            }
        }
        plan
    }

    fn fits(&self, digits: &[u8; 6]) -> bool {
        (0..self.width as usize).all(|field| digits[field] == digits[self.same[field] as usize])
    }

    /// The classes of the carried values, as bits.
    fn carried_classes(&self, digits: &[u8; 6]) -> u16 {
        self.carried[..self.carries as usize]
            .iter()
            .fold(0, |bits, &field| bits | 1 << digits[field as usize])
    }
}

/// The shape that an H line makes; `from` says of each of its classes which
/// class it had, or is 6 or more where it is fresh.
struct Made {
    digits: [u8; 6],
    firsts: [u8; 6],
    from: [u8; 6],
    classes: u8,
}

fn make(source: &Source, digits: &[u8; 6]) -> Made {
    let mut made = Made {
        digits: [0; 6],
        firsts: [0; 6],
        from: [0; 6],
        classes: 0,
    };
    let mut numbered = [u8::MAX; 32];
    for field in 0..source.width as usize {
        let from = match source.fields[field] {
            place @ 0..6 => digits[place as usize],
            fresh => fresh,
        };
        let class = &mut numbered[from as usize & 31];
        if *class == u8::MAX {
            *class = made.classes;
            made.firsts[made.classes as usize] = field as u8;
            made.from[made.classes as usize] = from;
            made.classes += 1;
        }
        made.digits[field] = *class;
    }
    made
}

/// Which links into a node the shape `stamp` already has: a bit for each class
/// it comes from, carried ones first, then fresh ones.
#[derive(Clone, Copy)]
struct Seen {
    stamp: u16,
    bits: u16,
    born: bool,
}

#[derive(Default)]
struct Explorer {
    graph: Graph,
    index: HashMap<u32, u16, Mixing>,
    seen: Vec<Seen>,
    pending: [Vec<Link>; 6],
}

impl Explorer {
    /// The number of a shape, new or known; none at the 513th.
    fn shape(&mut self, kind: u8, made: &Made, origin: Origin) -> Option<u16> {
        let digits = made
            .digits
            .iter()
            .fold(0, |key, &d| key << 3 | u32::from(d));
        let key = u32::from(kind) << 18 | digits;
        if let Some(&known) = self.index.get(&key) {
            return Some(known);
        }
        let graph = &mut self.graph;
        let number = graph.shapes.len();
        if number == MOST_SHAPES {
            return None;
        }
        graph.shapes.push(Shape {
            kind,
            classes: made.classes,
            digits: made.digits,
            firsts: made.firsts,
            base: graph.owners.len() as u16,
            origin,
        });
        let nodes = graph.owners.len() + made.classes as usize;
        graph.owners.resize(nodes, number as u16);
        let seen = Seen {
            stamp: u16::MAX,
            bits: 0,
            born: false,
        };
        self.seen.resize(nodes, seen);
        self.index.insert(key, number as u16);
        Some(number as u16)
    }

    /// Links the classes of shape `at` to those of the shape made from it.
    fn link(&mut self, at: u16, carried: u16, plan: &Plan, head: u8, made: &Made, to: u16) {
        let base = self.graph.shapes[to as usize].base;
        for class in 0..made.classes {
            let from = made.from[class as usize];
            let node = base + u16::from(class);
            let seen = &mut self.seen[node as usize];
            if seen.stamp != at {
                seen.stamp = at;
                seen.bits = 0;
            }
            let wanted = if from < 6 { 1 << from } else { carried << 6 };
            let mut new = wanted & !seen.bits;
            seen.bits |= wanted;
            if wanted == 0 && !seen.born {
                seen.born = true;
                self.graph.births.push(Birth {
                    shape: at,
                    to: node,
                    rule: plan.rule,
                    head,
                });
            }
            while new != 0 {
                let bit = new.trailing_zeros() as usize;
                new &= new - 1;
                self.pending[bit % 6].push(Link {
                    to: node,
                    rule: plan.rule,
                    head,
                    fresh: bit >= 6,
                });
            }
        }
    }

    /// Moves the links of a shape, now complete, into the graph.
    fn settle(&mut self, classes: u8) {
        for links in &mut self.pending[..classes as usize] {
            self.graph.starts.push(self.graph.links.len() as u32);
            self.graph.links.append(links);
        }
    }
}

/// The graph of all reached shapes, or none where they are more than 512.
fn explore(sheet: &Sheet) -> Option<Graph> {
    let mut plans: [Vec<Plan>; 65] = [const { Vec::new() }; 65];
    for (index, rule) in sheet.rules.iter().enumerate() {
        plans[rule.body.kind as usize].push(Plan::new(index, rule));
    }
    let mut fired = vec![false; sheet.rules.len()];
    let mut explorer = Explorer::default();
    for (index, row) in sheet.rows.iter().enumerate() {
        explorer.shape(row.kind, &row_shape(row.values()), Origin::Row(index))?;
    }
    let mut at = 0;
    while let Some(&shape) = explorer.graph.shapes.get(at as usize) {
        for plan in &plans[shape.kind as usize] {
            if !plan.fits(&shape.digits) {
                continue;
            }
            fired[plan.rule as usize] = true;
            let carried = plan.carried_classes(&shape.digits);
            for (head, source) in plan.heads[..plan.count as usize].iter().enumerate() {
                let (head, rule) = (head as u8, plan.rule);
                let made = make(source, &shape.digits);
                let origin = Origin::Made {
                    shape: at,
                    rule,
                    head,
                };
                let to = explorer.shape(source.kind, &made, origin)?;
                explorer.link(at, carried, plan, head, &made, to);
            }
        }
        explorer.settle(shape.classes);
        at += 1;
    }
    let mut graph = explorer.graph;
    graph.starts.push(graph.links.len() as u32);
    graph.fired = fired.iter().filter(|&&fired| fired).count();
    Some(graph)
}

fn row_shape(values: &[u32]) -> Made {
    let (digits, classes) = first_appearance(values);
    let mut firsts = [0; 6];
    for (field, &digit) in digits[..values.len()].iter().enumerate().rev() {
        firsts[digit as usize] = field as u8;
    }
    Made {
        digits,
        firsts,
        from: [0; 6],
        classes,
    }
}

/// The strongly connected components, numbered from the sinks upward; `order`
/// lists the nodes by rising component.
struct Parts {
    of: Vec<u16>,
    order: Vec<u16>,
    count: usize,
}

const NONE: u16 = u16::MAX;

/// Tarjan's algorithm, with a stack of its own.
fn components(graph: &Graph) -> Parts {
    let nodes = graph.owners.len();
    let mut parts = Parts {
        of: vec![NONE; nodes],
        order: Vec::with_capacity(nodes),
        count: 0,
    };
    let mut found = vec![NONE; nodes];
    let mut lowest = vec![NONE; nodes];
    let mut next = 0;
    let mut open: Vec<u16> = Vec::new();
    let mut calls: Vec<(u16, usize)> = Vec::new();
    for root in 0..nodes as u16 {
        if found[root as usize] != NONE {
            continue;
        }
        calls.push((root, graph.links_of(root).start));
        while let Some((node, link)) = calls.pop() {
            let n = node as usize;
            if found[n] == NONE {
                found[n] = next;
                lowest[n] = next;
                next += 1;
                open.push(node);
            }
            if let Some((child, at)) = visit(graph, &parts, &found, &mut lowest, node, link) {
                calls.push((node, at));
                calls.push((child, graph.links_of(child).start));
                continue;
            }
            if lowest[n] == found[n] {
                close(&mut parts, &mut open, node);
            }
        }
    }
    parts
}

/// Goes on through a node's links up to one whose end is not found yet: gives
/// that end and the link, which is looked at again once the end is done.
fn visit(
    graph: &Graph,
    parts: &Parts,
    found: &[u16],
    lowest: &mut [u16],
    node: u16,
    from: usize,
) -> Option<(u16, usize)> {
    for at in from..graph.links_of(node).end {
        let to = graph.links[at].to;
        if found[to as usize] == NONE {
            return Some((to, at));
        }
        if parts.of[to as usize] == NONE {
            lowest[node as usize] = lowest[node as usize].min(lowest[to as usize]);
        }
    }
    None
}

fn close(parts: &mut Parts, open: &mut Vec<u16>, root: u16) {
    while let Some(node) = open.pop() {
        parts.of[node as usize] = parts.count as u16;
        parts.order.push(node);
        if node == root {
            break;
        }
    }
    parts.count += 1;
}

/// A fresh link inside a component.
fn fresh_inside(graph: &Graph, parts: &Parts) -> Option<(u16, usize)> {
    (0..graph.owners.len() as u16).find_map(|node| {
        let link = graph.links_of(node).find(|&at| {
            let link = graph.links[at];
            link.fresh && parts.of[node as usize] == parts.of[link.to as usize]
        })?;
        Some((node, link))
    })
}

/// Adds the steps of a shortest path inside a component, last one first.
fn push_path(graph: &Graph, parts: &Parts, start: u16, end: u16, steps: &mut Vec<[u16; 5]>) {
    if start == end {
        return;
    }
    let part = parts.of[start as usize];
    let mut before = vec![(NONE, 0); graph.owners.len()];
    before[start as usize] = (start, 0);
    let mut queue = vec![start];
    let mut next = 0;
    while before[end as usize].0 == NONE {
        let node = queue[next];
        next += 1;
        for at in graph.links_of(node) {
            let to = graph.links[at].to;
            if parts.of[to as usize] == part && before[to as usize].0 == NONE {
                before[to as usize] = (node, at);
                queue.push(to);
            }
        }
    }
    let mut node = end;
    while node != start {
        let (from, at) = before[node as usize];
        steps.push(graph.step(from, at));
        node = from;
    }
}

/// The loop begins with the fresh link and goes back to that link's node.
fn show_loop(graph: &Graph, parts: &Parts, node: u16, link: usize, verdict: &mut Verdict) {
    let steps = &mut verdict.steps;
    push_path(graph, parts, graph.links[link].to, node, steps);
    steps.push(graph.step(node, link));
    verdict.turns = steps.len();
    verdict.row = graph.push_reaching(graph.owners[node as usize], steps);
    verdict.trail = steps.len() - verdict.turns;
    verdict.endless = true;
    steps.reverse();
}

/// How a component gets its largest generation.
#[derive(Clone, Copy)]
enum Entry {
    Table,
    Birth(Birth),
    Link(u16, usize),
}

/// The largest generation in each component, and how it gets there: the longest
/// path, where fresh links count 1.
fn generations(graph: &Graph, parts: &Parts) -> Vec<(usize, Entry)> {
    let mut best = vec![(0, Entry::Table); parts.count];
    for &birth in &graph.births {
        best[parts.of[birth.to as usize] as usize] = (1, Entry::Birth(birth));
    }
    for &node in parts.order.iter().rev() {
        let part = parts.of[node as usize] as usize;
        let generation = best[part].0;
        for at in graph.links_of(node) {
            let link = graph.links[at];
            let to = parts.of[link.to as usize] as usize;
            let reached = generation + usize::from(link.fresh);
            if to != part && reached > best[to].0 {
                best[to] = (reached, Entry::Link(node, at));
            }
        }
    }
    best
}

/// Follows the deepest number's line back to its first fresh step.
fn show_deepest(graph: &Graph, parts: &Parts, verdict: &mut Verdict) {
    let best = generations(graph, parts);
    // The last maximum is the first along the links: its entry is fresh.
    let last = best.iter().max_by_key(|part| part.0);
    let Some(&(deepest, mut entry)) = last.filter(|part| part.0 > 0) else {
        return;
    };
    let steps = &mut verdict.steps;
    let mut end = None;
    let first = loop {
        match entry {
            Entry::Table => break graph.owners[end.unwrap_or(0) as usize],
            Entry::Birth(birth) => {
                push_path(graph, parts, birth.to, end.unwrap_or(birth.to), steps);
                let to = graph.field(birth.to);
                steps.push([birth.rule + 1, u16::from(birth.head) + 1, 0, to, 1]);
                break birth.shape;
            }
            Entry::Link(node, link) => {
                let to = graph.links[link].to;
                push_path(graph, parts, to, end.unwrap_or(to), steps);
                steps.push(graph.step(node, link));
                entry = best[parts.of[node as usize] as usize].1;
                end = Some(node);
            }
        }
    };
    verdict.row = graph.push_reaching(first, steps);
    verdict.trail = steps.len();
    verdict.deepest = deepest;
    steps.reverse();
}
