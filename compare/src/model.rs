//! A plain and slow picture of the rules. It is there so that the books made
//! go deep; it decides nothing about the programs that are compared.

use crate::draft::{Event, Tables};

#[derive(Clone, Copy, Debug, PartialEq, Eq)]
pub enum Sort {
    Saga { steps: usize },
    Step { saga: usize, i: usize },
    Undo { saga: usize, steps: usize, i: usize },
    Plain,
}

impl Sort {
    fn name(self) -> &'static str {
        match self {
            Sort::Saga { .. } => "saga",
            Sort::Step { .. } => "step",
            Sort::Undo { .. } => "undo",
            Sort::Plain => "plain",
        }
    }
}

#[derive(Clone, Copy, Debug, PartialEq, Eq)]
pub enum Phase {
    Idle,
    Active,
    Committed,
    Aborted,
}

/// One thing the rules look at.
#[derive(Clone, Copy, Debug, PartialEq, Eq)]
pub enum Circumstance {
    /// A transaction of this sort.
    Of(&'static str),
    /// A transaction or an operation in this phase.
    In(Phase),
    /// The phase of the base and the kind of a dependency that bars.
    Entry(Phase, u32),
    /// The phase of a read, and of a write before it that isn't settled, and
    /// whether both belong to one transaction.
    Dirty(Phase, Phase, bool),
    /// Whether a ring closes among transactions that aren't committed.
    Ring(bool),
    /// Whether a ring closes by ties of active operations only.
    RingOfActive(bool),
    /// Whether the operation that is to end alone is a write.
    Single(bool),
    /// Whether 256 operations are accepted already.
    Full(bool),
    /// Whether the one that gets an operation has nothing to do with the
    /// objects of active undos.
    FarFromUndos(bool),
    /// Whether an active undo would be on a ring.
    Bars(bool),
    /// Whether it was spawned, whether a child of it is at work, and whether it
    /// lost its parent.
    Family(bool, bool, bool),
    /// The sort of one that an undo has to wait for.
    WaitsFor(&'static str),
    /// The code of an event, and for each field behind it whether it is known.
    Unknown(u32, [bool; 3]),
}

/// At most this many operations are accepted in a book.
const MOST_OPERATIONS: usize = 256;

#[derive(Clone, Debug)]
pub struct Operation {
    pub object: u32,
    writes: bool,
    phase: Phase,
    pub responsible: usize,
    invoker: usize,
    /// The earlier operations it is tied to: those in conflict with it that
    /// weren't aborted when it was accepted.
    tied: Vec<usize>,
}

#[derive(Clone, Debug)]
pub struct Model {
    /// For each transaction, the one that it was spawned under, if it was.
    parents: Vec<Option<usize>>,
    /// The highest value that a field of an event may have. Nothing is judged by
    /// it; who makes events has to keep to it.
    pub ceiling: u32,
    sorts: Vec<Sort>,
    phases: Vec<Phase>,
    pub objects: u32,
    dependencies: Vec<[u32; 3]>,
    pub operations: Vec<Operation>,
}

impl Model {
    pub fn new(tables: &Tables) -> Model {
        let mut sorts = Vec::new();
        for steps in tables.steps.iter().map(|steps| *steps as usize) {
            let saga = sorts.len();
            sorts.push(Sort::Saga { steps });
            sorts.extend((1..=steps).map(|i| Sort::Step { saga, i }));
            sorts.extend((1..steps).map(|i| Sort::Undo { saga, steps, i }));
        }
        sorts.extend((0..tables.plain).map(|_| Sort::Plain));
        Model {
            ceiling: tables.ceiling(),
            parents: vec![None; sorts.len()],
            phases: vec![Phase::Idle; sorts.len()],
            sorts,
            objects: tables.objects,
            dependencies: tables.dependencies.clone(),
            operations: Vec::new(),
        }
    }

    pub fn transactions(&self) -> usize {
        self.sorts.len()
    }

    pub fn phase(&self, t: usize) -> Phase {
        self.phases[t]
    }

    /// The transaction S and the number of steps of each saga.
    pub fn sagas(&self) -> Vec<(usize, usize)> {
        let numbered = self.sorts.iter().enumerate();
        numbered
            .filter_map(|(t, sort)| match sort {
                Sort::Saga { steps } => Some((t, *steps)),
                _ => None,
            })
            .collect()
    }

    pub fn in_phase(&self, phase: Phase) -> Vec<usize> {
        let all = 0..self.transactions();
        all.filter(|t| self.phases[*t] == phase).collect()
    }

    /// The active transactions that may invoke operations.
    pub fn active_operating(&self) -> Vec<usize> {
        let mut active = self.in_phase(Phase::Active);
        active.retain(|t| !matches!(self.sorts[*t], Sort::Saga { .. }));
        active
    }

    /// The active transactions that may give and receive operations.
    pub fn active_delegating(&self) -> Vec<usize> {
        let mut active = self.in_phase(Phase::Active);
        active.retain(|t| self.delegates(*t));
        active
    }

    /// The active plain transactions.
    pub fn active_plain(&self) -> Vec<usize> {
        let mut active = self.in_phase(Phase::Active);
        active.retain(|t| self.sorts[*t] == Sort::Plain);
        active
    }

    /// The plain transactions that are still idle.
    pub fn idle_plain(&self) -> Vec<usize> {
        let mut idle = self.in_phase(Phase::Idle);
        idle.retain(|t| self.sorts[*t] == Sort::Plain);
        idle
    }

    /// The active operations that plain transactions answer for.
    pub fn operations_to_end_alone(&self) -> Vec<usize> {
        let all = 0..self.operations.len();
        all.filter(|operation| {
            let Operation {
                phase, responsible, ..
            } = self.operations[*operation];
            phase == Phase::Active && self.sorts[responsible] == Sort::Plain
        })
        .collect()
    }

    fn delegates(&self, t: usize) -> bool {
        matches!(self.sorts[t], Sort::Plain | Sort::Step { .. })
    }

    /// The number an event is likely to be refused by, 0 if none.
    pub fn verdict(&self, event: Event) -> u8 {
        if !self.is_known(event) {
            return 8;
        }
        match event {
            Event::Begin(t) => self.verdict_on_begin(t as usize),
            Event::Commit(t) => self.verdict_on_commit(t as usize),
            Event::Abort(t) => self.verdict_on_abort(t as usize),
            Event::Operation(t, object, mark) => {
                self.verdict_on_operation(t as usize, object, mark == 1)
            }
            Event::Delegate(giver, receiver, operation) => {
                self.verdict_on_delegation(giver as usize, receiver as usize, operation as usize)
            }
            Event::CommitOperation(t, operation) => {
                self.verdict_on_single_commit(t as usize, operation as usize)
            }
            Event::AbortOperation(t, operation) => {
                self.verdict_on_single_end(t as usize, operation as usize)
            }
            Event::Spawn(parent, child) => self.verdict_on_spawn(parent as usize, child as usize),
        }
    }

    fn is_known(&self, event: Event) -> bool {
        self.known_fields(event) == [true; 3]
    }

    /// For each field behind the code, whether what it names is there.
    fn known_fields(&self, event: Event) -> [bool; 3] {
        let transaction = |t: u32| (t as usize) < self.transactions();
        let accepted = |operation: u32| (operation as usize) < self.operations.len();
        match event {
            Event::Begin(t) | Event::Commit(t) | Event::Abort(t) => [transaction(t), true, true],
            Event::Operation(t, object, mark) => [transaction(t), object < self.objects, mark < 2],
            Event::Delegate(giver, receiver, operation) => [
                transaction(giver),
                transaction(receiver),
                accepted(operation),
            ],
            Event::CommitOperation(t, operation) | Event::AbortOperation(t, operation) => {
                [transaction(t), accepted(operation), true]
            }
            Event::Spawn(parent, child) => [transaction(parent), transaction(child), true],
        }
    }

    fn verdict_on_begin(&self, t: usize) -> u8 {
        if self.phases[t] != Phase::Idle {
            10
        } else if self.broken_saga_rules(Event::Begin(t as u32)) > 0 {
            13
        } else if self.entries_of(t).any(bars_begin) {
            14
        } else {
            0
        }
    }

    fn verdict_on_spawn(&self, parent: usize, child: usize) -> u8 {
        if self.sorts[parent] != Sort::Plain || self.sorts[child] != Sort::Plain {
            9
        } else if self.phases[child] != Phase::Idle {
            10
        } else if self.phases[parent] != Phase::Active {
            11
        } else if self.entries_of(child).any(bars_begin) {
            14
        } else {
            0
        }
    }

    pub fn parent(&self, t: usize) -> Option<usize> {
        self.parents[t]
    }

    /// Who did an operation at first.
    pub fn invoker(&self, operation: usize) -> usize {
        self.operations[operation].invoker
    }

    /// The active operations that one answers for.
    pub fn at_work_on(&self, t: usize) -> Vec<usize> {
        let all = 0..self.operations.len();
        all.filter(|q| {
            let operation = &self.operations[*q];
            operation.responsible == t && operation.phase == Phase::Active
        })
        .collect()
    }

    /// Whether 15 or 16 would bar a commit of `t`, if they were judged.
    pub fn is_dirty_or_on_a_ring(&self, t: usize) -> bool {
        self.dirty_reads_of(t).next().is_some() || self.is_on_a_ring(t)
    }

    /// How many spawned this one after another: 0 for one that began by itself.
    pub fn depth(&self, t: usize) -> usize {
        self.parents[t].map_or(0, |parent| 1 + self.depth(parent))
    }

    /// The children of `t` that are at work.
    pub fn active_children(&self, t: usize) -> Vec<usize> {
        let mut active = self.in_phase(Phase::Active);
        active.retain(|child| self.parents[*child] == Some(t));
        active
    }

    /// Whether `t` was spawned under one that has ended since.
    pub fn has_lost_its_parent(&self, t: usize) -> bool {
        let ended = |parent: usize| {
            self.phases[parent] == Phase::Committed || self.phases[parent] == Phase::Aborted
        };
        self.parents[t].is_some_and(ended)
    }

    fn verdict_on_commit(&self, t: usize) -> u8 {
        if self.phases[t] != Phase::Active {
            11
        } else if self.broken_saga_rules(Event::Commit(t as u32)) > 0 {
            13
        } else if self.entries_of(t).any(bars_commit)
            || !self.active_children(t).is_empty()
            || self.has_lost_its_parent(t)
        {
            14
        } else if self.parents[t].is_some() {
            if self.bars_an_undo(Event::Commit(t as u32)) {
                22
            } else {
                0
            }
        } else if self.dirty_reads_of(t).next().is_some() {
            15
        } else if self.is_on_a_ring(t) {
            16
        } else {
            0
        }
    }

    fn verdict_on_abort(&self, t: usize) -> u8 {
        if let Sort::Undo { .. } = self.sorts[t] {
            9
        } else if self.phases[t] != Phase::Active {
            11
        } else if self.broken_saga_rules(Event::Abort(t as u32)) > 0 {
            13
        } else {
            0
        }
    }

    /// How many of the saga's conditions on an event of a known transaction
    /// don't hold.
    pub fn broken_saga_rules(&self, event: Event) -> usize {
        let is = |t: usize, phase: Phase| self.phases[t] == phase;
        let conditions = match event {
            Event::Begin(t) => match ((t as usize), self.sorts[t as usize]) {
                (t, Sort::Step { saga, i }) => vec![
                    is(saga, Phase::Active),
                    i == 1 || is(t - 1, Phase::Committed),
                ],
                (t, Sort::Undo { saga, steps, i }) => vec![
                    is(saga, Phase::Aborted),
                    is(saga + i, Phase::Committed),
                    !is(saga + i + 1, Phase::Active),
                    !is(saga + i + 1, Phase::Committed)
                        || (i + 1 < steps && is(t + 1, Phase::Committed)),
                ],
                _ => Vec::new(),
            },
            Event::Commit(t) => match ((t as usize), self.sorts[t as usize]) {
                (t, Sort::Saga { steps }) => vec![is(t + steps, Phase::Committed)],
                (_, Sort::Step { saga, .. }) => vec![is(saga, Phase::Active)],
                _ => Vec::new(),
            },
            Event::Abort(t) => match ((t as usize), self.sorts[t as usize]) {
                (t, Sort::Saga { steps }) => vec![!is(t + steps, Phase::Committed)],
                _ => Vec::new(),
            },
            _ => Vec::new(),
        };
        conditions.iter().filter(|holds| !**holds).count()
    }

    fn verdict_on_operation(&self, t: usize, object: u32, writes: bool) -> u8 {
        if let Sort::Saga { .. } = self.sorts[t] {
            return 9;
        }
        if self.phases[t] != Phase::Active {
            return 11;
        }
        if self.must_wait_for(t, object, writes).is_some() {
            17
        } else if self.bars_an_undo(Event::Operation(t as u32, object, writes.into())) {
            22
        } else if self.is_full() {
            18
        } else {
            0
        }
    }

    /// One that has to end before an undo may work on the object.
    fn must_wait_for(&self, t: usize, object: u32, writes: bool) -> Option<usize> {
        let conflicting = self.conflicts(object, writes).map(|p| &self.operations[p]);
        let mut of_others = conflicting.filter(|p| p.phase == Phase::Active && p.responsible != t);
        of_others
            .next()
            .filter(|_| self.is_undo(t))
            .map(|p| p.responsible)
    }

    fn verdict_on_delegation(&self, giver: usize, receiver: usize, operation: usize) -> u8 {
        let handed = Event::Delegate(giver as u32, receiver as u32, operation as u32);
        if giver == receiver || !self.delegates(giver) || !self.delegates(receiver) {
            9
        } else if self.phases[giver] != Phase::Active || self.phases[receiver] != Phase::Active {
            11
        } else if self.operations[operation].responsible != giver {
            12
        } else if self.operation_phase(operation) == Phase::Active && self.bars_an_undo(handed) {
            22
        } else {
            0
        }
    }

    pub fn is_undo(&self, t: usize) -> bool {
        matches!(self.sorts[t], Sort::Undo { .. })
    }

    /// The active undos, whose way to their commit is to be kept free.
    pub fn active_undos(&self) -> Vec<usize> {
        let mut active = self.in_phase(Phase::Active);
        active.retain(|t| self.is_undo(*t));
        active
    }

    /// Whether no further operation can be accepted.
    pub fn is_full(&self) -> bool {
        self.operations.len() == MOST_OPERATIONS
    }

    /// Whether a transaction answers for nothing on an object on which an active
    /// undo has worked, and this object is none of these either.
    pub fn is_far_from_undos(&self, t: usize, object: u32) -> bool {
        let undos = self.active_undos();
        let all = &self.operations;
        let of_t = all.iter().filter(|operation| operation.responsible == t);
        let mut touched = of_t.map(|operation| operation.object).chain([object]);
        let by_undo = |operation: &&Operation| undos.contains(&operation.responsible);
        !touched.any(|object| {
            all.iter()
                .filter(by_undo)
                .any(|other| other.object == object)
        })
    }

    /// Whether some active undo is on a ring once the event is taken in. It is
    /// taken in by a copy, also where it is one operation too many.
    fn bars_an_undo(&self, event: Event) -> bool {
        let undos = self.active_undos();
        if undos.is_empty() {
            return false;
        }
        let mut after = self.clone();
        after.take(event);
        let pairs = after.pairs();
        undos.iter().any(|undo| leads_back(&pairs, *undo))
    }

    fn verdict_on_single_commit(&self, t: usize, operation: usize) -> u8 {
        if self.parents[t].is_some() {
            return 9;
        }
        match self.verdict_on_single_end(t, operation) {
            0 if self.unsettled_writes_before(t, operation).next().is_some() => 15,
            0 if self.is_on_a_ring(t) => 16,
            number => number,
        }
    }

    /// What commit and abort of a single operation have in common.
    fn verdict_on_single_end(&self, t: usize, operation: usize) -> u8 {
        if self.sorts[t] != Sort::Plain {
            9
        } else if self.phases[t] != Phase::Active {
            11
        } else if self.operations[operation].responsible != t {
            12
        } else if self.operations[operation].phase != Phase::Active {
            20
        } else {
            0
        }
    }

    /// The phase of the base and the kind of each entry of a dependent.
    fn entries_of(&self, dependent: usize) -> impl Iterator<Item = (Phase, u32)> + '_ {
        self.dependencies
            .iter()
            .filter(move |[d, _, _]| (*d as usize) == dependent)
            .map(|[_, base, kind]| (self.phases[*base as usize], *kind))
    }

    pub fn operation_phase(&self, operation: usize) -> Phase {
        self.operations[operation].phase
    }

    /// The operations so far that conflict with a new one and aren't aborted.
    fn conflicts(&self, object: u32, writes: bool) -> impl Iterator<Item = usize> + '_ {
        (0..self.operations.len()).filter(move |p| {
            let earlier = &self.operations[*p];
            let conflict = earlier.object == object && (earlier.writes || writes);
            conflict && earlier.phase != Phase::Aborted
        })
    }

    /// The reads that bar a commit of `t`, each with a write that makes it dirty.
    fn dirty_reads_of(&self, t: usize) -> impl Iterator<Item = (usize, usize)> + '_ {
        let own = (0..self.operations.len()).filter(move |q| {
            let operation = &self.operations[*q];
            operation.responsible == t && operation.phase != Phase::Aborted
        });
        own.flat_map(move |q| self.unsettled_writes_before(t, q).map(move |p| (q, p)))
    }

    /// Whether a read that was kept alone bars a commit of `t`.
    pub fn is_barred_by_kept_read(&self, t: usize) -> bool {
        let mut dirty = self.dirty_reads_of(t);
        dirty.any(|(q, _)| self.operation_phase(q) == Phase::Committed)
    }

    /// If the operation is a read, the writes tied before it that are neither
    /// committed nor both active and `t`'s own.
    fn unsettled_writes_before(&self, t: usize, q: usize) -> impl Iterator<Item = usize> + '_ {
        let operation = &self.operations[q];
        let tied = operation.tied.iter().copied();
        tied.filter(move |p| {
            let Operation {
                phase, responsible, ..
            } = self.operations[*p];
            let settled = match phase {
                Phase::Committed => true,
                Phase::Active => responsible == t,
                Phase::Idle | Phase::Aborted => false,
            };
            !operation.writes && !settled
        })
    }

    fn is_on_a_ring(&self, t: usize) -> bool {
        leads_back(&self.pairs(), t)
    }

    /// Whether there is a ring even without the committed transactions.
    fn is_on_a_ring_of_active_ones(&self, t: usize) -> bool {
        let pairs = self.pairs_by_ties_of(|operation| {
            operation.phase != Phase::Aborted
                && self.phases[operation.responsible] != Phase::Committed
        });
        leads_back(&pairs, t)
    }

    /// Whether there is a ring even without the ended operations.
    fn is_on_a_ring_of_active_operations(&self, t: usize) -> bool {
        let pairs = self.pairs_by_ties_of(|operation| operation.phase == Phase::Active);
        leads_back(&pairs, t)
    }

    /// What the rules look at when they judge an event. It tells apart the
    /// ways in which one number comes about, so that all of them can be had.
    pub fn circumstances(&self, event: Event) -> Vec<Circumstance> {
        use Circumstance::*;
        if !self.is_known(event) {
            return vec![Unknown(event.fields()[0], self.known_fields(event))];
        }
        match event {
            Event::Begin(t) => {
                let t = t as usize;
                let barring = self.entries_of(t).find(|entry| bars_begin(*entry));
                let entry = barring.map(|(base, kind)| Entry(base, kind));
                [self.around(t), entry.into_iter().collect()].concat()
            }
            Event::Commit(t) => {
                let t = t as usize;
                let barring = self.entries_of(t).find(|entry| bars_commit(*entry));
                let entry = barring.map(|(base, kind)| Entry(base, kind));
                let dirty = self.dirty_reads_of(t).next();
                let dirty = dirty.map(|(read, write)| self.dirty(read, write));
                let on_commit = entry.into_iter().chain(dirty).chain(self.rings(t));
                [self.around(t), self.family(t), on_commit.collect()].concat()
            }
            Event::Abort(t) => self.around(t as usize),
            Event::Operation(t, object, mark) => {
                let waits_for = self.must_wait_for(t as usize, object, mark == 1);
                let waits_for = waits_for.map(|other| WaitsFor(self.sorts[other].name()));
                let looked_at = [
                    Of(self.sorts[t as usize].name()),
                    Full(self.is_full()),
                    FarFromUndos(self.is_far_from_undos(t as usize, object)),
                    Bars(self.bars_an_undo(event)),
                ];
                looked_at.into_iter().chain(waits_for).collect()
            }
            Event::Delegate(giver, receiver, operation) => {
                let Operation { phase, object, .. } = self.operations[operation as usize];
                let far = FarFromUndos(self.is_far_from_undos(receiver as usize, object));
                let handed = vec![In(phase), far, Bars(self.bars_an_undo(event))];
                [self.acting(giver), self.acting(receiver), handed].concat()
            }
            Event::CommitOperation(t, operation) => {
                let (acting, t) = (self.acting(t), t as usize);
                let operation = operation as usize;
                let write = self.unsettled_writes_before(t, operation).next();
                let dirty = write.map(|write| self.dirty(operation, write));
                let on_commit = dirty.into_iter().chain(self.rings(t));
                let (family, single) = (self.family(t), self.single(operation));
                [acting, family, single, on_commit.collect()].concat()
            }
            Event::AbortOperation(t, operation) => {
                let (family, single) = (self.family(t as usize), self.single(operation as usize));
                [self.acting(t), family, single].concat()
            }
            Event::Spawn(parent, child) => {
                let barring = self.entries_of(child as usize);
                let barring = barring.into_iter().find(|entry| bars_begin(*entry));
                let entry = barring.map(|(base, kind)| Entry(base, kind));
                let family = self.family(parent as usize);
                let both = [self.acting(parent), self.acting(child)].concat();
                [both, family, entry.into_iter().collect()].concat()
            }
        }
    }

    fn family(&self, t: usize) -> Vec<Circumstance> {
        let spawned = self.parents[t].is_some();
        let with_children = !self.active_children(t).is_empty();
        vec![Circumstance::Family(
            spawned,
            with_children,
            self.has_lost_its_parent(t),
        )]
    }

    fn acting(&self, t: u32) -> Vec<Circumstance> {
        let t = t as usize;
        vec![
            Circumstance::Of(self.sorts[t].name()),
            Circumstance::In(self.phases[t]),
        ]
    }

    fn single(&self, operation: usize) -> Vec<Circumstance> {
        let Operation { phase, writes, .. } = self.operations[operation];
        vec![Circumstance::Single(writes), Circumstance::In(phase)]
    }

    fn dirty(&self, read: usize, write: usize) -> Circumstance {
        let (read, write) = (&self.operations[read], &self.operations[write]);
        let of_one = read.responsible == write.responsible;
        Circumstance::Dirty(read.phase, write.phase, of_one)
    }

    fn rings(&self, t: usize) -> [Circumstance; 2] {
        [
            Circumstance::Ring(self.is_on_a_ring_of_active_ones(t)),
            Circumstance::RingOfActive(self.is_on_a_ring_of_active_operations(t)),
        ]
    }

    /// The sort of a transaction and the phases its saga's rules look at.
    fn around(&self, t: usize) -> Vec<Circumstance> {
        let mut looked_at = match self.sorts[t] {
            Sort::Saga { steps } => vec![t + steps],
            Sort::Step { saga, .. } => vec![saga, t - 1],
            Sort::Undo { saga, steps, i } if i + 1 < steps => {
                vec![saga, saga + i, saga + i + 1, t + 1]
            }
            Sort::Undo { saga, i, .. } => vec![saga, saga + i, saga + i + 1],
            Sort::Plain => Vec::new(),
        };
        looked_at.push(t);
        let phases = looked_at.iter().map(|t| Circumstance::In(self.phases[*t]));
        let sort = Circumstance::Of(self.sorts[t].name());
        [sort].into_iter().chain(phases).collect()
    }

    /// Bit b of row a: a stands before b by one tie.
    pub fn pairs(&self) -> [u64; 64] {
        self.pairs_by_ties_of(|operation| operation.phase != Phase::Aborted)
    }

    /// The pairs by ties between operations that count.
    fn pairs_by_ties_of(&self, counts: impl Fn(&Operation) -> bool) -> [u64; 64] {
        let mut pairs = [0; 64];
        for later in self.operations.iter().filter(|later| counts(later)) {
            let tied = later.tied.iter().map(|p| &self.operations[*p]);
            for earlier in tied.filter(|earlier| counts(earlier)) {
                if earlier.responsible != later.responsible {
                    pairs[earlier.responsible] |= 1 << later.responsible;
                }
            }
        }
        pairs
    }

    /// Those that answer for a committed operation, in the order to replay them
    /// in.
    pub fn replay_order(&self) -> Vec<usize> {
        self.replay_order_with_ties_of(Phase::Committed)
    }

    /// The same, as if ties of operations in this phase counted too.
    pub fn replay_order_with_ties_of(&self, phase: Phase) -> Vec<usize> {
        let pairs = self.pairs_by_ties_of(|operation| {
            operation.phase == Phase::Committed || operation.phase == phase
        });
        let kept = self.operations.iter();
        let kept = kept.filter(|operation| operation.phase == Phase::Committed);
        let mut left = kept.fold(0u64, |all, operation| all | 1 << operation.responsible);
        let mut order = Vec::new();
        let is_left = |left: u64, t: &usize| left >> t & 1 == 1;
        while left != 0 {
            let comes_after_another = (0..64)
                .filter(|t| is_left(left, t))
                .fold(0, |all, t| all | pairs[t]);
            let free = left & !comes_after_another;
            // Where ties lead in a circle, as committed ones never do, any will do.
            let next = if free == 0 { left } else { free }.trailing_zeros() as usize;
            order.push(next);
            left &= !(1 << next);
        }
        order
    }

    /// What all sagas still owe together.
    pub fn left(&self) -> usize {
        let sagas = self.sagas().into_iter();
        sagas
            .map(|(saga, steps)| self.outstanding(saga, steps))
            .sum()
    }

    /// What a saga of so many steps still owes.
    pub fn outstanding(&self, saga: usize, steps: usize) -> usize {
        let is = |t: usize, phase: Phase| self.phases[t] == phase;
        if is(saga, Phase::Idle) || is(saga, Phase::Committed) {
            return 0;
        }
        if is(saga + steps, Phase::Committed) && is(saga, Phase::Active) {
            return 1;
        }
        let mut owed = 0;
        if is(saga, Phase::Active) {
            owed += 1;
        }
        if (1..=steps).any(|i| is(saga + i, Phase::Active)) {
            owed += 1;
        }
        for i in (1..steps).filter(|i| is(saga + i, Phase::Committed)) {
            owed += match self.phases[saga + steps + i] {
                Phase::Idle => 2,
                Phase::Active => 1,
                Phase::Committed => 0,
                Phase::Aborted => unreachable!("an undo can't abort"),
            };
        }
        owed
    }

    /// The closing step of a saga of so many steps; none if it owes nothing.
    pub fn closing_step(&self, saga: usize, steps: usize) -> Option<Event> {
        if self.outstanding(saga, steps) == 0 {
            return None;
        }
        let is = |t: usize, phase: Phase| self.phases[t] == phase;
        if is(saga, Phase::Active) {
            let done = is(saga + steps, Phase::Committed);
            let whole = saga as u32;
            return Some(if done {
                Event::Commit(whole)
            } else {
                Event::Abort(whole)
            });
        }
        if let Some(i) = (1..=steps).find(|i| is(saga + i, Phase::Active)) {
            return Some(Event::Abort((saga + i) as u32));
        }
        let mut falling = (1..steps).rev();
        let i = falling
            .find(|i| is(saga + i, Phase::Committed) && !is(saga + steps + i, Phase::Committed))?;
        let undo = (saga + steps + i) as u32;
        Some(match self.phases[saga + steps + i] {
            Phase::Active => Event::Commit(undo),
            _ => Event::Begin(undo),
        })
    }

    /// Takes in an event with the verdict 0.
    pub fn take(&mut self, event: Event) {
        match event {
            Event::Begin(t) => self.phases[t as usize] = Phase::Active,
            Event::Commit(t) => {
                if let Some(parent) = self.parents[t as usize] {
                    self.hand_all_over(t as usize, parent);
                }
                self.end(t as usize, Phase::Committed);
            }
            Event::Abort(t) => self.end(t as usize, Phase::Aborted),
            Event::Operation(t, object, mark) => {
                let writes = mark == 1;
                let tied = self.conflicts(object, writes).collect();
                self.operations.push(Operation {
                    object,
                    writes,
                    phase: Phase::Active,
                    responsible: t as usize,
                    invoker: t as usize,
                    tied,
                });
            }
            Event::Delegate(_, receiver, operation) => {
                let operation = &mut self.operations[operation as usize];
                if operation.phase == Phase::Active {
                    operation.responsible = receiver as usize;
                }
            }
            Event::CommitOperation(_, operation) => {
                self.operations[operation as usize].phase = Phase::Committed;
            }
            Event::AbortOperation(_, operation) => {
                self.operations[operation as usize].phase = Phase::Aborted;
            }
            Event::Spawn(parent, child) => {
                self.phases[child as usize] = Phase::Active;
                self.parents[child as usize] = Some(parent as usize);
            }
        }
    }

    /// All that one is at work on becomes another's.
    fn hand_all_over(&mut self, giver: usize, receiver: usize) {
        for operation in &mut self.operations {
            if operation.responsible == giver && operation.phase == Phase::Active {
                operation.responsible = receiver;
            }
        }
    }

    /// Ends a transaction, and in the same way the active operations it
    /// answers for.
    fn end(&mut self, t: usize, phase: Phase) {
        self.phases[t] = phase;
        for operation in &mut self.operations {
            if operation.responsible == t && operation.phase == Phase::Active {
                operation.phase = phase;
            }
        }
    }
}

/// Whether entries of kinds 4 to 7 lead from a transaction back to itself.
pub fn can_never_move(tables: &Tables) -> bool {
    let mut waits_for = [0; 64];
    for [dependent, base, kind] in &tables.dependencies {
        if (4..=7).contains(kind) {
            waits_for[*dependent as usize] |= 1 << base;
        }
    }
    (0..64).any(|t| leads_back(&waits_for, t))
}

/// Whether a dependency of a kind bars a begin, given the phase of its base.
fn bars_begin((base, kind): (Phase, u32)) -> bool {
    match kind {
        4 => base == Phase::Idle,
        5 => base == Phase::Idle || base == Phase::Active,
        6 => base != Phase::Committed,
        7 => base != Phase::Aborted,
        _ => false,
    }
}

/// Whether a dependency of a kind bars a commit, given the phase of its base.
fn bars_commit((base, kind): (Phase, u32)) -> bool {
    match kind {
        1 => base == Phase::Idle || base == Phase::Active,
        2 => base != Phase::Committed,
        3 => base == Phase::Aborted,
        _ => false,
    }
}

/// Whether following the pairs, by one or more of them, leads from `t` back to it.
fn leads_back(pairs: &[u64; 64], t: usize) -> bool {
    let mut reached = pairs[t];
    loop {
        let rows = (0..64).filter(|a| reached >> a & 1 == 1);
        let further = rows.fold(reached, |all, a| all | pairs[a]);
        if further == reached {
            return reached >> t & 1 == 1;
        }
        reached = further;
    }
}
