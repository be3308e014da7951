#!/usr/bin/env python3
"""Tries the law that a build's end doesn't depend on who does what when: generates builds with runs of one to three workers, judges each
entry by the tables of run_law.py, and compares what the runs come to with the build by one thread. In the first part no run has a fault, in
the second some have. The builds grow with their number; the first of all is FIRST. Prints a line of counts; where something disagrees it
prints the comparison, the plan, the world and the run. It needs no built program. usage: run_walks.py [FIRST]"""
import sys
import zlib

sys.dont_write_bytecode = True

import cases
import event_walks
from run_law import (
    BUILT, EXCLUSIVE, LIMIT, NOWHERE, POM, SHARED, Goal, Module, Moment, Plan, PlannedEntry, World, all_slots, covers, due_of, endings, fits,
    greatest_events, has_strayed, is_between, is_complete, is_faulty, is_sound, is_within, may_come, one_thread, own_bytes, reads_of,
    remote_bytes, request, running, slots_of, touched)

MASK = 0xFFFFFFFFFFFFFFFF
ENDS = ('built', 'skipped', 'missing', 'classpath', 'goal', 'output', 'no_artifact', 'fault', 'memory')
AT_LEAST = 100  # how often each ending has to come


class Disagree(Exception):
    """The comparison that failed, and what with."""


class Draws:
    """Numbers, each made from the one before it."""

    def __init__(self, seed):
        self.state = (seed * 0x9E3779B97F4A7C15 + 0x1234567) & MASK

    def below(self, bound):
        self.state = (self.state * 6364136223846793005 + 1442695040888963407) & MASK
        return (self.state >> 33) % bound

    def one_in(self, count):
        return self.below(count) == 0

    def one_of(self, items):
        return items[self.below(len(items))]

    def some(self, items, count):
        """Of the items one in so many."""
        return [x for x in items if self.one_in(count)]

    def shuffled(self, items):
        items = list(items)
        for at in range(len(items) - 1, 0, -1):
            other = self.below(at + 1)
            items[at], items[other] = items[other], items[at]
        return items


# ---- plans and worlds

SLOTS = ('classes', 'test classes', 'main', 'tests', 'sources', 'javadoc')
LENGTHS = (0, 1) + 12 * (1000,) + (LIMIT // 2, LIMIT // 2, LIMIT // 2 + 1, LIMIT // 2 + 1, LIMIT, LIMIT, LIMIT + 1)
OUTPUTS = (0, 1) + 24 * (5,) + (6, 50, 67_108_864, 67_108_864, 67_108_865)
BUDGETS = (0, 5) + 3 * (50,) + 16 * (67_108_864,)
NEEDS = ('compile', 'runtime', 'test')


def make_entry(draws, modules, upstream, fetch):
    kind = draws.below(8)
    needs = frozenset(draws.some(NEEDS, 2))
    if kind < 5 and upstream:
        u = draws.one_of(upstream)
        filled = [g.slot for g in modules[u].goals]
        return PlannedEntry(('module', u, draws.one_of(filled + filled + ['main', 'tests', draws.one_of(SLOTS + (NOWHERE, POM))])), needs)
    if kind < 7 and fetch:
        return PlannedEntry(('file', draws.one_of(fetch)), needs)
    return PlannedEntry(('nothing',), needs)


def make_goal(draws):
    slot = draws.one_of((NOWHERE, 'main', 'main', 'main') + SLOTS)
    return Goal(slot, draws.one_of(('nothing',) + NEEDS), draws.below(23))


def make_module(draws, modules, cover, shared, first_file):
    """A module; `cover` has the name that covers each file that may be fetched, `shared` is how many names may be in a batch."""
    number = len(modules)
    goals = [make_goal(draws) for _ in range(draws.below(5))]
    upstream = draws.some(range(number), 3)
    fetch = draws.shuffled(draws.some(range(len(cover)), 2)) if goals else []
    batch = sorted({cover[f] for f in fetch} | set(draws.some(range(shared), 6)))
    entries = [make_entry(draws, modules, upstream, fetch) for _ in range(draws.below(5))] if goals else []
    filled = {g.slot for g in goals}
    kept = draws.shuffled([slot for slot in SLOTS + (NOWHERE,) if draws.below(4) > (0 if slot in filled else 2)])
    own = [(slot, first_file + at) for at, slot in enumerate([POM] + kept)]
    own_name = draws.below(shared) if draws.one_in(8) else shared + number
    pom = ('bytes', 'pom %d' % number, draws.below(9))
    return Module(tuple(upstream), tuple(batch), tuple(fetch), own_name, tuple(own), pom, tuple(goals), tuple(entries),
                  draws.one_of(BUDGETS), not draws.one_in(4), draws.one_in(3))


def make_plan(draws, most):
    """A sound plan of at most so many modules."""
    count, shared, files = 1 + draws.below(most), 1 + draws.below(3), draws.below(5)
    cover = [draws.below(shared) for _ in range(files)]
    modules = []
    for _ in range(count):
        modules.append(make_module(draws, modules, cover, shared, files))
        files += len(modules[-1].own)
    present = tuple(draws.one_in(3) for _ in range(files))
    plan = Plan(tuple(modules), shared + count, files, present, 1 + draws.below(3), sum(map(greatest_events, modules)))
    if not is_sound(plan):
        raise Disagree('a plan is not sound', plan)
    return plan


def gate_of(seed):
    """A gate that tells its function: one answer to each request."""
    return lambda wanted: answer_by(Draws(zlib.crc32(repr((seed, wanted)).encode())))


def answer_by(draws):
    kind = draws.below(24)
    if kind == 0:
        return ('answer', 'failed', 'text %d' % draws.below(2))
    if kind < 5:
        return ('answer', 'done')
    return ('answer', 'produced', ('bytes', 'out %d' % draws.below(1000), draws.one_of(OUTPUTS)))


def make_gates(draws, workers):
    """One gate for all, one for each worker, or for each one that tells or one that doesn't."""
    kind, seed = draws.below(4), draws.below(1 << 30)
    if kind < 2:
        return tuple(gate_of(seed) for _ in range(workers)), gate_of(seed)
    return tuple(gate_of(seed + w) if kind == 2 or draws.one_in(2) else None for w in range(workers)), None


def make_world(draws, plan):
    """A world, and the gate that all workers have, or None."""
    start = {f: ('bytes', 'start %d' % f, draws.one_of(LENGTHS)) for f in range(plan.files) if plan.present[f]}
    start['apart'] = ('bytes', 'apart', 3)
    remote = {f: ('bytes', 'remote %d' % f, draws.one_of(LENGTHS)) for f in range(plan.files) if not draws.one_in(12)}
    gates, gate = make_gates(draws, plan.workers)
    return World(start, remote, gates), gate


# ---- runs

def carried_by(draws, plan, world, now, event):
    """What the entry of an event carries, where it is to fit."""
    if event[0] not in ('publish', 'answer'):
        return None
    w, number = event[1], running(now, event[1])
    m, slots = plan.modules[number], all_slots(plan, now)
    if event[0] == 'publish':
        if event[2] in m.fetch:
            return remote_bytes(world, event[2])
        return own_bytes(m, slots[number], next(s for s, f in m.own if f == event[2]))
    gate = world.gates[w] or (lambda wanted: answer_by(draws))
    return gate(request(number, m, event[2], slots[number], now.files, slots))


def is_hopeful(plan, world, now, w):
    """Whether a worker that frees what isn't due can still end without a fault: a file can't be had, or the entries are too long."""
    m, trail = plan.modules[running(now, w)], now.trail[w]
    if has_strayed(trail):
        return True
    part, deeds = due_of(plan, now, w)
    if part == 'fetch':
        kind, file = next(iter(deeds))[:2]
        return kind == 'publish' and remote_bytes(world, file) is None
    return part == 'read' and not is_within(m, now.files, all_slots(plan, now))


def is_calm(plan, now, w, event):
    """Whether a due event of an install leaves out no file that has to be published."""
    m, number = plan.modules[running(now, w)], running(now, w)
    if due_of(plan, now, w)[0] != 'install' or event[0] not in ('publish', 'free'):
        return True
    done = [step.deed[1] for step in now.trail[w] if step.deed[0] == 'publish']
    slots = slots_of(m, now.answers[number])
    left = [f for slot, f in m.own if f not in done and own_bytes(m, slots, slot) is not None]
    return left == [] if event[0] == 'free' else left[:1] == [event[2]]


def ends_of(plan, now, w, faults):
    m = plan.modules[running(now, w)]
    last = len(now.answers[running(now, w)]) - 1
    found = [BUILT, ('no_artifact',), ('classpath',), ('goal', last), ('output', last)] + [('missing', f) for f in m.fetch]
    return [('end', w, ending) for ending in found + faults]


def faults_of(draws, mood):
    """The bad ends that a worker may come to at this moment."""
    if not draws.one_in(mood):
        return []
    return [('fault', draws.one_of(('remote', 'area', 'shelf', 'gate'))), ('memory',)]


def moves_of(draws, plan, world, now, w, mood):
    """The events that a worker may do next. `mood` is 0 for a run without faults, else faults come one in so many."""
    if not now.trail[w]:
        return [('start', w, number) for number in range(len(plan.modules))]
    strayed, bold = has_strayed(now.trail[w]), mood and draws.one_in(mood)
    moves = [] if strayed else [(d[0], w) + d[1:] for d in due_of(plan, now, w)[1]]
    if not bold:
        moves = [e for e in moves if is_calm(plan, now, w, e)]
    if bold or is_hopeful(plan, world, now, w):
        moves += [('free', w, n) for n in now.held[w] if ('free', w, n) not in moves]
    return sorted(moves) + ends_of(plan, now, w, faults_of(draws, 1 if strayed else mood) if mood else [])


def next_entry(draws, plan, world, now, mood, first):
    """An entry that may come and fits: of the worker `first` where it has one, else of another. None where there is none."""
    for w in [first] + draws.shuffled(range(plan.workers)):
        moves = [e for e in moves_of(draws, plan, world, now, w, mood) if may_come(plan, now, e)]
        entries = [(e, carried_by(draws, plan, world, now, e)) for e in moves]
        entries = [x for x in entries if fits(plan, world, now, *x)]
        if entries:
            return draws.one_of(entries)
    return None


def skips(plan, now):
    return [('skip', number) for number in range(len(plan.modules)) if may_come(plan, now, ('skip', number))]


def go_on(draws, plan, world, now, run, mood):
    """Lengthens a run until it is complete."""
    w, held_to = 0, 1 + draws.below(4)  # how long a worker goes on alone
    while not is_complete(now):
        if draws.one_in(held_to):
            w = draws.below(plan.workers)
        lost = skips(plan, now)
        entry = (draws.one_of(lost), None) if lost and draws.one_in(3) else next_entry(draws, plan, world, now, mood, w)
        if entry is None and lost:
            entry = (lost[0], None)
        if entry is None and mood:
            entry = next_entry(draws, plan, world, now, 1, w)
        if entry is None:
            raise Disagree('a run cannot go on', plan, world, run)
        run.append(entry)
        now.add(plan, *entry)
        if len(run) > 4 * plan.events + 8:
            raise Disagree('a run does not end', plan, world, run)
    return run


# ---- comparisons

def events_of(plan):
    """Every event that a plan has numbers for."""
    goals = range(max(len(m.goals) for m in plan.modules))
    for number in range(len(plan.modules)):
        yield ('skip', number)
    for w in range(plan.workers):
        yield from (('start', w, number) for number in range(len(plan.modules)))
        yield from ((kind, w, f) for kind in ('read', 'publish') for f in range(plan.files))
        yield from (('take', w, n, mode) for mode in (SHARED, EXCLUSIVE) for n in range(plan.names))
        yield from (('free', w, n) for n in range(plan.names))
        yield from (('answer', w, g) for g in goals)
        yield from (('end', w, ending) for ending in (BUILT, ('no_artifact',), ('classpath',), ('memory',), ('fault', 'shelf')))
        yield from (('end', w, (kind, g)) for kind in ('goal', 'output') for g in goals)
        yield from (('end', w, ('missing', f)) for f in range(plan.files))


def answers_of(kept, rest):
    """The kept answers, and for each other goal what `rest` answers."""
    return lambda number, goal, wanted: kept[number][goal] if goal < len(kept[number]) else rest(wanted)


def done_for(wanted):
    return ('answer', 'done')


def failed_for(wanted):
    return ('answer', 'failed', 'none')


def check_again(draws, plan, world, answer_of, end):
    """From files between the start and the end the build by one thread ends alike."""
    ends, files, slots = end
    middle = {}
    for f in sorted(set(world.start) | set(files), key=str):
        value = draws.one_of((world.start, files)).get(f)
        if value is not None:
            middle[f] = value
    if one_thread(plan, world, middle, answer_of) != (ends, files, slots):
        raise Disagree('again from files between', plan, world, middle)


def check_moments(plan, world, run, end):
    """Behind each prefix every file has its value of the start or of the end, which a publish alone changes; and each file is published once,
    with its names held."""
    now, published = Moment(plan, world.start), set()
    for event, carried in run:
        if event[0] == 'publish':
            refused = why_not_published(plan, now, event[1], event[2], published)
            if refused:
                raise Disagree(refused, plan, world, run, event)
            published.add(event[2])
        now.add(plan, event, carried)
        if event[0] == 'publish' and not is_between(world.start, now.files, end):
            raise Disagree('between start and end', plan, world, run, event)


def why_not_published(plan, now, w, file, published):
    """What a publish would break of what is said of all of them, or None."""
    m = plan.modules[running(now, w)]
    names = covers(plan, file) if file in m.fetch else {m.own_name}
    if file in published:
        return 'published once'
    if any(now.held[w].get(n) != EXCLUSIVE for n in names):
        return 'published under an exclusive hold'
    if any(n in now.held[v] for v in range(plan.workers) if v != w for n in names):
        return 'published while no other holds its name'
    if file in m.fetch and file in now.there:
        return 'fetched only where absent'
    return None


def check_length(plan, world, run):
    if len(run) > plan.events:
        raise Disagree('no longer than the plan\'s events', plan, world, run)


def check_over(plan, world, run, now):
    for event in events_of(plan):
        if may_come(plan, now, event):
            raise Disagree('a complete run goes on', plan, world, run, event)


def check_quiet(draws, plan, world, gate, run, now):
    """A complete, quiet run that fits ends as the build by one thread with its answers."""
    ends, files, slots = end = one_thread(plan, world, world.start, answers_of(now.answers, done_for))
    if endings(plan, now) != ends:
        raise Disagree('endings', plan, world, run, endings(plan, now), ends)
    if now.files != files:
        raise Disagree('files', plan, world, run, now.files, files)
    if all_slots(plan, now) != slots:
        raise Disagree('slots', plan, world, run, all_slots(plan, now), slots)
    if one_thread(plan, world, world.start, answers_of(now.answers, failed_for)) != end:
        raise Disagree('each goal that is reached is answered', plan, world, run, ends)
    check_again(draws, plan, world, answers_of(now.answers, done_for), end)
    if gate:
        check_gate(draws, plan, world, lambda number, goal, wanted: gate(wanted), run, end)
    check_moments(plan, world, run, files)


def check_gate(draws, plan, world, answer_of, run, end):
    """Where all workers have one gate that tells, the build by one thread with the gate's own answers ends alike, from files between too."""
    if one_thread(plan, world, world.start, answer_of) != end:
        raise Disagree('the gate\'s own answers', plan, world, run, end)
    check_again(draws, plan, world, answer_of, end)


def check_faulty(draws, plan, world, run, now):
    """With faults a module that they don't touch ends as by one thread, for all answers that extend the kept ones; the files are between."""
    mine = endings(plan, now)
    fine = [number for number in range(len(plan.modules)) if number not in touched(plan, mine)]
    slots = all_slots(plan, now)
    for rest in (done_for, failed_for, gate_of(draws.below(1000))):
        ends, files, kept = one_thread(plan, world, world.start, answers_of(now.answers, rest))
        for number in fine:
            if (mine[number], slots[number]) != (ends[number], kept[number]):
                raise Disagree('isolation', plan, world, run, number, mine[number], ends[number])
        check_moments(plan, world, run, files)


def check(draws, plan, world, gate, run, now):
    """All that holds of a complete run that fits."""
    check_length(plan, world, run)
    if is_quiet(plan, now):
        check_quiet(draws, plan, world, gate, run, now)
    else:
        check_faulty(draws, plan, world, run, now)


def is_quiet(plan, now):
    return not any(map(is_faulty, endings(plan, now)))


# ---- runs with one entry changed

def other_carried(draws, plan, world, event, carried):
    """What the entry could carry in place of it: nothing, bytes of another origin, another answer."""
    number = event[2] if event[0] == 'publish' else 0
    bytes_ = [('bytes', 'out 1', 1), ('bytes', 'start %d' % number, 1000), world.remote.get(number), draws.one_of(plan.modules).pom]
    answers = [('answer', 'done'), ('answer', 'failed', 'other'), ('answer', 'produced', ('bytes', 'other', draws.one_of(OUTPUTS)))]
    likely = answers if event[0] == 'answer' else bytes_
    return draws.one_of([x for x in [None] + (likely if draws.below(4) else bytes_ + answers) if x != carried])


def other_number(draws, plan, event):
    """The event with another number, mode or ending."""
    kind, w = event[0], event[1]
    if kind == 'end':
        endings_ = [e[2] for e in events_of(plan) if e[0] == 'end' and e[1] == w and e[2] != event[2]]
        return ('end', w, draws.one_of(endings_))
    alike = [e for e in events_of(plan) if e[0] == kind and (kind == 'skip' or e[1] == w) and e != event]
    return draws.one_of(alike) if alike else event


def other_worker(draws, plan, event):
    return event if event[0] == 'skip' else (event[0], draws.below(plan.workers)) + event[2:]


def changed(draws, plan, world, run):
    """The run with one entry changed: another event, another worker, another thing carried; or left out, doubled, or behind the next."""
    run, at, kind = list(run), draws.below(len(run)), draws.below(10)
    if kind > 6:
        at = draws.one_of([n for n in range(len(run) - 1) if run[n][0][1] != run[n + 1][0][1]] or [at])
    event, carried = run[at]
    if kind < 2:
        carriers = [n for n, (e, _) in enumerate(run) if e[0] in ('publish', 'answer')]
        at = draws.one_of(carriers) if carriers else at
        event, carried = run[at]
        run[at] = (event, other_carried(draws, plan, world, event, carried))
    elif kind == 2:
        run[at] = (other_number(draws, plan, event), carried)
    elif kind == 3:
        run[at] = (other_worker(draws, plan, event), carried)
    elif kind == 4:
        event = draws.one_of(list(events_of(plan)))
        run[at] = (event, carried)
    elif kind == 5:
        del run[at]
    elif kind == 6:
        run.insert(at, run[at])
    else:
        run[at:at + 2] = run[at:at + 2][::-1]
    return run


def judged(plan, world, run):
    """Where the build stands behind a run, or None where some entry may not come or doesn't fit."""
    now = Moment(plan, world.start)
    for event, carried in run:
        if not may_come(plan, now, event) or not fits(plan, world, now, event, carried):
            return None
        now.add(plan, event, carried)
    return now


def check_changed(draws, plan, world, gate, run, now, counts):
    """A changed run doesn't fit, or ends as by one thread with its answers: as the run did, where it keeps the same."""
    other = changed(draws, plan, world, run)
    if other == run:
        return
    then = judged(plan, world, other)
    if then is None:
        counts['refused'] += 1
        return
    if not is_complete(then):
        go_on(draws, plan, world, then, other, 3)
    check(draws, plan, world, gate, other, then)
    same = is_quiet(plan, then) and is_quiet(plan, now) and then.answers == now.answers
    if same and (endings(plan, then), then.files) != (endings(plan, now), now.files):
        raise Disagree('a changed run ends otherwise', plan, world, other)
    counts['alike'] += 1


# ---- the same events, asked of the walks' definition by scripts

def as_outline(plan):
    modules = [dict(upstream=list(m.upstream), batch=list(m.batch), fetch=list(m.fetch), own=[f for _, f in m.own], own_name=m.own_name,
                    reads=reads_of(m), goals=len(m.goals), installs=m.installs, needs=m.needs_artifact) for m in plan.modules]
    return dict(modules=modules, names=plan.names, present=list(plan.present), workers=plan.workers)


def events_near(draws, now, every, event):
    """The event, some others, and all ends of a worker that holds no name; few where it kept to the form."""
    w = draws.below(len(now.trail)) if event[0] == 'skip' else event[1]
    ends = [] if not now.trail[w] or now.held[w] else [e for e in every if e[:2] == ('end', w)]
    return [event] + [draws.one_of(every) for _ in range(5)] + (ends if has_strayed(now.trail[w]) else draws.shuffled(ends)[:5])


def check_scripts(draws, plan, world, run):
    """At each moment of a run: the next event and some others may come in the one definition exactly where they may in the other."""
    outline, now = as_outline(plan), Moment(plan, world.start)
    then, every, asked = event_walks.Standing(outline), list(events_of(plan)), 0
    for event, carried in run:
        for e in events_near(draws, now, every, event):
            asked += 1
            if may_come(plan, now, e) != (event_walks.cause(outline, then, e) is None):
                raise Disagree('the definition by scripts', plan, world, run, e)
        now.add(plan, event, carried)
        event_walks.after(outline, then, event)
    return asked


# ---- all of it

def walk(number, mood, counts):
    """A build, a run of it, and what stands behind the run."""
    draws = Draws(number)
    plan = make_plan(draws, 1 + min(5, number % (1 << 32) // 50))
    world, gate = make_world(draws, plan)
    now = Moment(plan, world.start)
    run = go_on(draws, plan, world, now, [], mood)
    check(draws, plan, world, gate, run, now)
    check_over(plan, world, run, now)
    count_walk(counts, plan, run, now)
    return draws, plan, world, gate, run, now


def count_walk(counts, plan, run, now):
    counts['plans'] += 1
    counts['entries'] += len(run)
    counts['strays'] += now.strays
    ends = endings(plan, now)
    for end in ends:
        counts[end[0]] += 1
    if not is_quiet(plan, now):
        counts['beside'] += len(plan.modules) - len(touched(plan, ends))


def compare(first, plans, faulty):
    """Walks through so many builds without faults, and so many with; the counts."""
    counts = dict.fromkeys(('plans', 'entries', 'strays', 'beside', 'refused', 'alike', 'asked') + ENDS, 0)
    for number in range(first, first + plans):
        draws, plan, world, gate, run, now = walk(number, 0, counts)
        for _ in range(2):
            check_changed(draws, plan, world, gate, run, now, counts)
        if number % 10 == 0:
            counts['asked'] += check_scripts(draws, plan, world, run)
    for number in range(first, first + faulty):
        draws, plan, world, gate, run, now = walk(number + (1 << 32), 4 + number % 20, counts)
        check_changed(draws, plan, world, gate, run, now, counts)
        if number % 4 == 0:
            counts['asked'] += check_scripts(draws, plan, world, run)
    return counts


def check_counts(counts):
    rare = [end for end in ENDS if counts[end] < AT_LEAST]
    if rare:
        raise Disagree('endings that come too rarely', rare, counts)


def shown(part):
    """A part of what disagrees, in lines."""
    if isinstance(part, Plan):
        modules = ['module %d: %r' % pair for pair in enumerate(part.modules)]
        return ['plan of %d names, %d files, %d workers, %d events' % (part.names, part.files, part.workers, part.events)] + modules
    if isinstance(part, World):
        return ['at the start: %r' % part.start, 'remote: %r' % part.remote]
    if isinstance(part, list):
        return ['%d: %r' % pair for pair in enumerate(part)]
    return [repr(part)]


def told(counts):
    ends = ', '.join('%d %s' % (counts[end], end) for end in ENDS)
    return ('{plans} plans with a run each, {entries} entries, {strays} frees that were not due; modules: {ends}, {beside} beside faults; '
            'changed runs: {refused} refused, {alike} end alike; {asked} events as by scripts').format(ends=ends, **counts)


def main(words):
    try:
        counts = compare(int(words[0]) if words else 1, 5000, 1500)
        check_counts(counts)
    except Disagree as found:
        for part in found.args[1:]:
            print('  ' + '\n  '.join(shown(part)))
        cases.fails('generated runs end as the build by one thread', found.args[0])
    else:
        cases.passes(told(counts))
    return cases.tell()


if __name__ == '__main__':
    sys.exit(main(sys.argv[1:]))
