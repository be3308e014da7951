"""Plans, runs and the build by one thread as a plain, slow program, with which run_walks.py tries the law of runs. It is a table of trails
and a table of endings, and works everything out from the entries of a run. Nothing here chooses: `may_come` and `fits` judge an entry,
`one_thread` builds.

Bytes are `('bytes', what, length)`, so that they can be as long as the real limits. An answer is `('answer', 'done')`, `('answer', 'failed',
text)` or `('answer', 'produced', bytes)`. Names and files are numbers. An event is a kind, a worker and what it is of; an entry of a run is
an event with what it carries."""
from dataclasses import dataclass

SHARED, EXCLUSIVE = 'Shared', 'Exclusive'
LIMIT = 134_217_728  # bytes: of a file that is fetched, and of all entries of a module
BUILT = ('built',)
NOWHERE, POM = 'nowhere', 'pom'
STANDS_IN = {'main': 'classes', 'tests': 'test classes'}  # whose bytes an entry has where the slot has none


@dataclass(frozen=True)
class Goal:
    slot: str
    need: str
    phase: int


@dataclass(frozen=True)
class PlannedEntry:
    origin: tuple  # ('file', f), ('module', u, slot) or ('nothing',)
    needs: frozenset  # of 'compile', 'runtime', 'test'


@dataclass(frozen=True)
class Module:
    upstream: tuple
    batch: tuple
    fetch: tuple
    own_name: int
    own: tuple  # pairs of slot and file
    pom: tuple
    goals: tuple
    entries: tuple
    budget: int
    installs: bool
    needs_artifact: bool


@dataclass(frozen=True)
class Plan:
    modules: tuple
    names: int
    files: int
    present: tuple
    workers: int
    events: int


@dataclass(frozen=True)
class World:
    start: dict
    remote: dict
    gates: tuple  # one for each worker: a function of a request, or None where it doesn't tell


# ---- sound plans

def climbs(numbers):
    return all(a < b for a, b in zip(numbers, numbers[1:]))


def is_distinct(items):
    return len(set(items)) == len(items)


def in_range(plan, m):
    files = m.fetch + tuple(f for _, f in m.own)
    return all(n < plan.names for n in m.batch + (m.own_name,)) and all(f < plan.files for f in files)


def is_backed(m, origin):
    if origin[0] == 'file':
        return origin[1] in m.fetch
    return origin[0] == 'nothing' or origin[1] in m.upstream


def is_sound_module(plan, number, m):
    slots = [s for s, _ in m.own]
    return (in_range(plan, m) and climbs(m.upstream) and all(u < number for u in m.upstream)
            and climbs(m.batch) and is_distinct(m.fetch) and is_distinct([f for _, f in m.own]) and is_distinct(slots)
            and slots[0] == POM and all(is_backed(m, e.origin) for e in m.entries)
            and all(g.slot != POM and g.phase < 23 for g in m.goals)
            and (bool(m.goals) or not m.fetch and not m.entries))


def greatest_events(m):
    return 6 + 4 * len(m.batch) + 2 * len(m.fetch) + 2 * len(m.own) + len(m.goals)


def covers(plan, file):
    """The names that stand in the batch of every module that fetches the file."""
    batches = [set(m.batch) for m in plan.modules if file in m.fetch]
    return set.intersection(*batches) if batches else set()


def is_sound(plan):
    fetched = {f for m in plan.modules for f in m.fetch}
    own = [f for m in plan.modules for _, f in m.own]
    return (1 <= plan.workers <= 16 and len(plan.present) == plan.files and is_distinct(own) and not fetched & set(own)
            and all(is_sound_module(plan, n, m) for n, m in enumerate(plan.modules)) and all(covers(plan, f) for f in fetched)
            and sum(map(greatest_events, plan.modules)) <= plan.events)


# ---- what both sides speak of: the bytes of an entry, a request, what the remote gives

def size(bytes_):
    return 0 if bytes_ is None else bytes_[2]


def entry_bytes(entry, files, slots):
    """The bytes of an entry, where these files are there and the modules keep these slots."""
    kind = entry.origin[0]
    if kind == 'file':
        return files.get(entry.origin[1])
    if kind == 'nothing':
        return None
    kept, slot = slots[entry.origin[1]], entry.origin[2]
    return kept.get(slot, kept.get(STANDS_IN.get(slot)))


def request(number, m, goal, own, files, slots):
    """What a goal is asked: its module and call, what the module keeps, and the classpath that the call needs."""
    call = m.goals[goal]
    classpath = tuple((place, entry_bytes(e, files, slots)) for place, e in enumerate(m.entries) if call.need in e.needs)
    return (number, goal, call.slot, tuple(sorted(own.items())), classpath)


def remote_bytes(world, file):
    """What the remote gives of a file, within the limit."""
    found = world.remote.get(file)
    return None if found is None or size(found) > LIMIT else found


# ---- the build by one thread: a fold over the modules in order

def fetch_for(m, world, files):
    """Fetches what can be had, in order; the first file that can't, or None."""
    for f in m.fetch:
        if f not in files:
            if remote_bytes(world, f) is None:
                return f
            files[f] = remote_bytes(world, f)
    return None


def run_goals(number, m, files, slots, answer_of):
    """The ending at the first bad answer, or None, and what is kept."""
    kept = {}
    for goal, call in enumerate(m.goals):
        answer = answer_of(number, goal, request(number, m, goal, kept, files, slots))
        if answer[1] == 'failed':
            return ('goal', goal), kept
        if answer[1] == 'produced' and call.slot != NOWHERE:
            if sum(size(kept[slot]) for slot in kept if slot != call.slot) + size(answer[2]) > m.budget:
                return ('output', goal), kept
            kept[call.slot] = answer[2]
    return None, kept


def install(m, kept, files):
    """Writes the POM, and what is kept of each slot that has a file."""
    files[m.own[0][1]] = m.pom
    for slot, f in m.own[1:]:
        if slot in kept:
            files[f] = kept[slot]


def one_module(number, m, world, files, ends, slots, answer_of):
    """How the module ends, and what it keeps; `files` change."""
    lost = [u for u in m.upstream if ends[u] != BUILT]
    if lost:
        return ('skipped', lost[0]), {}
    missing = fetch_for(m, world, files)
    if missing is not None:
        return ('missing', missing), {}
    if sum(size(entry_bytes(e, files, slots)) for e in m.entries) > LIMIT:
        return ('classpath',), {}
    bad, kept = run_goals(number, m, files, slots, answer_of)
    if bad:
        return bad, kept
    if m.installs and m.needs_artifact and 'main' not in kept:
        return ('no_artifact',), kept
    if m.installs:
        install(m, kept, files)
    return BUILT, kept


def one_thread(plan, world, start, answer_of):
    """The endings, the files and the slots of the build by one thread."""
    files, ends, slots = dict(start), [], []
    for number, m in enumerate(plan.modules):
        end, kept = one_module(number, m, world, files, ends, slots, answer_of)
        ends.append(end)
        slots.append(kept)
    return ends, files, slots


# ---- where a build stands behind a run

@dataclass(frozen=True)
class Step:
    """An event of a trail, with the files that were there before it and whether it was due."""
    deed: tuple
    there: frozenset
    due: bool


class Moment:
    """What the entries of a run say, gathered: for each module how it stands and its answers, for each worker its trail, and the files."""

    def __init__(self, plan, start):
        self.state = ['waiting'] * len(plan.modules)
        self.trail = [[] for _ in range(plan.workers)]
        self.held = [{} for _ in range(plan.workers)]
        self.there = frozenset(f for f in range(plan.files) if plan.present[f])
        self.files = dict(start)
        self.answers = [[] for _ in plan.modules]
        self.strays = 0
        self.known = {}  # what was worked out at this moment: what is due of a worker, what the modules keep

    def add(self, plan, event, carried):
        self.put(plan, event, carried)
        self.known = {}

    def put(self, plan, event, carried):
        kind = event[0]
        if kind == 'skip':
            self.state[event[1]] = 'skipped'
            return
        w = event[1]
        if kind == 'start':
            self.state[event[2]] = ('running', w)
            self.trail[w] = [Step(('start', event[2]), self.there, True)]
            return
        number = running(self, w)
        if kind == 'end':
            self.state[number] = ('ended', event[2])
            self.trail[w] = []
            return
        deed = (kind,) + event[2:]
        is_due = not has_strayed(self.trail[w]) and deed in due_of(plan, self, w)[1]
        self.trail[w].append(Step(deed, self.there, is_due))
        self.strays += not is_due
        self.count(w, number, deed, carried)

    def count(self, w, number, deed, carried):
        if deed[0] == 'take':
            self.held[w][deed[1]] = deed[2]
        elif deed[0] == 'free':
            del self.held[w][deed[1]]
        elif deed[0] == 'publish':
            self.there = self.there | {deed[1]}
            self.files[deed[1]] = carried
        elif deed[0] == 'answer':
            self.answers[number].append(carried)


def running(now, w):
    """The module that a worker runs, or None."""
    return now.trail[w][0].deed[1] if now.trail[w] else None


def is_lost(state):
    """Whether a module was skipped, or ended otherwise than built."""
    return state == 'skipped' or state[0] == 'ended' and state[1] != BUILT


def is_over(state):
    return state == 'skipped' or state[0] == 'ended'


def is_complete(now):
    return all(map(is_over, now.state))


def first_absent(m, there):
    return next((f for f in m.fetch if f not in there), None)


def has_strayed(trail):
    """Whether some Free of the trail wasn't due; what follows isn't due either."""
    return bool(trail) and not trail[-1].due


# ---- the table of trails

def reads_of(m):
    """The files among the entries, each once, by first entry."""
    return list(dict.fromkeys(e.origin[1] for e in m.entries if e.origin[0] == 'file'))


def frees_left(m, done):
    return {('free', n) for n in m.batch if ('free', n) not in done}


def due_install(m, done):
    """What is due of the part that installs, behind what was done of it."""
    if not done:
        return {('take', m.own_name, EXCLUSIVE)}
    files = [f for _, f in m.own]
    if len(done) == 1:
        return {('publish', files[0])}
    after = files.index(done[-1][1]) + 1
    return {('publish', f) for f in files[after:]} | {('free', m.own_name)}


def due_reads(m, done):
    """What is due of the parts that read, answer, install and end."""
    reads = [('read', f) for f in reads_of(m)]
    if len(done) < len(reads):
        return 'read', {reads[len(done)]}
    done = done[len(reads):]
    if len(done) < len(m.batch):
        return 'read', frees_left(m, done)
    done = done[len(m.batch):]
    if len(done) < len(m.goals):
        return 'answer', {('answer', len(done))}
    done = done[len(m.goals):]
    if m.installs and not (done and done[-1][0] == 'free'):
        return 'install', due_install(m, done)
    return 'end', set()


def due(m, trail, there):
    """The part of the form in which a trail stands that kept to it, and the deeds that continue it."""
    done, b = [step.deed for step in trail[1:]], len(m.batch)
    if len(done) < b:
        return 'share', {('take', m.batch[len(done)], SHARED)}
    if first_absent(m, trail[b].there) is None:  # at the end of the part that shares
        return due_reads(m, done[b:])
    done = done[b:]
    if len(done) < b:
        return 'fetch', frees_left(m, done)
    done = done[b:]
    if len(done) < b:
        return 'fetch', {('take', m.batch[len(done)], EXCLUSIVE)}
    if first_absent(m, there) is not None:
        return 'fetch', {('publish', first_absent(m, there))}
    done = done[b:]
    while done and done[0][0] == 'publish' and done[0][1] in m.fetch:
        done = done[1:]
    return due_reads(m, done)


def due_of(plan, now, w):
    """The same of a running worker at a moment."""
    if w not in now.known:
        now.known[w] = due(plan.modules[running(now, w)], now.trail[w], now.there)
    return now.known[w]


def held_of(trail):
    """The names that a trail took and didn't free, each with its mode."""
    held = {}
    for step in trail:
        if step.deed[0] == 'take':
            held[step.deed[1]] = step.deed[2]
        elif step.deed[0] == 'free':
            held.pop(step.deed[1])
    return held


def missed(m, trail):
    """The first file that wasn't there when a worker that held its whole batch exclusive began to free it, or None."""
    for at, step in enumerate(trail):
        if not step.due:
            held = held_of(trail[:at])
            if m.batch and all(held.get(n) == EXCLUSIVE for n in m.batch):
                return first_absent(m, step.there)
            return None
    return None


def had_all(m, trail, there):
    """Whether at some moment the worker held all names of the batch while all files of the fetch list were there."""
    moments = [step.there for step in trail[1:]] + [there]
    return any(first_absent(m, moment) is None and set(m.batch) <= set(held_of(trail[:at + 1])) for at, moment in enumerate(moments))


def may_end(plan, now, w, ending):
    """Whether a worker that holds no name may end its module so."""
    m, trail, kind = plan.modules[running(now, w)], now.trail[w], ending[0]
    if kind in ('fault', 'memory'):
        return True
    if kind == 'missing':
        return ending[1] is not None and missed(m, trail) == ending[1]
    if kind == 'classpath':
        return had_all(m, trail, now.there) and all(step.deed[0] != 'answer' for step in trail)
    if has_strayed(trail):
        return False
    if kind in ('goal', 'output'):
        return trail[-1].deed == ('answer', ending[1])
    part, _ = due_of(plan, now, w)
    if kind == 'no_artifact':
        return part == 'install' and m.needs_artifact
    return part == 'end'


def may_take(plan, now, w, name, mode):
    """Whether no other worker's hold excludes the take, and the name is above all that the worker holds."""
    others = [now.held[v][name] for v in range(plan.workers) if v != w and name in now.held[v]]
    if any(EXCLUSIVE in (mode, other) for other in others):
        return False
    return all(held < name for held in now.held[w])


def may_come(plan, now, event):
    """Whether the event is enabled behind the run."""
    kind = event[0]
    if kind == 'skip':
        return now.state[event[1]] == 'waiting' and any(is_lost(now.state[u]) for u in plan.modules[event[1]].upstream)
    w = event[1]
    if kind == 'start':
        upstreams_built = all(now.state[u] == ('ended', BUILT) for u in plan.modules[event[2]].upstream)
        return now.state[event[2]] == 'waiting' and upstreams_built and not now.trail[w]
    if not now.trail[w]:
        return False
    if kind == 'end':
        return not now.held[w] and may_end(plan, now, w, event[2])
    if kind == 'free':
        return event[2] in now.held[w]
    if has_strayed(now.trail[w]) or (kind,) + event[2:] not in due_of(plan, now, w)[1]:
        return False
    return kind != 'take' or may_take(plan, now, w, event[2], event[3])


# ---- the table of entries that fit

def put_slot(m, slots, goal, answer):
    """The slots behind one more answer, and whether they would exceed the budget with it; then they stay."""
    if answer[1] != 'produced' or m.goals[goal].slot == NOWHERE:
        return slots, False
    with_it = dict(slots)
    with_it[m.goals[goal].slot] = answer[2]
    if sum(map(size, with_it.values())) > m.budget:
        return slots, True
    return with_it, False


def slots_of(m, answers):
    """What a module keeps behind its first answers."""
    slots = {}
    for goal, answer in enumerate(answers):
        slots, _ = put_slot(m, slots, goal, answer)
    return slots


def all_slots(plan, now):
    """What each module keeps at a moment."""
    if 'slots' not in now.known:
        now.known['slots'] = [slots_of(m, now.answers[number]) for number, m in enumerate(plan.modules)]
    return now.known['slots']


def first_bad(m, answers):
    """The ending at the first answer that is Failed or too large, or None."""
    slots = {}
    for goal, answer in enumerate(answers):
        if answer[1] == 'failed':
            return ('goal', goal)
        slots, exceeds = put_slot(m, slots, goal, answer)
        if exceeds:
            return ('output', goal)
    return None


def is_within(m, files, slots):
    return sum(size(entry_bytes(e, files, slots)) for e in m.entries) <= LIMIT


def lacks_artifact(m, slots):
    return m.installs and m.needs_artifact and 'main' not in slots


def own_bytes(m, slots, slot):
    return m.pom if slot == POM else slots.get(slot)


def is_told(event, carried):
    """An answer is always carried, a publish carries its bytes, and nothing else carries anything."""
    if event[0] == 'answer':
        return carried is not None and carried[0] == 'answer'
    if event[0] == 'publish':
        return carried is not None and carried[0] == 'bytes'
    return carried is None


def fits_publish(plan, world, now, number, file, carried):
    m = plan.modules[number]
    if file in m.fetch:
        return carried == remote_bytes(world, file)
    slot = next(s for s, f in m.own if f == file)
    slots = all_slots(plan, now)
    return carried == own_bytes(m, slots[number], slot) and is_within(m, now.files, slots)


def fits_answer(plan, world, now, w, number, goal, carried):
    m, slots = plan.modules[number], all_slots(plan, now)
    if not is_within(m, now.files, slots) or first_bad(m, now.answers[number]):
        return False
    gate = world.gates[w]
    return gate is None or carried == gate(request(number, m, goal, slots[number], now.files, slots))


def fits_end(plan, world, now, w, number, ending):
    m, kind = plan.modules[number], ending[0]
    slots, bad = all_slots(plan, now), first_bad(m, now.answers[number])
    if kind == 'missing':
        return remote_bytes(world, ending[1]) is None
    if kind == 'classpath':
        return not is_within(m, now.files, slots)
    if kind in ('goal', 'output'):
        return bad == ending
    if kind in ('fault', 'memory'):
        return True
    fine = is_within(m, now.files, slots) and not bad
    if kind == 'no_artifact':
        return fine and lacks_artifact(m, slots[number])
    published = [step.deed[1] for step in now.trail[w] if step.deed[0] == 'publish']
    left = [f for slot, f in m.own if own_bytes(m, slots[number], slot) is not None and f not in published]
    return fine and not lacks_artifact(m, slots[number]) and not (m.installs and left)


def fits(plan, world, now, event, carried):
    """Whether an entry that may come fits the world."""
    if not is_told(event, carried):
        return False
    kind, w = event[0], event[1]
    if kind in ('start', 'skip', 'free', 'read'):
        return True
    number = running(now, w)
    m = plan.modules[number]
    if kind == 'publish':
        return fits_publish(plan, world, now, number, event[2], carried)
    if kind == 'answer':
        return fits_answer(plan, world, now, w, number, event[2], carried)
    if kind == 'end':
        return fits_end(plan, world, now, w, number, event[2])
    if due_of(plan, now, w)[0] != 'install':
        return True
    slots = all_slots(plan, now)
    return is_within(m, now.files, slots) and not first_bad(m, now.answers[number]) and not lacks_artifact(m, slots[number])


# ---- how a complete run ended

def endings(plan, now):
    """The endings of a complete run; a skipped module names its first upstream that was lost."""
    ends = []
    for number, m in enumerate(plan.modules):
        state = now.state[number]
        ends.append(('skipped', next((u for u in m.upstream if is_lost(now.state[u])), None)) if state == 'skipped' else state[1])
    return ends


def is_faulty(ending):
    return ending[0] in ('fault', 'memory')


def touched(plan, ends):
    """The modules that ended with a fault or for want of memory, or have such an upstream, however far up."""
    found = set()
    for number, m in enumerate(plan.modules):
        if is_faulty(ends[number]) or any(u in found for u in m.upstream):
            found.add(number)
    return found


def is_between(start, files, end):
    """Whether each name has its value of the start or its value of the end, absence among them."""
    return all(files.get(f) in (start.get(f), end.get(f)) for f in set(start) | set(files) | set(end))
