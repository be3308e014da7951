#!/usr/bin/env python3
"""Works out what the program `bench_events` has to print for its walks through small builds: which events the definition of the event core
allows at each step, and why it forbids the others. It is plain and slow: at each question it works out from the list of events so far
where the build stands. Compares this with the stored run of that program, which the CI run holds it to, or prints the walks of the numbers
FIRST to LAST. It needs no built program. usage: event_walks.py [FIRST LAST]"""
import pathlib
import sys

sys.dont_write_bytecode = True

import cases

SHARED, EXCLUSIVE = 'Shared', 'Exclusive'
MASK = 0xFFFFFFFF


# ---- scripts: lists of (stage, kind, ...), and ('absent', files, this, that)

def own_script(own):
    if not own:
        return [(6, 'frees')]
    return [(6, 'publishes', own[0])] + [(6, 'may_publish', f) for f in own[1:]] + [(6, 'frees')]


def script_of(m):
    install = [(6, 'takes', EXCLUSIVE, m['own_name'])] + own_script(m['own']) if m['installs'] else []
    answer = [(5, 'answers', g) for g in range(m['goals'])] + install
    read = [(4, 'reads', f) for f in m['reads']] + [(4, 'frees')] + answer
    lock = [(3, 'takes', EXCLUSIVE, n) for n in m['batch']] + [(3, 'fetches', f) for f in m['fetch']] + read
    return [(2, 'takes', SHARED, n) for n in m['batch']] + [('absent', m['fetch'], [(3, 'frees')] + lock, read)]


def is_there(there, f):
    return f < len(there) and there[f]


def settled(there, empty, s):
    while s:
        head = s[0]
        if head[0] == 'absent':
            s = head[3] if all(is_there(there, f) for f in head[1]) else head[2]
        elif head[1] == 'frees' and empty:
            s = s[1:]
        elif head[1] == 'fetches' and is_there(there, head[2]):
            s = s[1:]
        else:
            break
    return s


WANTS = {'reads': 'read', 'fetches': 'publish', 'publishes': 'publish', 'may_publish': 'publish', 'answers': 'answer'}


def is_wanted(step, deed):
    if step[1] == 'takes':
        return deed == ('take', step[2], step[3])
    if step[1] == 'frees':
        return deed == ('free',)
    return deed == (WANTS[step[1]], step[2])


def done(s, deed):
    """What is left, or None."""
    while s:
        head = s[0]
        if head[0] == 'absent':
            return None
        if is_wanted(head, deed):
            return s if head[1] == 'frees' else s[1:]
        if head[1] != 'may_publish':
            return None
        s = s[1:]
    return None


def stage_of(s):
    return 7 if not s else 2 if s[0][0] == 'absent' else s[0][0]


def wanted(s):
    return s[0][2] if s and s[0][0] != 'absent' and s[0][1] == 'fetches' else None


def answers_left(s):
    count = 0
    for step in s:
        if step[0] == 'absent':
            return count + answers_left(step[3])
        count += step[1] == 'answers'
    return count


def is_gathered(goals, s):
    return stage_of(s) > 3 and answers_left(s) == goals


# ---- where a build stands after some events

def module_at(plan, m):
    return plan['modules'][m] if m < len(plan['modules']) else None


class Standing:
    def __init__(self, plan):
        self.progress = ['waiting'] * len(plan['modules'])
        self.courses = [None] * plan['workers']
        self.held = [[] for _ in range(plan['workers'])]
        self.hold = {}
        self.there = list(plan['present'])


def course(now, w):
    return now.courses[w] if w < len(now.courses) else None


def after_deed(now, w, deed, answered):
    c = now.courses[w]
    if c and c[0] == 'on':
        rest = done(c[2], deed)
        if rest is not None:
            now.courses[w] = ('on', c[1], settled(now.there, not now.held[w], rest), answered)


def after(plan, now, e):
    kind = e[0]
    if kind == 'start':
        w, m = e[1:]
        now.progress[m] = ('running', w)
        now.courses[w] = ('on', m, settled(now.there, not now.held[w], script_of(plan['modules'][m])), None)
    elif kind == 'skip':
        now.progress[e[1]] = 'skipped'
    elif kind == 'take':
        w, n, mode = e[1:]
        now.held[w].append(n)
        now.hold[(n, w)] = mode
        after_deed(now, w, ('take', mode, n), None)
    elif kind == 'free':
        w, n = e[1:]
        now.held[w] = [x for x in now.held[w] if x != n]
        del now.hold[(n, w)]
        c = now.courses[w]
        if c and c[0] == 'on':
            rest = done(c[2], ('free',))
            if rest is not None:
                now.courses[w] = ('on', c[1], settled(now.there, not now.held[w], rest), None)
            else:
                now.courses[w] = ('off', c[1], wanted(c[2]), is_gathered(plan['modules'][c[1]]['goals'], c[2]))
    elif kind == 'read':
        after_deed(now, e[1], ('read', e[2]), None)
    elif kind == 'publish':
        now.there[e[2]] = True
        after_deed(now, e[1], ('publish', e[2]), None)
    elif kind == 'answer':
        after_deed(now, e[1], ('answer', e[2]), e[2])
    elif kind == 'end':
        c = now.courses[e[1]]
        if c:
            now.progress[c[1]] = ('ended', e[2])
        now.courses[e[1]] = None


def standing_of(plan, events):
    now = Standing(plan)
    for e in events:
        after(plan, now, e)
    return now


# ---- why an event may not come

BUILT = ('built',)


def is_lost(p):
    return p == 'skipped' or p[0] == 'ended' and p[1] != BUILT


def progress(now, m):
    return now.progress[m] if m < len(now.progress) else 'waiting'


def upstream(plan, m):
    return module_at(plan, m)['upstream'] if module_at(plan, m) else []


def state(plan, now, m):
    p = progress(now, m)
    if p == 'skipped':
        return ('skipped', next((u for u in upstream(plan, m) if is_lost(progress(now, u))), 0))
    return p


def stage_at(c):
    return 1 if c is None else stage_of(c[2]) if c[0] == 'on' else 7


def is_due(c, deed):
    return bool(c) and c[0] == 'on' and done(c[2], deed) is not None


def goals_of(plan, c):
    return plan['modules'][c[1]]['goals']


def may_end_so(plan, c, e):
    if c is None:
        return False
    kind = e[0]
    if kind in ('fault', 'memory'):
        return True
    if c[0] == 'off':
        return kind == 'missing' and c[2] == e[1] or kind == 'classpath' and c[3]
    m, s, last = c[1:]
    if kind == 'built':
        return not s
    if kind == 'missing':
        return wanted(s) == e[1]
    if kind == 'classpath':
        return is_gathered(goals_of(plan, c), s)
    if kind in ('goal', 'output'):
        return last == e[1]
    return bool(s) and s[0][0] == 6 and s[0][1] == 'takes' and plan['modules'][m]['needs']


def due_file(c, kinds):
    if c and c[0] == 'on' and c[2] and c[2][0][0] != 'absent' and c[2][0][1] in kinds:
        return c[2][0][2]
    return None


def by_file(due, c):
    return ('file', due) if due is not None else ('stage', stage_at(c))


def cause(plan, now, e):
    kind = e[0]
    modules, workers, files = len(plan['modules']), plan['workers'], len(plan['present'])
    if kind == 'skip':
        m = e[1]
        if m >= modules:
            return ('range', m)
        if progress(now, m) == 'waiting' and any(is_lost(progress(now, u)) for u in upstream(plan, m)):
            return None
        return ('module', state(plan, now, m))
    w = e[1]
    if w >= workers:
        return ('range', w)
    c = course(now, w)
    held = now.held[w]
    if kind == 'start':
        m = e[2]
        if m >= modules:
            return ('range', m)
        if progress(now, m) != 'waiting':
            return ('module', state(plan, now, m))
        for u in upstream(plan, m):
            if progress(now, u) != ('ended', BUILT):
                return ('upstream', u)
        return ('worker', c[1]) if c else None
    if kind == 'take':
        n, mode = e[2:]
        if n >= plan['names']:
            return ('range', n)
        for other in range(workers):
            if other != w and (n, other) in now.hold and EXCLUSIVE in (mode, now.hold[(n, other)]):
                return ('lock', other)
        if held and max(held) >= n:
            return ('unordered', max(held))
        return None if is_due(c, ('take', mode, n)) else ('stage', stage_at(c))
    if kind == 'free':
        if e[2] >= plan['names']:
            return ('range', e[2])
        return None if (e[2], w) in now.hold else ('stage', stage_at(c))
    if kind in ('read', 'publish'):
        if e[2] >= files:
            return ('range', e[2])
        if is_due(c, (kind, e[2])):
            return None
        return by_file(due_file(c, ('reads',) if kind == 'read' else ('fetches', 'publishes', 'may_publish')), c)
    if kind == 'answer':
        if c and e[2] >= goals_of(plan, c):
            return ('range', e[2])
        return None if is_due(c, ('answer', e[2])) else ('stage', stage_at(c))
    x = e[2]
    if x[0] in ('goal', 'output') and c and x[1] >= goals_of(plan, c) or x[0] == 'missing' and x[1] >= files:
        return ('range', x[1])
    if not held and may_end_so(plan, c, x):
        return None
    if not held and x[0] == 'missing':
        return by_file(None if c is None else wanted(c[2]) if c[0] == 'on' else c[2], c)
    return ('stage', stage_at(c))


# ---- walks, as the program makes them

class Draws:
    def __init__(self, seed):
        self.state = seed

    def below(self, bound):
        self.state = (self.state * 1103515245 + 12345) & MASK
        return (self.state >> 16) % bound if bound else 0


COVERED = 3


def some_below(draws, bound, one_of):
    return [n for n in range(bound) if draws.below(one_of) == 0]


def make_module(draws, number):
    up = some_below(draws, number, 2)
    batch = some_below(draws, COVERED, 2)
    own = [COVERED + 2 * number]
    if draws.below(2) == 0:
        own.append(COVERED + 2 * number + 1)
    goals = draws.below(3)
    installs = draws.below(4) != 0
    needs = draws.below(2) == 0
    return dict(upstream=up, batch=batch, fetch=batch, reads=batch, own=own, own_name=COVERED + number, goals=goals, installs=installs,
                needs=needs)


def make_plan(draws):
    count = 1 + draws.below(3)
    modules = [make_module(draws, n) for n in range(count)]
    present = [draws.below(2) == 0 for _ in range(COVERED + 6)]
    return dict(modules=modules, names=COVERED + 3, present=present, workers=1 + draws.below(3))


ENDINGS = {8: 'built', 9: 'goal', 10: 'missing', 11: 'no_artifact', 12: 'output', 13: 'classpath', 14: 'fault', 15: 'fault', 16: 'memory'}


def event_at(kind, w, n):
    if kind < 8:
        return [('start', w, n), ('skip', n), ('take', w, n, SHARED), ('take', w, n, EXCLUSIVE), ('free', w, n), ('read', w, n),
                ('publish', w, n), ('answer', w, n)][kind]
    name = ENDINGS[kind]
    return ('end', w, (name, n) if name in ('goal', 'missing', 'output') else (name,))


def ending_number(e):
    base = {'built': 1, 'goal': 16, 'missing': 32, 'no_artifact': 2, 'output': 48, 'classpath': 3, 'fault': 4, 'memory': 5}[e[0]]
    return base + (e[1] % 16 if len(e) > 1 else 0)


def state_number(s):
    if s == 'waiting':
        return 0
    if s[0] == 'running':
        return 64 + s[1] % 16
    if s[0] == 'skipped':
        return 80 + s[1] % 16
    return 96 + ending_number(s[1])


KIND = {'range': 1000, 'upstream': 3000, 'worker': 4000, 'lock': 5000, 'unordered': 6000, 'stage': 7000, 'file': 8000}


def number(c):
    if c is None:
        return 0
    return 2000 + state_number(c[1]) if c[0] == 'module' else KIND[c[0]] + c[1] % 100


def is_built(p):
    return p == ('ended', BUILT)


def readings(plan, now):
    waiting = [m for m in range(len(plan['modules'])) if progress(now, m) == 'waiting']
    ready = [m for m in waiting if all(is_built(progress(now, u)) for u in upstream(plan, m))]
    lost = [m for m in waiting if any(is_lost(progress(now, u)) for u in upstream(plan, m))]
    over = all(p == 'skipped' or p[0] == 'ended' for p in now.progress)
    return [1 + ready[0] if ready else 0, 1 + lost[0] if lost else 0, int(over)] + [state_number(state(plan, now, m)) for m in range(3)]


PLACES = [(p % 17, p // 17 % 4, p // 17 // 4) for p in range(17 * 4 * 10)]


def walk(seed):
    draws = Draws(seed)
    plan = make_plan(draws)
    events, total = [], 0
    for _ in range(80):
        now = standing_of(plan, events)
        answers = [number(cause(plan, now, event_at(*p))) for p in PLACES]
        enabled = [p for p, a in zip(PLACES, answers) if a == 0]
        if not enabled:
            break
        calm = [p for p in enabled if p[0] < 9]
        part = 0
        for a in answers + readings(plan, now):
            part = (part * 31 + a) & MASK
        bold = draws.below(8) == 0 or not calm
        chosen = enabled if bold else calm
        events.append(event_at(*chosen[draws.below(len(chosen))]))
        total = (total * 31 + part) & MASK
    return total, len(events)


def line_of(seed):
    return 'walk %d: %d %d' % ((seed,) + walk(seed))


def check():
    """Compares the 1,200 walks of the stored run."""
    file = pathlib.Path(__file__).parent.parent / 'crates/bench_events/stdout'
    stored = [line for line in file.read_text().splitlines() if line.startswith('walk')]
    walked = [line_of(seed) for seed in range(1, 1201)]
    case = '1200 walks are answered as by the definition'
    if stored == walked:
        cases.passes(case)
    else:
        others = [pair for pair in zip(stored, walked) if pair[0] != pair[1]]
        cases.fails(case, 'stored is %s, and wanted %s' % others[0] if others else '%d walks are stored' % len(stored))
    return cases.tell()


def main(words):
    if not words:
        return check()
    for seed in range(int(words[0]), int(words[1]) + 1):
        print(line_of(seed))
    return 0


if __name__ == '__main__':
    sys.exit(main(sys.argv[1:]))
