#!/usr/bin/env python3
"""Walks through all interleavings of a few threads at the turn lock of crates/turn_lock, one atomic step of a thread after another, and looks
whether some of them leave a thread parked that nobody will wake: a state in which not all threads have ended, and none can make a step. No
contract says that a thread is woken, so this stands for a promise that there isn't. It also looks whether the functions of src/lock.rt are still those
that are walked here, as CODE has them.

Each function below that has `@step` is one step: the function of src/lock.rt, its text there, and what it does to the three words of the table and
to the thread that makes it. All steps of the table are sequentially consistent, so there is one order of them. The plain `exchange` of the value
is no step of its own: it is made by the thread that has the turn, alone. What is walked is more than what can be: a thread may stop looking
whether the turn comes soon after each look, and not only after a hundred. A park looks at its word and sleeps in one step, as the system's does. It
never ends for no reason, since that would hide a lost wake.

usage: lock_walks.py        walks, in some seconds; it needs no built program
       lock_walks.py long   walks larger ones too, in a minute
       lock_walks.py steps  prints the steps, each with its line of src/lock.rt
"""
import collections
import pathlib
import re
import sys

sys.dont_write_bytecode = True

import cases

LOCK = pathlib.Path(__file__).resolve().parent.parent / 'crates/turn_lock/src/lock.rt'

# A thread: its next step; what `asked` or `before` is, where one of them is alive; `pass.entries`; and its place in its task.
Thread = collections.namedtuple('Thread', 'at kept seen place')
Step = collections.namedtuple('Step', 'function text run')

STEPS = {}
CODE = {}  # the bodies of the functions of src/lock.rt
TURN, REST = 1, 2  # the words on which those park that wait for a turn, and those that rest
NOTE = None  # a part of a task: a turn with one entry more. A number is the other part: to rest until there are so many entries


def step(function, text):
    def keep(run):
        STEPS[run.__name__] = Step(function, text, run)
        return run
    return keep


def put(words, at, new):
    return words[:at] + (new,) + words[at + 1:]


def go(me, at, kept=0):
    return Thread(at, kept, me.seen, me.place)


CODE['ask'] = '''
        let found = self.table.shared.fetch_or::<Ask<V>>(&mut pass.seat, word, 1);
        ((found | 1) & 0xffff_ffff) as u32'''
CODE['answer'] = '''
        if self.table.shared.peek(word) % 2 == 0 {
            return false;
        }
        self.table.shared.fetch_add::<Ask<V>>(&mut pass.seat, word, 1);
        true'''
CODE['has_grown'] = '''
        self.table.shared.peek(0) / 2 != pass.entries'''

# ---- take: `try_take` until it answers a value, and `wait` between

CODE['take'] = '''
        for _ in rt.forever() {
            match self.try_take(pass) {
                Some(value) => return Turn { value },
                None => self.wait(rt, pass),
            }
        }
        unreachable!()'''
CODE['try_take'] = '''
        let found = self.table.shared.fetch_or::<Take<V>>(&mut pass.seat, 0, 1);
        if found % 2 == 1 {
            return None;
        }
        Some(whole(self.table.shared.exchange(&mut pass.seat, 0, None)))'''
CODE['comes_soon'] = '''
        for _ in 0..100u32 {
            if self.table.shared.peek(0) % 2 == 0 {
                return true;
            }
            spin_loop();
        }
        false'''
CODE['wait'] = '''
        if self.comes_soon() {
            return;
        }
        let asked = self.ask(pass, 1);
        if self.table.shared.peek(0) % 2 == 1 {
            self.table.shared.park(rt, 1, asked);
            let _for_others = self.ask(pass, 1);
        }'''


@step('try_take', 'self.table.shared.fetch_or::<Take<V>>(&mut pass.seat, 0, 1)')
def take(words, me, task):
    found = words[0]
    return put(words, 0, found | 1), go(me, 'comes_soon' if found % 2 == 1 else 'give'), None


@step('comes_soon', 'self.table.shared.peek(0) % 2 == 0')
def comes_soon(words, me, task):
    return words, go(me, 'take' if words[0] % 2 == 0 else 'wait_asks'), None


@step('wait', 'let asked = self.ask(pass, 1);')
def wait_asks(words, me, task):
    return put(words, TURN, words[TURN] | 1), go(me, 'wait_looks', words[TURN] | 1), None


@step('wait', 'if self.table.shared.peek(0) % 2 == 1 {')
def wait_looks(words, me, task):
    return words, go(me, 'wait_parks', me.kept) if words[0] % 2 == 1 else go(me, 'take'), None


@step('wait', 'self.table.shared.park(rt, 1, asked);')
def wait_parks(words, me, task):
    return words, go(me, 'parked_for_turn' if words[TURN] == me.kept else 'wait_asks_for_others'), None


@step('wait', 'let _for_others = self.ask(pass, 1);')
def wait_asks_for_others(words, me, task):
    return put(words, TURN, words[TURN] | 1), go(me, 'take'), None


# ---- give

CODE['give'] = '''
        let Turn { value } = turn;
        let entries = value.entries();
        nothing(self.table.shared.exchange(&mut pass.seat, 0, Some(value)));
        let before = self.table.shared.swap::<Give<V>>(&mut pass.seat, 0, 2 * entries);
        pass.entries = entries;
        if self.answer(pass, 1) {
            self.table.shared.wake_one(1);
        }
        if before / 2 != entries && self.answer(pass, 2) {
            self.table.shared.wake_all(2);
        }'''


@step('give', 'self.table.shared.swap::<Give<V>>(&mut pass.seat, 0, 2 * entries)')
def give(words, me, task):
    before, entries = words[0], words[0] // 2 + (task[me.place] is NOTE)
    return put(words, 0, 2 * entries), Thread('give_looks_for_turn', before, entries, me.place), None


@step('give', 'if self.answer(pass, 1) {')
def give_looks_for_turn(words, me, task):
    return words, go(me, 'give_answers_for_turn', me.kept) if words[TURN] % 2 == 1 else behind_turn(me, task), None


@step('answer', 'self.table.shared.fetch_add::<Ask<V>>(&mut pass.seat, word, 1);')
def give_answers_for_turn(words, me, task):
    return put(words, TURN, words[TURN] + 1), go(me, 'give_wakes_for_turn', me.kept), None


@step('give', 'self.table.shared.wake_one(1);')
def give_wakes_for_turn(words, me, task):
    return words, behind_turn(me, task), ('one', 'parked_for_turn')


def behind_turn(me, task):
    """Goes on behind the first `if` of `give`."""
    return go(me, 'give_looks_for_rest') if me.kept // 2 != me.seen else behind_give(me, task)


@step('give', 'if before / 2 != entries && self.answer(pass, 2) {')
def give_looks_for_rest(words, me, task):
    return words, go(me, 'give_answers_for_rest') if words[REST] % 2 == 1 else behind_give(me, task), None


@step('answer', 'self.table.shared.fetch_add::<Ask<V>>(&mut pass.seat, word, 1);')
def give_answers_for_rest(words, me, task):
    return put(words, REST, words[REST] + 1), go(me, 'give_wakes_for_rest'), None


@step('give', 'self.table.shared.wake_all(2);')
def give_wakes_for_rest(words, me, task):
    return words, behind_give(me, task), ('all', 'parked_to_rest')


# ---- rest

CODE['rest'] = '''
        if self.has_grown(pass) {
            return;
        }
        let asked = self.ask(pass, 2);
        if !self.has_grown(pass) {
            self.table.shared.park(rt, 2, asked);
        }'''


@step('rest', 'if self.has_grown(pass) {')
def rest_looks(words, me, task):
    return words, go(me, 'take' if words[0] // 2 != me.seen else 'rest_asks'), None


@step('rest', 'let asked = self.ask(pass, 2);')
def rest_asks(words, me, task):
    return put(words, REST, words[REST] | 1), go(me, 'rest_looks_again', words[REST] | 1), None


@step('rest', 'if !self.has_grown(pass) {')
def rest_looks_again(words, me, task):
    return words, go(me, 'rest_parks', me.kept) if words[0] // 2 == me.seen else go(me, 'take'), None


@step('rest', 'self.table.shared.park(rt, 2, asked);')
def rest_parks(words, me, task):
    return words, go(me, 'parked_to_rest' if words[REST] == me.kept else 'take'), None


# ---- what the threads do, and the walks

# where a thread goes on that was parked
WOKEN = {'parked_for_turn': 'wait_asks_for_others', 'parked_to_rest': 'take'}


def behind_give(me, task):
    """The next part of the task; or a rest and then another look, while there are fewer entries than this part waits for."""
    if task[me.place] is not NOTE and me.seen < task[me.place]:
        return go(me, 'rest_looks')
    place = me.place + 1
    return Thread('take' if place < len(task) else 'ended', 0, me.seen, place)


def wakes(threads, call):
    """The threads after a call that wakes one or all of those that are parked so: one list for each that may be woken."""
    if call is None:
        return [threads]
    many, where = call
    parked = [n for n, one in enumerate(threads) if one.at == where]
    choices = [[n] for n in parked] if many == 'one' and parked else [parked]
    return [tuple(go(one, WOKEN[where]) if n in woken else one for n, one in enumerate(threads)) for woken in choices]


def steps_from(state, tasks):
    """Each thread that can make a step, its step, and the state behind it."""
    words, threads = state
    for n, me in enumerate(threads):
        if me.at in STEPS:
            after, now, call = STEPS[me.at].run(words, me, tasks[n])
            for others in wakes(threads[:n] + (now,) + threads[n + 1:], call):
                yield n, me.at, (after, others)


def walk(tasks):
    """How many states there are, and the way to the first in which some thread is parked for ever, or None."""
    start = (0, 0, 0), tuple(Thread('take', 0, 0, 0) for _ in tasks)
    came = {start: None}
    waiting = collections.deque([start])
    while waiting:
        state = waiting.popleft()
        stuck = any(one.at != 'ended' for one in state[1])
        for n, made, after in steps_from(state, tasks):
            stuck = False
            if after not in came:
                came[after] = state, n, made
                waiting.append(after)
        if stuck:
            return len(came), way_to(state, came)
    return len(came), None


def way_to(state, came):
    """The steps to a state, and which threads are parked there."""
    way = ['thread %d: %s' % (n, one.at) for n, one in enumerate(state[1])]
    while came[state]:
        state, n, made = came[state]
        way.append('thread %d: %s' % (n, made))
    return way[::-1]


def notes(threads, count):
    return [[NOTE] * count] * threads


def rounds(threads, count):
    """Each rests until all before it in its round have noted, as the tasks of turn_lock's tally with `round` do."""
    return [[part for number in range(count) for part in (number * threads + n, NOTE)] for n in range(threads)]


def resting(adding, count, waiting):
    """Some threads note, and others rest until all entries are there."""
    return notes(adding, count) + [[adding * count]] * waiting


WALKS = [
    ('2 threads, each notes 3', notes(2, 3)),
    ('3 threads, each notes 1', notes(3, 1)),
    ('2 threads in 2 rounds', rounds(2, 2)),
    ('1 thread notes 3, and another rests until then', resting(1, 3, 1)),
    ('1 thread notes 1, and 2 rest until then', resting(1, 1, 2)),
]
LONG = [
    ('3 threads, each notes 2', notes(3, 2)),
    ('3 threads in 1 round', rounds(3, 1)),
    ('1 thread notes 2, and 2 rest until then', resting(1, 2, 2)),
    ('2 threads in 3 rounds', rounds(2, 3)),
]


# ---- the code that the steps stand for

def squeezed(text):
    return re.sub(r'\s', '', text)


def body(lock, function):
    """Where the body of a function begins and ends in the text of src/lock.rt."""
    begin = re.search(r'^    (?:pub )?fn %s\b' % function, lock, re.M).start()
    begin = re.compile(r'\{\n').search(lock, begin).end()
    return begin, lock.index('\n    }\n', begin)


def line_of(lock, one):
    """The line of src/lock.rt on which a step begins, or None if it doesn't stand in its function once."""
    begin, end = body(lock, one.function)
    places = [at for at in range(begin, end) if not lock[at].isspace()]
    code, text = squeezed(lock[begin:end]), squeezed(one.text)
    return lock.count('\n', 0, places[code.index(text)]) + 1 if code.count(text) == 1 else None


def stale(lock):
    """What src/lock.rt has otherwise."""
    bodies = [function for function in CODE if squeezed(lock[slice(*body(lock, function))]) != squeezed(CODE[function])]
    steps = ['%s: %s' % (one.function, one.text) for one in STEPS.values() if line_of(lock, one) is None]
    return ['another body: ' + function for function in bodies] + ['no such step, or several: ' + one for one in steps]


def check(walks):
    cases.holds('the %d steps are those of %d functions of src/lock.rt' % (len(STEPS), len(CODE)), stale(LOCK.read_text(encoding='utf-8')))
    for name, tasks in walks:
        count, way = walk(tasks)
        case = '%s: nobody is left parked in %s states' % (name, format(count, ','))
        cases.holds(case, way and ['a thread is left parked, found after %s states:' % format(count, ','), *way])
    return cases.tell()


def main(words):
    if words == ['steps']:
        lock = LOCK.read_text(encoding='utf-8')
        for name, one in STEPS.items():
            print('%s  lock.rt:%s %s: %s' % (name, line_of(lock, one), one.function, one.text))
        return 0
    return check(WALKS + LONG if words == ['long'] else WALKS)


if __name__ == '__main__':
    sys.exit(main(sys.argv[1:]))
