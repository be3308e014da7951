#!/usr/bin/env python3
"""Tries wrong turn locks on lock_walks.py: each is that script with some lines changed, as a change of src/lock.rt of crates/turn_lock would change
what it walks. Some walk has to find a thread that is left parked, and the changed lock.rt may not pass as what is walked. No contract refuses such a lock, and the stored run of bench_low lets the first
two pass, since they seldom lose a wake. Prints for each the walk that caught it, and after how many states. All take some seconds.
usage: tests/wrong/lock_wrongs.py [NAME ..]; all if absent. Of those that are named it prints too which steps lead there."""
import sys

sys.dont_write_bytecode = True

from run_wrongs import FOLDER, edited, loaded

import cases

PARKS = 'self.table.shared.park(rt, %d, asked);'
PARKS_NOW = 'let now = (self.table.shared.peek(%d) & 0xffff_ffff) as u32; self.table.shared.park(rt, %d, now);'
ADDS = '.fetch_add::<Ask<V>>(&mut pass.seat, word, %d);'

# name, old and new text of lock.rt, and then old and new text of lock_walks.py by turns
WRONG = [
    # one that waits or rests, and parks without a second look at what was given meanwhile
    ('rest_parks_unchecked', 'if !self.has_grown(pass) {', 'if pass.entries < u64::MAX {',
     " if words[0] // 2 == me.seen else go(me, 'take'), None", ', None'),
    ('wait_parks_unchecked', 'if self.table.shared.peek(0) % 2 == 1 {', 'if asked > 0 {',
     " if words[0] % 2 == 1 else go(me, 'take'), None", ', None'),
    # one that parks although it was called since it asked
    ('rest_parks_after_a_call', PARKS % 2, PARKS_NOW % (2, 2), " if words[REST] == me.kept else 'take'), None", '), None'),
    ('wait_parks_after_a_call', PARKS % 1, PARKS_NOW % (1, 1), " if words[TURN] == me.kept else 'wait_asks_for_others'), None", '), None'),
    ('answer_leaves_the_word', ADDS % 1, ADDS % 0,
     'put(words, TURN, words[TURN] + 1)', 'words', 'put(words, REST, words[REST] + 1)', 'words'),
    # calls that don't come, or come too early
    ('asks_not_again', 'let _for_others = self.ask(pass, 1);', '',
     "return put(words, TURN, words[TURN] | 1), go(me, 'take'), None", "return words, go(me, 'take'), None"),
    ('give_wakes_nobody', 'self.table.shared.wake_one(1);', '', "('one', 'parked_for_turn')", 'None'),
    ('give_calls_no_rest', 'self.table.shared.wake_all(2);', '', "('all', 'parked_to_rest')", 'None'),
    ('wakes_one_that_rests', 'self.table.shared.wake_all(2);', 'self.table.shared.wake_one(2);', "('all', 'parked_to_rest')", "('one', 'parked_to_rest')"),
    ('give_calls_before_it_gives', 'let Turn { value } = turn;', 'if self.answer(pass, 1) { self.table.shared.wake_one(1); } let Turn { value } = turn;',
     "found % 2 == 1 else 'give')", "found % 2 == 1 else 'give_looks_for_turn')",
     "    return go(me, 'give_looks_for_rest') if me.kept // 2 != me.seen else behind_give(me, task)\n", "    return go(me, 'give')\n",
     "    return put(words, 0, 2 * entries), Thread('give_looks_for_turn', before, entries, me.place), None\n",
     "    me = Thread('give_looks_for_rest', 0, entries, me.place)\n"
     '    return put(words, 0, 2 * entries), me if before // 2 != entries else behind_give(me, task), None\n'),
]


def caught_by(lock, edits):
    """The walk that finds a thread left parked, or None; how many states it had seen; and the steps to that. Where the script lets the text of
    the lock pass as that which it walks, it is None too."""
    walks = loaded('lock_walks', edited((FOLDER / 'lock_walks.py').read_text(), edits))
    if not walks.stale(lock):
        return None, 0, []
    for name, tasks in walks.WALKS:
        count, way = walks.walk(tasks)
        if way:
            return name, count, way
    return None, 0, []


def main(names):
    lock = (FOLDER.parent / 'crates/turn_lock/src/lock.rt').read_text(encoding='utf-8')
    for name, *edits in WRONG:
        if not names or name in names:
            found, count, way = caught_by(edited(lock, edits[:2]), edits[2:])
            if found:
                cases.passes('%s: caught by %s (%d states)' % (name, found, count))
                print(*way if names else [], sep='\n', end='\n' if names else '')
            else:
                cases.fails(name, 'not caught')
    return cases.tell()


if __name__ == '__main__':
    sys.exit(main(sys.argv[1:]))
