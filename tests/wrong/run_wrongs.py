#!/usr/bin/env python3
"""Tries wrong programs on run_walks.py: each is run_law.py with some lines changed, and some comparison has to catch it. Prints for each what
caught it, and after how many builds. All take half a minute. usage: tests/wrong/run_wrongs.py [NAME ..]; all if absent"""
import pathlib
import sys
import types

sys.dont_write_bytecode = True
FOLDER = pathlib.Path(__file__).resolve().parent.parent
sys.path.insert(0, str(FOLDER))

import cases

# name, then old and new text by turns
WRONG = [
    # the build by one thread
    ('fetch_after_missing', '                return f\n', '                continue\n',
     '    return None\n\n\ndef run_goals', '    return next((f for f in m.fetch if f not in files), None)\n\n\ndef run_goals'),
    ('forget_failed_fetches', """    missing = fetch_for(m, world, files)
    if missing is not None:
""", """    before = dict(files)
    missing = fetch_for(m, world, files)
    if missing is not None:
        files.clear()
        files.update(before)
"""),
    ('copy_whole_remote', '    files, ends, slots = dict(start), [], []\n', '    files, ends, slots = {**world.remote, **start}, [], []\n'),
    ('fetch_over_old_bytes', '        if f not in files:\n', '        if True:\n'),
    ('skip_all_after_failure', 'lost = [u for u in m.upstream if', 'lost = [u for u in range(number) if'),
    ('skip_by_last_upstream', "('skipped', lost[0])", "('skipped', lost[-1])"),
    ('build_behind_failures', 'm.upstream if ends[u] != BUILT]', "m.upstream if ends[u][0] == 'skipped']"),
    ('fold_installs_the_pom_alone', '    for slot, f in m.own[1:]:\n', '    for slot, f in ():\n'),
    ('fold_installs_what_failed', '    if bad:\n', '    if bad:\n        install(m, kept, files)\n'),
    ('fold_installs_without_artifact', "        return ('no_artifact',), kept\n    if",
     "        install(m, kept, files)\n        return ('no_artifact',), kept\n    if"),
    ('no_artifact_before_bad_goal', '    if bad:\n', "    if bad and not (m.installs and m.needs_artifact and 'main' not in kept):\n"),
    ('fold_requests_without_own', 'request(number, m, goal, kept, files, slots))', 'request(number, m, goal, {}, files, slots))'),
    ('fold_keeps_too_large_output', "                return ('output', goal), kept\n",
     "                return ('output', goal), {**kept, call.slot: answer[2]}\n"),
    ('fold_adds_all_outputs', ' for slot in kept if slot != call.slot)', ' for slot in kept)'),
    ('fold_counts_fetched_files_alone', 'for e in m.entries) > LIMIT:', "for e in m.entries if e.origin[0] == 'file') > LIMIT:"),
    # which events may come
    ('skipped_module_starts', "        upstreams_built = all(", '        upstreams_built = True or all('),
    ('start_after_upstream_started', "now.state[u] == ('ended', BUILT) for u", "now.state[u] != 'waiting' for u"),
    ('start_an_ended_module', "        return now.state[event[2]] == 'waiting' and upstreams_built", '        return upstreams_built'),
    ('skip_while_upstream_runs', 'any(is_lost(now.state[u]) for u in plan.modules[event[1]].upstream)',
     "any(now.state[u] != ('ended', BUILT) for u in plan.modules[event[1]].upstream)"),
    ('publish_without_exclusive', """    if len(done) < b:
        return 'fetch', frees_left(m, done)
    done = done[b:]
    if len(done) < b:
        return 'fetch', {('take', m.batch[len(done)], EXCLUSIVE)}
    if first_absent(m, there) is not None:
        return 'fetch', {('publish', first_absent(m, there))}
    done = done[b:]
""", """    if first_absent(m, there) is not None:
        return 'fetch', {('publish', first_absent(m, there))}
"""),
    ('exclusive_beside_shared', '    if any(EXCLUSIVE in (mode, other) for other in others):\n',
     '    if EXCLUSIVE in others and mode == EXCLUSIVE:\n'),
    ('publish_without_second_look', """    if first_absent(m, there) is not None:
        return 'fetch', {('publish', first_absent(m, there))}
    done = done[b:]
""", """    wanted = [f for f in m.fetch if f not in trail[b].there]
    if [d for d in done[b:b + len(wanted)]] != [('publish', f) for f in wanted]:
        return 'fetch', {('publish', wanted[len(done) - b])}
    done = done[b:]
"""),
    ('go_on_after_stray_free', "    if has_strayed(now.trail[w]) or (kind,)", '    if (kind,)'),
    ('install_before_last_goal', """    if len(done) < len(m.goals):
        return 'answer', {('answer', len(done))}
    done = done[len(m.goals):]
    if m.installs and not (done and done[-1][0] == 'free'):
        return 'install', due_install(m, done)
    return 'end', set()
""", """    early = max(0, len(m.goals) - 1) if m.installs else len(m.goals)
    if len(done) < early:
        return 'answer', {('answer', len(done))}
    done = done[early:]
    if m.installs and not any(d[0] == 'free' for d in done):
        return 'install', due_install(m, done)
    if early < len(m.goals) and ('answer', early) not in done:
        return 'answer', {('answer', early)}
    return 'end', set()
"""),
    ('built_with_unanswered_goal', "    return part == 'end'\n", "    return part == 'end' or part == 'answer' and not m.installs\n"),
    ('missing_names_another_file', "        return ending[1] is not None and missed(m, trail) == ending[1]\n",
     "        return missed(m, trail) is not None and ending[1] not in now.there\n"),
    ('missing_without_locks', "            if m.batch and all(held.get(n) == EXCLUSIVE for n in m.batch):\n", '            if True:\n'),
    ('classpath_without_files', "        return had_all(m, trail, now.there) and all(", '        return all('),
    ('end_with_names_held', "        return not now.held[w] and may_end(", '        return may_end('),
    ('publishes_any_own_file_first', "        return {('publish', files[0])}\n", "        return {('publish', f) for f in files}\n"),
    # which entries fit
    ('answer_not_carried', "        return carried is not None and carried[0] == 'answer'\n",
     "        return carried is None or carried[0] == 'answer'\n",
     '    return gate is None or carried == gate(', '    return gate is None or carried is None or carried == gate(',
     "        elif deed[0] == 'answer':\n", "        elif deed[0] == 'answer' and carried is not None:\n"),
    ('fetched_bytes_of_other_origin', '        return carried == remote_bytes(world, file)\n', '        return True\n'),
    ('fetched_bytes_too_long', '        return carried == remote_bytes(world, file)\n', '        return carried == world.remote.get(file)\n',
     """    found = world.remote.get(file)
    return None if found is None or size(found) > LIMIT else found
""", """    return world.remote.get(file)
""", """            if remote_bytes(world, f) is None:
""", """            if remote_bytes(world, f) is None or size(remote_bytes(world, f)) > LIMIT:
"""),
    ('own_bytes_of_other_origin', '    return carried == own_bytes(m, slots[number], slot) and', '    return'),
    ('invented_answer', '    return gate is None or carried == gate(request(number, m, goal, slots[number], now.files, slots))\n',
     '    return True\n'),
    ('answer_beyond_classpath', "    if not is_within(m, now.files, slots) or first_bad(", '    if first_bad('),
    ('answer_after_failed_goal', " or first_bad(m, now.answers[number]):\n        return False\n    gate",
     ':\n        return False\n    gate'),
    ('missing_though_remote_has_it', '        return remote_bytes(world, ending[1]) is None\n', '        return True\n'),
    ('classpath_though_within', '        return not is_within(m, now.files, slots)\n', '        return True\n'),
    ('goal_though_done', '        return bad == ending\n', '        return True\n'),
    ('built_after_failed_goal', '    fine = is_within(m, now.files, slots) and not bad\n', '    fine = True\n'),
    ('built_without_publish', ' and not (m.installs and left)\n', '\n'),
    ('install_after_failed_goal', ' and not first_bad(m, now.answers[number]) and not lacks_artifact(m, slots[number])\n', '\n'),
    ('no_artifact_with_one', '        return fine and lacks_artifact(m, slots[number])\n', '        return fine\n'),
    # what is said of runs
    ('bound_too_low', '    return 6 + 4 * len(m.batch) + 2 * len(m.fetch) + 2 * len(m.own) + len(m.goals)\n',
     '    return 3 + 4 * len(m.batch) + 2 * len(m.fetch) + len(m.own) + len(m.goals)\n'),
    ('isolation_of_what_is_touched', ' or any(u in found for u in m.upstream):\n', ':\n'),
    ('keep_too_large_output', """        return slots, True
    return with_it, False
""", """        return with_it, True
    return with_it, False
"""),
    ('request_tells_the_files', "    return (number, goal, call.slot,", "    return (number, goal, len(files), call.slot,"),
]


def edited(text, edits):
    for old, new in zip(edits[::2], edits[1::2]):
        if text.count(old) != 1:
            raise SystemExit('this text does not stand exactly once: ' + old)
        text = text.replace(old, new)
    return text


def loaded(name, text):
    module = types.ModuleType(name)
    module.__file__ = str(FOLDER / (name + '.py'))
    sys.modules[name] = module
    exec(compile(text, name, 'exec'), module.__dict__)
    return module


def caught_by(edits):
    """The comparison that refuses the wrong program, or None, and how many builds it had seen."""
    loaded('run_law', edited((FOLDER / 'run_law.py').read_text(), edits))
    walks = loaded('run_walks', (FOLDER / 'run_walks.py').read_text())
    seen = []
    walk = walks.walk
    walks.walk = lambda *given: seen.append(given) or walk(*given)
    try:
        walks.compare(1, 1000, 500)
    except walks.Disagree as found:
        return found.args[0], len(seen)
    return None, len(seen)


def main(names):
    for name, *edits in WRONG:
        if not names or name in names:
            comparison, seen = caught_by(edits)
            if comparison:
                cases.passes('%s: caught by %s (%d builds)' % (name, comparison, seen))
            else:
                cases.fails(name, 'not caught (%d builds)' % seen)
    return cases.tell()


if __name__ == '__main__':
    sys.exit(main(sys.argv[1:]))
