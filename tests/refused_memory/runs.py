#!/usr/bin/env python3
"""What tests/refused_memory.sh calls, in the folder of its project: runs the program with request after request for memory refused, looks at each run
and at the run behind it, to which nothing is refused, and prints a line of counts. The status is 0 only if no run was wrong.
usage: runs.py PROGRAM LIBRARY START WORKERS WAY EVERY

The program is `install`. START is a folder: `start` of it is the repository before each run, `new` the one that an undisturbed run leaves, and `said` and
`status` are what that run answers. WAY is `one` where one request is refused, and `rest` where all behind it are too. Each EVERY-th number is tried, up
to the first request that the program doesn't come to."""
import collections
import itertools
import os
import pathlib
import shutil
import subprocess
import sys

NO_MEMORY = 4
NOTE = pathlib.Path('note')
REPOSITORY = pathlib.Path('repository')


def files_of(folder):
    """The bytes of each file below the folder, by its path from there."""
    return {str(path.relative_to(folder)): path.read_bytes() for path in sorted(folder.rglob('*')) if path.is_file()}


class Case:
    def __init__(self, program, library, start, workers, way):
        self.command = [program, 'install', '-T', workers]
        self.start = pathlib.Path(start, 'start')
        self.old, self.new = files_of(self.start), files_of(pathlib.Path(start, 'new'))
        self.normal = (int(pathlib.Path(start, 'status').read_text()), pathlib.Path(start, 'said').read_bytes())
        self.refusing = dict(os.environ, LD_PRELOAD=library, REFUSE_NOTE=str(NOTE.resolve()))
        if way == 'rest':
            self.refusing['REFUSE_REST'] = 'yes'

    def run(self, env):
        """Its status, which is below 0 where a signal ended it, and all that it wrote."""
        ended = subprocess.run(self.command, env=env, stdin=subprocess.DEVNULL, stdout=subprocess.PIPE, stderr=subprocess.STDOUT, timeout=60, check=False)
        return ended.returncode, ended.stdout

    def wrong_answer(self, answer):
        """Why what a run answered from which memory was kept is no answer of a run that lacks memory, or of an undisturbed one."""
        status, said = answer
        if answer == self.normal or (status == NO_MEMORY and self.normal[1].startswith(said)):
            return []
        return [f'status {status}, {said!r}']

    def wrong_files(self, status):
        """The names that hold neither what they held before nor what an undisturbed run leaves, and pieces where the report is whole."""
        found = files_of(REPOSITORY)
        names = {name for name in found.keys() | self.old.keys() if not name.startswith('.staging/')}
        torn = [name for name in names if found.get(name) not in (self.old.get(name), self.new.get(name))]
        pieces = [name for name in found if name.startswith('.staging/') and status != NO_MEMORY]
        return [f'these hold other bytes or are left: {sorted(torn + pieces)}'] if torn or pieces else []

    def try_number(self, number):
        """Which function refused the request of this number, or None if the program didn't come to it; the run's status; and what was wrong."""
        shutil.rmtree(REPOSITORY, ignore_errors=True)
        shutil.copytree(self.start, REPOSITORY)
        NOTE.unlink(missing_ok=True)
        answer = self.run(dict(self.refusing, REFUSE_AT=str(number)))
        wrong = self.wrong_answer(answer) + self.wrong_files(answer[0])
        again = self.run(os.environ)
        if again != self.normal:
            wrong.append(f'the next run: status {again[0]}, {again[1]!r}')
        if files_of(REPOSITORY) != self.new:
            wrong.append(f'the next run leaves other files: {sorted(files_of(REPOSITORY))}')
        return NOTE.read_text() if NOTE.exists() else None, answer[0], wrong


def main(program, library, start, workers, way, every):
    case = Case(program, library, start, workers, way)
    statuses, functions, bad = collections.Counter(), collections.Counter(), []
    for number in itertools.count(1, int(every)):
        function, status, wrong = case.try_number(number)
        bad += [f'request {number}: {why}' for why in wrong]
        if function is None:
            break
        statuses[status] += 1
        functions[function] += 1
    told = ', '.join(f'{count} x status {status}' for status, count in sorted(statuses.items()))
    asked = ', '.join(f'{count} by {function}' for function, count in sorted(functions.items()))
    print('; '.join([f'{sum(statuses.values())} runs up to request {number}: {told}; refused {asked}', f'{len(bad)} wrong', *bad[:5]]))
    return 0 if statuses and not bad else 1


if __name__ == '__main__':
    sys.exit(main(*sys.argv[1:]))
