"""Measures how the time of a run grows with its script or with what it works on, beside a plain baseline."""

import os
import subprocess
import sys
import tempfile

TOP = os.path.dirname(os.path.dirname(os.path.abspath(__file__)))
DECLARED = ['pool 0', 'osd 0 1', 'osd 1 1', 'osd 2 1', 'group 0 1 0 1 2']
RUNS = 3
MOST = 2.4
# What is added to a start may take so many times as long on the larger object.
ADDED_RUNS = 15
ADDED_MOST = 3

# Reads the script, understands nothing of it, and writes so many lines.
BASELINE = """
import sys
lines = sys.stdin.readlines()
for at in range(int(sys.argv[1])):
    sys.stdout.write(lines[at % len(lines)])
"""


def of(lines):
    """The script of these steps."""
    return '\n'.join(DECLARED + lines + ['end', ''])


def timed(words, given, taken):
    """The seconds of user and system time of one run, which reads one file and writes another."""
    with open(given, 'rb') as source, open(taken, 'wb') as sink:
        run = subprocess.Popen(words, stdin=source, stdout=sink)
        _, status, used = os.wait4(run.pid, 0)
    if status != 0:
        print('bench: %s ended with status %d' % (words[0], os.waitstatus_to_exitcode(status)))
        sys.exit(2)
    return used.ru_utime + used.ru_stime


def lines_in(path):
    """How many lines an output has; its last is `end`, and each of its writes was accepted."""
    with open(path, 'rb') as text:
        lines = text.read().split(b'\n')
    if lines[-2:] != [b'end', b'']:
        print('bench: the output has no end')
        sys.exit(2)
    if any(line.startswith(b'write ') and b' : accepted ' not in line for line in lines):
        print('bench: a write was refused')
        sys.exit(2)
    return len(lines) - 1


def built_program():
    """The program of the command line, or the built one, which is built first where that is needed."""
    if len(sys.argv) > 1:
        return sys.argv[1]
    subprocess.run([os.path.join(TOP, 'pgs'), 'replay'], input=b'end\n', stdout=subprocess.DEVNULL, check=True)
    return os.path.join(TOP, 'crates', 'pgs', 'out', 'pgs')


def built_crate(name, words):
    """The program of a crate, which is proved and built first where that is needed, and then run once with these words."""
    folder = os.path.join(TOP, 'crates', name)
    subprocess.run(['rt', 'run', '--'] + words, cwd=folder, stdout=subprocess.DEVNULL, check=True)
    return os.path.join(folder, 'out', name)


def least_in_turns(commands, runs, folder):
    """The least times of some commands, each the words and the file that it reads. They take turns."""
    taken = os.path.join(folder, 'out')
    rounds = [[timed(words, given, taken) for words, given in commands] for _ in range(runs)]
    return [min(times) for times in zip(*rounds)]


def output_of(words, given, folder):
    """What a command writes."""
    taken = os.path.join(folder, 'out')
    timed(words, given, taken)
    with open(taken, 'rb') as out:
        return out.read()


def least_times(program, scripts, runs):
    """The least times of the program and of the baseline on each script. The scripts take turns."""
    with tempfile.TemporaryDirectory() as folder:
        given = [os.path.join(folder, str(at)) for at in range(len(scripts))]
        taken = os.path.join(folder, 'out')
        for path, script in zip(given, scripts):
            with open(path, 'w', encoding='ascii') as out:
                out.write(script)
        rounds = [[both_times(program, path, taken) for path in given] for _ in range(runs)]
    return [tuple(min(times) for times in zip(*of_one)) for of_one in zip(*rounds)]


def both_times(program, given, taken):
    """The time of the program on a script, and then that of the baseline."""
    time = timed([program, 'replay'], given, taken)
    return time, timed([sys.executable, '-c', BASELINE, str(lines_in(taken))], given, taken)


def measure(numbers, script, what):
    """Prints times and ratios for scripts of so many things, and ends with status 1 where the last growth is too much."""
    program = built_program()
    times = []
    for number in numbers:
        [(time, plain)] = least_times(program, [script(number)], RUNS)
        times.append(time)
        print('%d %s: %.3f s, baseline %.3f s, ratio %.2f' % (number, what, time, plain, time / plain))
    end_by_growth(numbers, times)


def time_of_rounds(program, work, entries, rounds, runs):
    """The least time of so many rounds of a work on maps: that of a run with them, less that of one that only makes the maps."""
    commands = [([program, work, str(entries), str(number)], os.devnull) for number in (0, rounds)]
    with tempfile.TemporaryDirectory() as folder:
        made, worked = least_in_turns(commands, runs, folder)
    if worked <= made:
        print('bench: the rounds were lost in the noise')
        sys.exit(2)
    return worked - made


def instructions_of(words, folder):
    """How many instructions a run takes, as valgrind counts them."""
    kept = os.path.join(folder, 'counted')
    run = subprocess.run(['valgrind', '--tool=callgrind', '--callgrind-out-file=' + kept] + words, stdout=subprocess.DEVNULL,
                         stderr=subprocess.PIPE, check=True)
    return int(run.stderr.split(b'Collected : ')[1].split()[0])


def instructions_of_rounds(program, work, entries, rounds):
    """The instructions of so many rounds of a work on maps: those of a run with them, less those of one that only makes the maps."""
    with tempfile.TemporaryDirectory() as folder:
        made, worked = [instructions_of([program, work, str(entries), str(number)], folder) for number in (0, rounds)]
    return worked - made


def print_each(work, numbers, times, rounds):
    """Prints the time of a work for each number of entries, and for one entry."""
    each = [time / (entries * rounds) for time, entries in zip(times, numbers)]
    for entries, time, one in zip(numbers, times, each):
        print('%s, %d entries: %.3f s, %.2f us an entry, ratio to %d entries %.2f'
              % (work, entries, time, one * 1e6, numbers[0], one / each[0]))


def growths(numbers, figures, what='time'):
    """Prints how the time, or another figure, grew with so many things, and gives the last growth."""
    growth = [after / before for before, after in zip(figures, figures[1:])]
    for at, ratio in enumerate(growth):
        print('%s(%d) / %s(%d): %.2f' % (what, numbers[at + 1], what, numbers[at], ratio))
    return growth[-1]


def end_by_growth(numbers, times):
    """Prints how the time grew with so many things, and ends with status 1 where the last growth is too much."""
    sys.exit(1 if growths(numbers, times) > MOST else 0)


def time_added(program, name, start, added):
    """Prints and gives the time of the added steps: that of the whole script, less that of its start alone."""
    scripts = [of(start), of(start + added)]
    (before, plain_before), (whole, plain_whole) = least_times(program, scripts, ADDED_RUNS)
    time, plain = whole - before, plain_whole - plain_before
    print('%s: %.3f s, of it %.3f s for the start' % (name, whole, before))
    print('%s: %.3f s added, baseline %.3f s' % (name, time, plain))
    if time <= 0:
        print('bench: the added steps were lost in the noise')
        sys.exit(2)
    return time


def measure_added(what, small, large):
    """Prints how much longer the added steps take on the large object; true where that is not too much.

    Each object is its name, the steps of its start, and the steps that are added to them.
    """
    program = built_program()
    little = time_added(program, *small)
    much = time_added(program, *large)
    print('%s, %s / %s: %.2f' % (what, large[0], small[0], much / little))
    return much <= ADDED_MOST * little
