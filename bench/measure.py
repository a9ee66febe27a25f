"""What the benchmarks share: the instructions and the processor time of programs on an input, and rows of ours beside
another program's."""
import os
import re
import shutil
import subprocess
import sys
import tempfile

TOP = os.path.dirname(os.path.dirname(os.path.abspath(__file__)))


class Side:
    """Two programs, ours first, that are measured on the same inputs. There may be no other one."""

    def __init__(self, ours, other, times):
        self.programs = [ours] + ([other] if other else [])
        self.times = times
        for name in self.programs + ['valgrind']:
            if not shutil.which(name):
                sys.exit(f"bench: {name} isn't there: run ./build first, or rustc, or install it")

    def head(self):
        """Prints what the columns are."""
        names = [os.path.basename(program)[:10] for program in self.programs]
        print(f'{"least of " + str(self.times) + " runs":24}' + ''.join(f'{name:>11}' for name in names * 2))
        kinds = ['M instr.'] * len(names) + ['ms'] * len(names)
        last = '   the other by ours' if len(names) == 2 else ''
        print(f'{"less the shortest input":24}' + ''.join(f'{kind:>11}' for kind in kinds) + last)

    def row(self, name, words, text, short, other_words=None):
        """Prints a line: what the programs take for the text more than for the short one."""
        commands = [[self.programs[0], *words]]
        commands += [[program, *(other_words or words)] for program in self.programs[1:]]
        counts = [instructions(command, text) - instructions(command, short) for command in commands]
        times = [long - brief for long, brief in zip(least(commands, text, self.times),
                                                     least(commands, short, self.times))]
        line = f'{name:24}' + ''.join(f'{count / 1e6:11.2f}' for count in counts)
        line += ''.join(f'{time:11.2f}' for time in times)
        if len(commands) == 2:
            line += f'   {counts[1] / max(counts[0], 1):.2f} {times[1] / max(times[0], 0.001):.2f} by time'
        print(line, flush=True)


def run(command, text, wanted=(0, 3)):
    """What a run prints, and its processor time in milliseconds."""
    with tempfile.TemporaryFile() as source, tempfile.TemporaryFile() as answer, tempfile.TemporaryFile() as said:
        source.write(text)
        source.seek(0)
        child = subprocess.Popen(command, stdin=source, stdout=answer, stderr=said)
        _, status, usage = os.wait4(child.pid, 0)
        child.returncode = os.waitstatus_to_exitcode(status)
        if child.returncode not in wanted:
            sys.exit(f'bench: {" ".join(command)} ended with status {child.returncode}')
        answer.seek(0)
        return answer.read(), 1000 * (usage.ru_utime + usage.ru_stime)


def least(commands, text, times):
    """The least processor time of each of the commands, which are run in turn, in milliseconds."""
    runs = [[run(command, text, range(9))[1] for command in commands] for _ in range(times)]
    return [min(one) for one in zip(*runs)]


def instructions(command, text):
    """How many instructions a run takes, which callgrind counts. With threads it differs a little from run to run."""
    with tempfile.TemporaryFile() as source:
        source.write(text)
        source.seek(0)
        counter = ['valgrind', '--tool=callgrind', '--callgrind-out-file=/dev/null']
        said = subprocess.run(counter + command, stdin=source, stdout=subprocess.DEVNULL, stderr=subprocess.PIPE)
    return int(re.search(rb'Collected : (\d+)', said.stderr)[1])


def drawn(nodes, clients, commands, seed=7, version=1):
    """A drawn script."""
    words = [str(word) for word in (nodes, clients, commands, seed, version)]
    return subprocess.run([sys.executable, f'{TOP}/tests/lib/drawing.py', *words], capture_output=True, check=True).stdout


def words_of(usage, count):
    """The words that were given, at most so many, with the place of each that is missing left empty."""
    words = sys.argv[1:]
    if len(words) > count or words[:1] in (['--help'], ['-h']):
        print(usage.strip())
        sys.exit(0 if words[:1] in (['--help'], ['-h']) else 1)
    return words + [''] * (count - len(words))
