"""The prover's words for one crate over the libraries below it that stand in their crates' out/, as `rt ci` leaves them: these
are read, and none of them is proved again."""
import subprocess
from pathlib import Path

TOP = Path(__file__).resolve().parents[2]


def kit():
    """Where the toolchain lies."""
    return Path(subprocess.run(['rt', 'doc'], capture_output=True, text=True, check=True).stdout.strip()).parent


def named():
    """What each crate names in crates.txt."""
    lines = (line.partition('#')[0] for line in (TOP / 'crates.txt').read_text().splitlines())
    return {line.partition(':')[0].split()[0]: line.partition(':')[2].split() for line in lines if line.strip()}


def below(crates, name, found):
    """The crates below this one, the lowest first."""
    for other in crates[name]:
        if other in crates and other not in found:
            below(crates, other, found)
            found.append(other)
    return found


def rlib(name):
    """Where the library of a crate stands."""
    return TOP / 'crates' / name / 'out' / 'rlib' / f'{name}.rlib'


def edited(name):
    """When a file that a crate is proved from was edited last."""
    parts = (TOP / 'crates' / name / part for part in ('src', 'specs', 'proofs'))
    return max(file.stat().st_mtime for part in parts for file in part.rglob('*') if file.is_file())


def is_older(name):
    """Whether the library of a crate is older than a file that it was proved from: `rt ci` puts back what an earlier run
    left there."""
    return edited(name) > rlib(name).stat().st_mtime


def is_newest(path, name):
    """Whether a file is newer than all sources of the crate and all libraries below it."""
    times = [edited(name), *(rlib(other).stat().st_mtime for other in below(named(), name, []))]
    return path.exists() and path.stat().st_mtime > max(times)


def what_lacks(name):
    """What is in the way of proving the crate over the libraries below it; nothing, if nothing is."""
    under = below(named(), name, [])
    missing = [other for other in under if not (rlib(other) / 'format').exists()]
    if missing:
        return f'no library of {" ".join(missing)}: remove crates/*/out, and run rt ci'
    older = [other for other in under if is_older(other)]
    if older:
        return f'older than its sources is the library of {" ".join(older)}: remove crates/*/out, and run rt ci'
    return ''


def build(name, source, *last, **how):
    """Proves the crate and builds it: what came of the command, which runs in the crate's folder."""
    crates, place = named(), kit()
    under = below(crates, name, [])
    ported = ['std'] + [other for other in crates[name] if other not in crates]
    words = [f'--extern={other}={place}/rlibs/{other}.rlib' for other in ported] + ['-L', f'dependency={place}/rlibs']
    words += [f'--extern={other}={rlib(other)}' for other in crates[name] if other in crates]
    for other in under:
        words += ['-L', f'dependency={rlib(other).parent}']
    words += ['--antt-project', place / 'rattle/logic/antt-project.json', '--logic-built', place / 'logic_built', '--jobs', '1',
              *last, '--toolchain', place / 'toolchain', '--backend', 'llvm']
    return subprocess.run([place / 'bin/rattle', 'build', '--crate-name', name, source, *words], cwd=TOP / 'crates' / name,
                          check=False, **how)
