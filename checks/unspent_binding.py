#!/usr/bin/env python3
"""A binding of a label that is not spent does not compile.

The compiler refuses such a program before any proof, so it is no edit that the prover has to refuse. Here functions are
appended to a copy of the crates. One spends the binding that it is handed, and there is no error. The others, one for
each state of a binding and one for a binding in any state, let it go, and the error has to be `linear-value-let-go`,
once, in that function. Nothing is proved: `rt try` reports such errors.

Prints what differs, and then 'N passed, M failed'.
"""

import pathlib
import shutil
import subprocess
import sys
import tempfile

TOP = pathlib.Path(__file__).resolve().parent.parent

CRATES = ['mv_base', 'mldp', 'tunnel_bindings']

SPENDS = 'pub fn spends(binding: Binding<Mapped>) -> Binding<Leaving> {\n    binding.leave()\n}\n'

LETS_GO = 'pub fn lets_go(binding: Binding<%s>) -> mv_base::NodeId {\n    binding.upstream()\n}\n'

LETS_ANY_GO = 'pub fn lets_go(binding: AnyBinding) -> BindingState {\n    binding.state()\n}\n'

STATES = ['Wanted', 'Mapped', 'Leaving']


def copy_crates(top):
    """Copies the crates without what checks made, and the lines of crates.txt that list them. Tells the root file of the last."""
    for crate in CRATES:
        shutil.copytree(TOP / 'crates' / crate, top / 'crates' / crate, ignore=shutil.ignore_patterns('out'))
    lines = (TOP / 'crates.txt').read_text().splitlines(keepends=True)
    (top / 'crates.txt').write_text(''.join(line for line in lines if line.split(':')[0] in CRATES))
    shutil.copy(TOP / 'HANDLES', top)
    return top / 'crates' / CRATES[-1] / 'src' / 'lib.rt'


def try_with(root, source, function):
    """What `rt try` reports of the crate with the function after its root file, and the places of its errors with their names."""
    root.write_text(source + '\n' + function)
    command = ['rt', 'try', '--test']
    run = subprocess.run(command, cwd=root.parent.parent, stdout=subprocess.PIPE, stderr=subprocess.STDOUT, text=True)
    errors = [line.split(': ')[:2] for line in run.stdout.splitlines() if ' error' in line]
    return run.stdout, errors


def is_let_go(errors, source):
    """Whether the one error is that the function after the source lets a value go."""
    if len(errors) != 1:
        return False
    place, name = errors[0]
    path, line, _ = place.split(':')
    return path == 'src/lib.rt' and int(line) > source.count('\n') and name == 'error[linear-value-let-go]'


def main():
    results = []
    with tempfile.TemporaryDirectory() as folder:
        root = copy_crates(pathlib.Path(folder))
        source = root.read_text()
        reported, errors = try_with(root, source, SPENDS)
        results.append(('a binding that is spent', reported, not errors and 'run=ended status=0' in reported))
        for state in STATES:
            reported, errors = try_with(root, source, LETS_GO % state)
            results.append(('Binding<%s> that is let go' % state, reported, is_let_go(errors, source)))
        reported, errors = try_with(root, source, LETS_ANY_GO)
        results.append(('AnyBinding that is let go', reported, is_let_go(errors, source)))
    failed = 0
    for name, reported, as_wanted in results:
        if not as_wanted:
            failed += 1
            print('%s: other than wanted:\n%s' % (name, reported))
    print('%d passed, %d failed' % (len(results) - failed, failed))
    return 1 if failed else 0


if __name__ == '__main__':
    sys.exit(main())
