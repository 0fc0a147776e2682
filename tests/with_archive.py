"""Builds the C programs of this folder with the archive of the C names, as it stands in target/staticlib or in the folder WEGRUSAMT_LIB."""
import os
import shutil
import subprocess
import sys

TOP = os.path.dirname(os.path.dirname(os.path.abspath(__file__)))
ARCHIVE = os.path.join(TOP, os.environ.get('WEGRUSAMT_LIB', os.path.join('target', 'staticlib')), 'libabi.a')


def stop(name, why):
    print(f'{name}: {why}', file=sys.stderr)
    sys.exit(2)


def path(name):
    """Where the program stands once it is built."""
    return os.path.join(TOP, 'target', 'bindings', name)


def build(name):
    """Builds tests/NAME.c. Where it cannot be built a line says why, and the status is 2."""
    if not os.path.isfile(ARCHIVE):
        stop(name, f'{ARCHIVE} is missing: run `rust/archive`, and set WEGRUSAMT_LIB to the folder that it prints where that is not '
             'target/staticlib')
    if not shutil.which('gcc'):
        stop(name, "gcc is missing (README.md, 'What a fresh machine needs')")
    os.makedirs(os.path.dirname(path(name)), exist_ok=True)
    words = ['gcc', '-O1', '-Wall', '-Wextra', '-Werror', '-Iinclude', f'tests/{name}.c', ARCHIVE, '-o', path(name)]
    run = subprocess.run(words, cwd=TOP, capture_output=True, text=True)
    if run.returncode != 0:
        print(*run.stderr.splitlines()[-4:], sep='\n', file=sys.stderr)
        stop(name, f'tests/{name}.c does not build; where it is not to blame, the archive is old or for another machine: '
             'run `rust/archive`')
