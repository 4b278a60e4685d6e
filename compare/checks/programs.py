"""The edits of the published Rust, the build, and wrong command lines."""

import os
import shutil
import subprocess
import sys
import tempfile

import comparing
from checks.report import answers, check, script
from comparing import COMPARE, GENERATE, KINDS, REFERENCE, ROOT, SCENARIOS, TARGET

SEQUENCES = 'docs/src/tools/golden-gen/src/sequences'


def check_scenarios():
    for scenario in sum((SCENARIOS[kind] for kind in KINDS), []):
        rows, published = (subprocess.run(words, stdout=subprocess.PIPE, check=True).stdout for words in (
            comparing.scenario(scenario), [os.path.join(TARGET, 'published'), scenario]))
        got = answers(rows)
        if scenario == 'fine_step':
            # Its goldens hold the stage and the heating coil alone.
            got = b''.join(line[:42] + line[189:210] + b'\n' for line in got.splitlines())
        check(f'the edited Rust answers its own {scenario} rows as the published Rust does',
              '' if published and got == published else 'the answers differ')
    tests = subprocess.run([os.path.join(TARGET, 'reference_tests'), '--quiet'],
                           stdout=subprocess.PIPE, text=True)
    check('R4, E4, the row at which the economizer is told of a stage, and what no joined row may have, tested in Rust',
          '' if tests.returncode == 0 else tests.stdout)


def check_edits():
    """Text that an edit expects is missing, or is there twice."""
    for name, old, new in [
            ('freeze_protection.rs', 'let row = input_row(t);', 'let row = input_row(t) ;'),
            ('freeze_protection/fine_step.rs', 'fn input_row(',
             '//fn input_row(t: f64) -> Inputs {\nfn input_row('),
            ('relief_fan_group.rs', 'fn relief_fan_group_trace(time: &[f64])', 'fn trace(time: &[f64])'),
            ('relief_fan_group.rs', 'fn goldens()', 'fn golden()'),
            ('economizer_controller.rs', '.push(if close_outdoor_damper {', '.push(if close {')]:
        with tempfile.TemporaryDirectory() as folder:
            sources = shutil.copytree(os.path.join(ROOT, SEQUENCES), os.path.join(folder, 'sequences'))
            path, out = os.path.join(sources, name), os.path.join(folder, 'out')
            with open(path) as file:
                text = file.read()
            with open(path, 'w') as file:
                file.write(text.replace(old, new))
            ended = subprocess.run([os.path.join(COMPARE, 'extract'), sources, out],
                                   stderr=subprocess.PIPE, text=True)
            check(f'no edit of {name} where "{old}" is not as expected',
                  '' if ended.returncode != 0 and name in ended.stderr and not os.path.exists(out)
                  else f'status {ended.returncode}, message {ended.stderr!r}')


def check_build():
    with tempfile.TemporaryDirectory() as folder:
        # A copy in which nothing is built, and the tools that the scripts need, without rustc.
        for name in ('compare', 'docs/src', 'tools/tables'):
            shutil.copytree(os.path.join(ROOT, name), os.path.join(folder, name))
        tools = os.path.join(folder, 'needed')
        os.mkdir(tools)
        os.symlink(sys.executable, os.path.join(tools, 'python3'))
        for tool in ('bash', 'dirname', 'find', 'mkdir', 'mv', 'rm', 'touch'):
            os.symlink(shutil.which(tool), os.path.join(tools, tool))

        def run(program=REFERENCE):
            return subprocess.run([os.path.join(folder, 'compare/run'), program, '2'], env={'PATH': tools},
                                  stdout=subprocess.PIPE, stderr=subprocess.PIPE, text=True)
        ended = run()
        check('without rustc the comparison is skipped and says so',
              '' if ended.returncode == 0 and 'skipped' in ended.stdout
              and ended.stdout.endswith('\n0 passed, 0 failed\n') else ended.stdout)
        ended = subprocess.run([os.path.join(folder, 'compare/rooftop')], env={'PATH': tools}, capture_output=True, text=True)
        check('without rustc the joined rows are skipped, and that is said',
              '' if ended.returncode == 77 and 'skipped' in ended.stdout else ended.stdout + ended.stderr)
        check_stale(folder, run)
        script(os.path.join(tools, 'rustc'), '#!/bin/bash\nexit 1\n')
        ended = run()
        check('with rustc, a comparison that cannot be built is a failure',
              '' if ended.returncode != 0
              and ended.stdout.endswith('\n0 passed, 1 failed\n') else ended.stdout)


def check_stale(folder, run):
    """The runner warns of a program that is older than its code, and still plays it."""
    program, code = (os.path.join(folder, *path) for path in (('target', 'bin', 'rows'), ('crates', 'rows', 'src', 'main.rt')))
    for path in (program, code):
        os.makedirs(os.path.dirname(path))
        script(path, '#!/bin/bash\n')
    for newer, warned in ((program, False), (code, True)):
        for path in (program, code):
            os.utime(path, (path == newer, path == newer))
        ended = run(program)
        told = ended.stderr.count('warning') == 1 and program in ended.stderr
        check(f'{"a" if warned else "no"} warning where {"the code" if warned else "the program"} is newer',
              '' if ended.returncode == 0 and (told if warned else not ended.stderr) else ended.stderr or 'no warning')


def refuses(name, words, **streams):
    ended = subprocess.run(words, stderr=subprocess.PIPE, text=True,
                           **{'stdin': subprocess.DEVNULL, 'stdout': subprocess.PIPE} | streams)
    clear = ended.stderr and 'panicked' not in ended.stderr and 'Traceback' not in ended.stderr
    check(f'a message and a non-zero status for {name}',
          '' if ended.returncode > 0 and clear else f'status {ended.returncode}, message {ended.stderr!r}')


def check_command_lines():
    for words in ('nonsense', 'scenario', 'scenario nothing', 'scenario freeze more', 'blocks more', 'keep-hour more',
                  'count'):
        refuses(f'reference {words}', [REFERENCE, *words.split()])
    for words in ('', 'freeze', 'nothing 1', 'freeze x', 'freeze -1', 'freeze 1.5', 'freeze 1 0',
                  'freeze 1 x', 'freeze 1 2 3', 'freeze clean', 'freeze clean 0', 'freeze dense 5',
                  'freeze 99999999999999999999', 'econ clean 99999999999'):
        refuses(f'generate {words}'.rstrip(), [GENERATE, *words.split()])
    refuses('events count NO-SUCH-FILE', [comparing.EVENTS, 'count', os.path.join(TARGET, 'no-such-file')])
    refuses('extract', [os.path.join(COMPARE, 'extract')])
    for script in ('run', 'speed', 'instructions'):
        path = os.path.join(COMPARE, script)
        refuses(script, [path])
        refuses(f'{script} NO-SUCH-PROGRAM', [path, './no-such-program'])
        for words in ('0', '-5', 'x', '5 fan', 'freeze 5'):
            refuses(f'{script} PROGRAM {words}', [path, REFERENCE, *words.split()])
    refuses('check with an argument', [os.path.join(COMPARE, 'check'), 'x'])

    folder = os.open(COMPARE, os.O_RDONLY)
    refuses('a folder as the rows', [REFERENCE], stdin=folder)
    os.close(folder)
    if os.path.exists('/dev/full'):
        with open('/dev/full', 'w') as full:
            refuses('reference on a full disk', [REFERENCE], stdout=full)
            refuses('generate on a full disk', [GENERATE, 'econ', '1'], stdout=full)
