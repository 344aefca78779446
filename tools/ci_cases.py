"""Tests the review of examples/ci in a repository that is made for it."""
import os
import re
import shutil
from collections.abc import Callable
from subprocess import CompletedProcess
from typing import Any

HERE = os.path.dirname(os.path.realpath(__file__))
REPOSITORY = os.path.dirname(HERE)
CI = os.path.join(REPOSITORY, 'examples', 'ci')
NET = '''topos = 2
flow = [["web", "db", "tcp/5432"], ["inet", "web", "tcp/443"]]
host = [
  { name = "web", at = ["10.0.1.10"] },
  { name = "db", at = ["10.0.2.20"] },
  { name = "inet", rest = true },
]
invariant = [{ template = "partners", assign = [{ host = "db", kind = "master", from = ["web"] }] }]
'''
MUST = '''# the page, and its answer
packet 198.51.100.7 10.0.1.10 tcp 50000 443
packet 10.0.1.10 198.51.100.7 tcp 443 50000
'''
MUST_NOT = '''# no login from outside
packet 198.51.100.7 10.0.1.10 tcp 50001 22
'''
GIT = {'GIT_AUTHOR_NAME': 'a', 'GIT_AUTHOR_EMAIL': 'a@example.net', 'GIT_COMMITTER_NAME': 'a',
       'GIT_COMMITTER_EMAIL': 'a@example.net', 'GIT_CONFIG_GLOBAL': '/dev/null', 'GIT_CONFIG_NOSYSTEM': '1'}
HARMLESS = '**no invariant is weaker, no gap is new, no invariant fails, no flow is wider**\n'
OPENED = '''## Changes

**no invariant is weaker, no gap is new, no invariant fails, 1 flow is wider: inet -\\> web: everything, was tcp/443**

Flows that come or change:

- \\~ flow inet -\\> web: everything, was tcp/443

## Packets of must-not.events

    forward packet 198.51.100.7 10.0.1.10 tcp 50001 22
'''
WEAKER = '''## Changes

**1 invariant is weaker, 1 gap is new, no invariant fails, no flow is wider**

Invariants that are weaker:

- weaker: invariant 1 partners: inet -\\> db

New gaps:

- new gap: inet -\\> db

Invariants and settings:

- \\~ invariant 1 partners: db: from adds inet
'''
FAILS = '''## Not accepted

    invariant 1 partners fails
      inet -> db
## Changes

**no invariant is weaker, no gap is new, 1 invariant fails, no flow is wider**

Invariants that fail:

- fails: invariant 1 partners: inet -\\> db
'''
CLOSED = '''## Packets of must.events

    drop packet 198.51.100.7 10.0.1.10 tcp 50000 443
    drop packet 10.0.1.10 198.51.100.7 tcp 443 50000
'''
BY_HAND = '''
## Rules in force that are not those of the base

    db -> web: the rules forward
'''


class Review:
    """A repository with a description on `main`, and the tools on the path."""

    def __init__(self, run: Callable[..., CompletedProcess[str]], write: Callable[[str, str], str],
                 same: Callable[[str, object, object], None]) -> None:
        self.run, self.write, self.same = run, write, same
        self.folder = os.path.dirname(write('marker', ''))
        self.repository = os.path.join(self.folder, 'repository')

    def shell(self, command: str, **variables: str) -> CompletedProcess[str]:
        """Runs a command in the repository."""
        path = f'{self.folder}/bin:{os.environ["PATH"]}'
        settings = (f'{key}={value}' for key, value in {**GIT, **variables, 'PATH': path}.items())
        return self.run('env', '-C', self.repository, *settings, 'bash', '-eo', 'pipefail', '-c', command)

    def prepare(self) -> None:
        """Makes the repository, with the rules of its description as those in force."""
        os.makedirs(os.path.join(self.repository, 'ci'))
        os.makedirs(os.path.join(self.folder, 'bin'))
        for tool, folder in (('topos-diff', 'tools'), ('topos-where', 'load'), ('topos-where', 'tools')):
            path, link = os.path.join(REPOSITORY, folder, tool), os.path.join(self.folder, 'bin', tool)
            if os.path.exists(path) and not os.path.exists(link):
                os.symlink(path, link)
        for name, text in (('net.toml', NET), ('must.events', MUST), ('must-not.events', MUST_NOT)):
            self.file(name, text)
        shutil.copy(os.path.join(CI, 'review'), os.path.join(self.repository, 'ci', 'review'))
        self.same('made', self.shell('''
            ln -s "$TOPOS" ../bin/topos; ln -s "$TOPOS_QUERY" ../bin/topos-query
            topos rules iptables net.toml >box.rules
            git init -q -b main . && git add . && git commit -q -m base && git update-ref refs/remotes/origin/main HEAD
        ''').stderr, '')

    def file(self, name: str, text: str) -> None:
        with open(os.path.join(self.repository, name), 'w', encoding='utf-8') as file:
            file.write(text)

    def judge(self, name: str, status: int, wanted: str, files: dict[str, str]) -> None:
        """Checks the review of a branch on which files differ."""
        self.shell('git checkout -q -B change main && git reset -q --hard main')
        for path, text in files.items():
            self.file(path, text)
        self.shell('git commit -q --allow-empty -a -m change')
        ended = self.shell('ci/review origin/main')
        self.same(f'review: {name}', (ended.returncode, ended.stdout + ended.stderr), (status, wanted))

    def test(self) -> None:
        self.prepare()
        nothing = '## Changes\n\n**nothing differs**\n'
        self.judge('a comment', 0, nothing, {'net.toml': f'# shop\n{NET}'})
        wider = OPENED[:OPENED.index('\n## Packets')]
        self.judge('wider', 1, wider, {'net.toml': NET.replace(', "tcp/443"', ''), 'must-not.events': '# none\n'})
        self.judge('opened', 2, OPENED, {'net.toml': NET.replace(', "tcp/443"', '')})
        self.judge('weaker', 1, WEAKER, {'net.toml': NET.replace('["web"] }', '["web", "inet"] }')})
        self.judge('fails', 2, FAILS, {'net.toml': NET.replace('["inet", "web"', '["inet", "db"], ["inet", "web"')})
        rules = self.shell('cat box.rules').stdout
        by_hand = rules.replace('-A FORWARD', '-A FORWARD -s 10.0.2.20/32 -d 10.0.1.10/32 -j ACCEPT\n-A FORWARD', 1)
        self.judge('by hand', 1, nothing + BY_HAND, {'box.rules': by_hand})
        self.closed()
        self.refused()
        self.jobs()

    def closed(self) -> None:
        """A packet that must pass does not."""
        self.shell('git checkout -q -B change main')
        self.file('net.toml', NET.replace(', ["inet", "web", "tcp/443"]', ''))
        ended = self.shell('git commit -q -a -m change; ci/review')
        self.same('review: closed', (ended.returncode, ended.stdout[ended.stdout.find('## Packets'):]), (2, CLOSED))

    def refused(self) -> None:
        """A faulty description is shown with its position; without a base nothing is compared."""
        self.shell('git checkout -q -B change main')
        self.file('net.toml', NET.replace('tcp/443', 'tcp/http'))
        ended = self.shell('git commit -q -a -m change; ci/review origin/main')
        self.same('review: refused', (ended.returncode, ended.stdout.splitlines()[:1]), (2, ['## Not accepted']))
        self.same('its place', 'tcp/http' in ended.stdout and 'net.toml:2' in ended.stdout, True)
        ended = self.shell('ci/review origin/nowhere')
        self.same('review: no base', (ended.returncode, ended.stdout), (2, ''))

    def jobs(self) -> None:
        """The command of each job runs the review against the branch that it names."""
        self.shell('git checkout -q -B change main && git reset -q --hard main')
        variables: dict[str, Any] = {'GITHUB_BASE_REF': 'main', 'CI_MERGE_REQUEST_TARGET_BRANCH_NAME': 'main',
                                     'GITHUB_STEP_SUMMARY': os.path.join(self.folder, 'summary')}
        for name in ('github.yml', 'gitlab.yml', 'forgejo.yml'):
            with open(os.path.join(CI, name), encoding='utf-8') as file:
                command = re.findall(r'^ *(?:- |run: )(ci/review .*)$', file.read(), re.MULTILINE)
            self.same(f'commands of {name}', len(command), 1)
            ended = self.shell(command[0], **variables)
            self.same(name, (ended.returncode, ended.stdout), (0, '## Changes\n\n**nothing differs**\n'))
