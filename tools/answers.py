#!/usr/bin/env python3
"""answers.py CRATE: writes the answers that a check of a crate asks for, `search RULESET` at each open goal, and checks again until it asks for no more.

Run it at the top of the repository. A file or an answer that stands is kept: after a change of a function's code remove its folder, crates/CRATE/proofs/FUNCTION, and
run it again. The ruleset is `ways` of proofs/Ways.antt; for the functions of a module that of proofs/MODULEWays.antt, where there is one (ChangesWays.antt for
`changes`). Loop invariants and measures are written by hand: where one is wanted, the lines are written with a hole, and the last lines say so."""
import os
import re
import subprocess
import sys


def check(folder):
    got = subprocess.run(['rt', 'check'], capture_output=True, text=True, errors='replace', cwd=folder)
    return got.stdout + got.stderr


def asked(out):
    """The files that a check asks for: pairs of a path and the lines to write."""
    lines, at = out.split('\n'), 0
    while at < len(lines):
        m = re.match(r'help: (?:write|add) .*?(\./proofs/\S+?/(?:Answers|Invariants)\.antt)', lines[at])
        at += 1
        if not m:
            continue
        text = []
        while at < len(lines) and (lines[at].startswith('    ') or lines[at] == ''):
            text.append(lines[at][4:])
            at += 1
        yield m.group(1), '\n'.join(text)


def ruleset(folder, path):
    module = path[len('./proofs/'):].split('/')[0]
    own = module.capitalize() + 'Ways'
    return own if os.path.exists('%s/proofs/%s.antt' % (folder, own)) else 'Ways'


def write(crate, folder, path, body):
    """Whether there was something to add."""
    target = folder + path[1:]
    standing = open(target).read() if os.path.exists(target) else ''
    module = re.search(r'^use (Rattle\.\S+\.(?:Goals|Given) as goal)$', body, re.M).group(1)
    heads = dict(re.findall(r'^(\S+) ((?:\S+ )*)=\s+\?$', body, re.M))
    text = ''
    for name, goal in re.findall(r'^(?:abbrev )?pub (\S+) :\s+(goal\.\S+)$', body, re.M):
        if re.search('^(abbrev )?(pub )?%s :' % re.escape(name), standing, re.M):
            continue
        if path.endswith('Invariants.antt'):
            text += '\nabbrev pub %s : %s\n%s l = ?\n' % (name, goal, name)
        else:
            text += '\npub %s : %s\n%s %s= search ways\n' % (name, goal, name, heads.get(name, 'c '))
    if not text:
        return False
    if standing:
        open(target, 'a').write(text)
        return True
    uses = ['use Rattle.%s.proofs.%s.{ways}' % (crate, ruleset(folder, path))] if 'search ways' in text else []
    os.makedirs(os.path.dirname(target), exist_ok=True)
    open(target, 'w').write('\n'.join(uses + ['use ' + module]) + '\n' + text)
    return True


def main():
    if len(sys.argv) != 2:
        sys.exit(__doc__)
    crate = sys.argv[1]
    folder = 'crates/' + crate
    while True:
        out = check(folder)
        wrote = [path for path, body in asked(out) if write(crate, folder, path, body)]
        for path in wrote:
            print('%s: wrote %s' % (crate, path))
        if not wrote:
            break
    for line in out.split('\n'):
        if re.search(r'error:|no proof:|: not proved|is yours to choose|^logic=', line):
            print(line[:400])
    sys.exit(0 if re.search(r'^logic=proved', out, re.M) else 1)


main()
