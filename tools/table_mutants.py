#!/usr/bin/env python3
"""tools/table_mutants.py: of each of some wrong models of the tables of cells, how many recorded sequences (tools/table_cases.py) it answers otherwise
than tools/table_model.py. Each has to be found by one at least."""
import sys

import table_cases as cases
import table_model as model


def mutants():
    """Each a name and a function that puts a wrong rule into the model."""
    text = open(model.__file__).read()
    for name, old, new in [
        ('take counts picks for 14', 'return [fits(left), taken, refused]', 'require(14, len(dropped(table, now)) + len(picks) <= HOLDS)\n    return [left, taken, refused]'),
        ('take counts before the drop', 'return [fits(left), taken, refused]', 'require(14, len(table) + (len(taken) - 4) // 36 <= HOLDS)\n    return [left, taken, refused]'),
        ('take records only its first', 'return [fits(left), taken, refused]', 'return [fits(left[:len(busy) + 1]), taken, refused]'),
        ('take records nothing', 'return [fits(left), taken, refused]', 'fits(left)\n    return [busy, taken, refused]'),
        ('take drops nothing', 'read_points(spent), dropped(table, now)\n    busy', 'read_points(spent), list(table)\n    busy'),
        ('take does not look at spent', 'or c in spent or c in taken', 'or c in taken'),
        ('take gives a pick twice', 'or c in spent or c in taken', 'or c in spent'),
        ('take looks at the watchtower only', 'held(busy, c) or c in spent', 'held([r for r in busy if r[0] == WATCHTOWER], c) or c in spent'),
        ('take looks at holders only', 'held(busy, c) or c in spent', 'held([r for r in busy if r[0] == FUNDING], c) or c in spent'),
        ('14 before 13', 'taken, refused = written(taken, room_taken), written(refused, room_refused)', 'fits(left)\n    taken, refused = written(taken, room_taken), written(refused, room_refused)'),
        ('255 records', 'HOLDS = 256', 'HOLDS = 255'),
        ('257 records', 'HOLDS = 256', 'HOLDS = 257'),
        ('ended a moment late', 'record[1] <= now', 'record[1] < now'),
        ('ended a moment early', 'record[1] <= now', 'record[1] <= now + 1'),
        ('no cap on a hold', 'min(now + WATCHTOWER_HOLD_MS, TOP)', '(now + WATCHTOWER_HOLD_MS) % 2 ** 64'),
        ('no cap on a pick', 'min(now + WATCHTOWER_PICK_HOLD_MS, TOP)', '(now + WATCHTOWER_PICK_HOLD_MS) % 2 ** 64'),
        ('a renewed record goes last', '        for i in places:\n            left[i] = (WATCHTOWER, end, c)\n        if not places:\n            left.append', '        left = [r for i, r in enumerate(left) if i not in places]\n        if True:\n            left.append'),
        ('a hold drops ended records', 'TOP), list(table)', 'TOP), dropped(table, now)'),
        ('hold_funding keeps the old ones', 'others = [r for r in table if not of_holder(r, holder)]', 'others = table'),
        ('hold_funding drops repeats', '[(FUNDING, holder, c) for c in cells]', '[(FUNDING, holder, c) for c in dict.fromkeys(cells)]'),
        ('hold_funding puts new ones first', 'others + [(FUNDING, holder, c) for c in cells]', '[(FUNDING, holder, c) for c in cells] + others'),
        ('release drops every record', 'r[0] == WATCHTOWER and r[2] in cells', 'r[2] in cells'),
        ('unavailable names twice', 'c not in named and (c in spent', '(c in spent'),
        ('unavailable looks at ended ones', 'held(dropped(table, now), c)', 'held(table, c)'),
        ('unavailable drops', 'return [table, written(named, room)]', 'return [dropped(table, now), written(named, room)]'),
        ('lock_held does not drop', 'left = dropped(table, now)\n    return [left, written', 'left = dropped(table, now)\n    return [table, written'),
        ('lock_held names once', '[r[2] for r in left]', 'list(dict.fromkeys(r[2] for r in left))'),
        ('a byte less is enough', 'min(room, 133_116)', 'min(room + 1, 133_116)'),
        ('a byte more is needed', 'min(room, 133_116)', 'min(room - 1, 133_116)'),
        ('63 transactions', 'TRANSACTIONS = 64', 'TRANSACTIONS = 63'),
        ('65 transactions', 'TRANSACTIONS = 64', 'TRANSACTIONS = 65'),
        ('511 out points', 'OUT_POINTS = 512', 'OUT_POINTS = 511'),
        ('513 out points', 'OUT_POINTS = 512', 'OUT_POINTS = 513'),
        ('kept 12 blocks', 'KEEP_BLOCK_PERIOD = 13', 'KEEP_BLOCK_PERIOD = 12'),
        ('kept 14 blocks', 'KEEP_BLOCK_PERIOD = 13', 'KEEP_BLOCK_PERIOD = 14'),
        ('c + 13 wraps', 'tip < e[1] + KEEP_BLOCK_PERIOD', 'tip < (e[1] + KEEP_BLOCK_PERIOD) % 2 ** 64'),
        ('c + 13 is capped', 'tip < e[1] + KEEP_BLOCK_PERIOD', 'tip < min(TOP, e[1] + KEEP_BLOCK_PERIOD)'),
        ('a replaced entry goes last', 'left[i] = (h, None, points)', 'left.pop(i)\n        left.append((h, None, points))'),
        ('a replaced entry stays committed', 'left[i] = (h, None, points)', 'left[i] = (h, left[i][1], points)'),
        ('no transaction enters', 'return [table if points is None else in_bounds(entered(table, h, points))]', 'return [in_bounds(entered(table, h, points or []))]'),
        ('no transaction uncommits', 'return [table if points is None else', 'return [entered(table, h, table[place_of(table, h)][2]) if points is None and place_of(table, h) is not None else table if points is None else'),
        ('migration of an unknown hash enters', '    if place_of(table, old) is None:\n        return [table]\n', ''),
        ('migration keeps the old one', 'left = without(table, old)', 'left = table'),
        ('migration counts the old one', 'left = without(table, old)', 'left = without(table, old)\n    if points is not None:\n        in_bounds(entered(table, new, points))'),
        ('migration to none keeps', 'return [left if points is None', 'return [table if points is None'),
        ('migration onto itself keeps its place', '    left = without(table, old)', '    if old == new and points is not None:\n        return [in_bounds(entered(table, new, points))]\n    left = without(table, old)'),
        ('an unknown hash before 1', '    points = read_ours(tx)\n    is_hash(old)', '    if place_of(table, old) is None and len(old) == len(new) == 32:\n        return [table]\n    points = read_ours(tx)\n    is_hash(old)'),
        ('3 before 1', '    points = read_ours(tx)\n    is_hash(h)', '    is_hash(h)\n    points = read_ours(tx)'),
        ('apply names once', 'written(points_of(table), room)', 'written(list(dict.fromkeys(points_of(table))), room)'),
        ('commit only once', '(e[0], block, e[2]) if e[0] == h else e', '(e[0], block, e[2]) if e[0] == h and e[1] is None else e'),
    ]:
        assert text.count(old) == 1, name
        yield name, text.replace(old, new)


def judge_mutants():
    runs, missed = list(cases.hold_runs()) + list(cases.exclusion_runs()), 0
    for name, text in mutants():
        wrong = {}
        exec(compile(text, name, 'exec'), wrong)
        found = 0
        for r in runs:
            table = []
            for s in r.steps:
                n, table, lists = wrong['answer'](wrong[s.name], table, *s.args)
                if (n, table, lists) != (s.number, s.after, s.written):
                    found += 1
                    break
        missed += not found
        print('%-44s %5d sequences%s' % (name, found, '' if found else '  NONE'))
    print('%d wrong models, %d of them not found' % (len(list(mutants())), missed))
    return missed


if __name__ == '__main__':
    sys.exit(judge_mutants() > 0)
