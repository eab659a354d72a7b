#!/usr/bin/env python3
"""What `trip` should write of a trip file, worked out from the rules alone.

  tools/expected_trip.py crates/trip/data/sample.trip > crates/trip/stdout

Rows are a plain list of booleans here, and each rule is taken row by row, as docs/RULES.md says it:
nothing of the library's runs, masks, words or loops is used, so that the two can be held beside each other.
"""
import sys

shots, columns, surveys, name, first, last, threshold = [], [], [], '', 1, 2 ** 32 - 1, 0
for line in open(sys.argv[1]):
    words = line.split()
    if not words or words[0].startswith('#'):
        continue
    kind, rest = words[0], words[1:]
    if kind == 'trip': name = rest[0]
    elif kind == 'shot': shots.append(dict(zip(('from', 'to', 'length', 'azimuth', 'inclination'), map(int, rest))))
    elif kind == 'column': columns.append((rest[0], []))
    elif kind == 'page': columns[-1][1].append(tuple(map(int, rest)))
    elif kind == 'survey': surveys.append((rest[0], []))
    elif kind == 'filter': surveys[-1][1].append((rest[0], int(rest[1]), int(rest[2])))
    elif kind == 'shots': first, last = map(int, rest)
    elif kind == 'threshold': threshold = int(rest[0])

def passes(filter, shot):
    field, least, most = filter
    return least <= shot[field] <= most

# the first filter of a survey judges every shot, the second only the shots that the first left
# row i is then selected iff the first selects it and the second selects its rank
def survey_rows(filters):
    marks = [passes(filters[0], s) for s in shots]
    left = [s for s, mark in zip(shots, marks) if mark]
    second = [passes(filters[1], s) for s in left]
    rank = lambda i: sum(marks[:i])
    return marks, [marks[i] and second[rank(i)] for i in range(len(marks))]

# n = 0 changes nothing; with no selected row past the n-th nothing is left; else the first n selected rows are skipped
def offset(n, rows):
    if n == 0: return rows
    if sum(rows) <= n: return []
    return [mark and sum(rows[:i]) >= n for i, mark in enumerate(rows)]

# the rows up to and with the n-th selected one, or all where fewer are selected; none for n = 0
def limit(n, rows):
    if n == 0: return []
    if sum(rows) < n: return rows
    return [mark for i, mark in enumerate(rows) if sum(rows[:i]) < n]

(first_name, first_filters), (second_name, second_filters) = surveys
xs_first, xs = survey_rows(first_filters)
ys_first, ys = survey_rows(second_filters)
both = [x and y for x, y in zip(xs, ys)]
either = [x or y for x, y in zip(xs, ys)]
rows = limit(last - (first - 1), offset(first - 1, either))

def runs_of(rows):
    runs = []
    for mark in rows:
        if runs and runs[-1][0] == mark: runs[-1][1] += 1
        else: runs.append([mark, 1])
    return runs

def print_step(what, rows, of):
    print(f'{what}: {sum(rows)} of {of} rows kept:' + ''.join(f" {'+' if mark else '-'}{n}" for mark, n in runs_of(rows)))

# a page holds the rows from its first row up to the next page's; the last page every row from its first on
def held(pages, k):
    end = pages[k + 1][2] if k + 1 < len(pages) else len(shots)
    return range(pages[k][2], end)

def wanted(pages):
    return [k for k in range(len(pages)) if any(i < len(rows) and rows[i] for i in held(pages, k))]

print(f'trip {name}: {len(shots)} shots')
print_step(f'survey {first_name}, first filter', xs_first, len(shots))
print_step(f'survey {first_name}, second filter', xs, sum(xs_first))
print_step(f'survey {second_name}, first filter', ys_first, len(shots))
print_step(f'survey {second_name}, second filter', ys, sum(ys_first))
print_step('both surveys', both, len(shots))
print_step('one survey or the other', either, len(shots))
print_step(f'shots {first} to {last}', rows, sum(either))
runs = runs_of(rows)
mask = not runs or len(rows) < len(runs) * threshold
print(f"strategy at threshold {threshold}: {'mask' if mask else 'selectors'}")
for label, pages in columns:
    ks = wanted(pages)
    ranges = ''.join(f' {pages[k][0]}..{pages[k][0] + pages[k][1]}' for k in ks)
    print(f'{label}: fetch {len(ks)} of {len(pages)} pages, {sum(pages[k][1] for k in ks)} of {sum(p[1] for p in pages)} bytes:{ranges}')
print('rows: # asked for, . not; pages by letter, capital where fetched')
for start in range(0, len(shots), 64):
    block = range(start, min(start + 64, len(shots)))
    print(f'{start:>12} ' + ''.join('#' if rows[i] else '.' for i in block if i < len(rows)))
    for label, pages in columns:
        ks, line = wanted(pages), ''
        for k in range(len(pages)):
            letter = chr(ord('A' if k in ks else 'a') + k % 26)
            line += letter * len([i for i in held(pages, k) if i in block])
        print(f'{label:>12} {line}')
print('runs and mask agree')
