#!/usr/bin/env python3
"""Writes `stdout`, what the program must write, from the paper and not from the program.

The rows' names and files are read out of `stdin` and src/main.rt; each answer is worked out here, by
a second reading of paper 01, "The term file" and "Numbered answers": terms are read left to right,
with the end of each part known, and scopes are kept as a set of names. The number that each row
starts with was written by hand, and is compared."""
import os, re, struct, sys

def refusal(s):
    if len(s) < 4: return 1
    f, n = struct.unpack('<HH', s[:4])
    if not (0 <= f <= 16384 and 1 <= n <= 16384): return 2
    if len(s) != 4 + 3 * n: return 3
    tags = s[4:4 + n]
    args = struct.unpack('<%dH' % n, s[4 + n:])
    if any(t > 2 for t in tags): return 4
    # 5: the part that starts at i must end at `end`; None where the end is not known yet
    todo, at = [n], 0                     # ends still to meet, innermost last
    while todo:
        end = todo.pop()
        if at >= end: return 5
        tag, arg = tags[at], args[at]
        at += 1
        if tag == 0:
            if at != end: return 5
        elif tag == 1:
            todo.append(end)
        else:
            if not at + arg < end: return 5
            todo.append(end)              # the right part, after the left
            todo.append(at + arg)
    # 6: "The abstractions bind f, f + 1 and so on in prefix order"
    if [a for t, a in zip(tags, args) if t == 1] != list(range(f, f + sum(t == 1 for t in tags))): return 6
    # 7: walk again, with the names bound around
    walk, at, around = [('part',)], 0, set()
    while walk:
        what = walk.pop()
        if what[0] == 'leave':
            around.discard(what[1])
            continue
        tag, arg = tags[at], args[at]
        at += 1
        if tag == 0:
            if not (arg < f or arg in around): return 7
        elif tag == 1:
            around.add(arg)
            walk += [('leave', arg), ('part',)]
        else:
            walk += [('part',), ('part',)]
    return 0

def answer(s):
    k = refusal(s)
    if k: return k, 'refused %d' % k
    f, n = struct.unpack('<HH', s[:4])
    t = s[4:4 + n]
    return 0, 'accepted, f %d, n %d, abstractions %d, variables %d, applications %d' % (f, n, t.count(1), t.count(0), t.count(2))

def file_of(f, nodes):
    return struct.pack('<HH', f, len(nodes)) + bytes(t for t, a in nodes) + b''.join(struct.pack('<H', a) for t, a in nodes)

def nodes_of(text):
    return [({'v': 0, 'l': 1, 'a': 2, 'x': 3, 'z': 255}[w[0]], int(w[1:])) for w in text.split()]

# the three nests over the variable 0, innermost first; where f is 0 an abstraction in front binds it
def nest(kind, f, n):
    front, first = ([(1, 0)], 1) if f == 0 else ([], f)
    m = n - len(front)
    if kind == 'Abstractions': body = [(1, first + i) for i in range(m - 1)] + [(0, 0)]
    elif kind == 'Right': body = ([(2, 1), (0, 0)] * m)[:m - 1] + [(0, 0)]
    else:
        apps = m // 2
        body = [(2, m - 2 * i - 2) for i in range(apps)] + [(0, 0)] * (m - apps)
    return f, front + body

here = os.path.dirname(os.path.abspath(__file__))
out = []
def row(name, s):
    number, text = answer(s)
    if number != int(name.split()[0]): print('%s: the paper says %d' % (name, number))
    out.append('%s: %s\n' % (name, text))

for line in open(os.path.join(here, 'stdin')):
    name, data = line.rstrip('\n').split(': ')
    if data[0] == 'x': row(name, bytes.fromhex(data[1:]))
    else: row(name, file_of(int(data.split()[0][1:]), nodes_of(data.split(' ', 1)[1])))

source = open(os.path.join(here, 'src', 'main.rt')).read()
source = re.sub(r'\(\s+', '(', re.sub(r',\s+', ', ', source))
for kind, name, rest in re.findall(r'\b(nest|changed)\(out, b"([^"]*)", ([^;]*)\)\?;', source):
    v = rest.rstrip(', ').split(', ')
    if kind == 'nest': row(name, file_of(*nest(v[0].split('::')[1], int(v[1]), int(v[2]))))
    else:
        f, nodes = nest('Abstractions', 0, 16384)
        nodes[int(v[0])] = (int(v[1]), int(v[2]))
        row(name, (file_of(f, nodes) + bytes(4))[:int(v[3])])
target = sys.argv[1] if len(sys.argv) > 1 else os.path.join(here, 'stdout')
open(target, 'w').write(''.join(out))
print('%d rows' % len(out))
