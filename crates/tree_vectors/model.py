#!/usr/bin/env python3
"""A small model of trees in words. Writes the cases to `stdin` and the lines that they must give to `stdout`, both beside this file.

    python3 crates/tree_vectors/model.py

A tree is (name, kind, sign, low, high, width, [parts]); an array's or a structure's low is not stored but counted when it is written
out. The answers come from trees where there are trees (a part is replaced in a list, then the whole is written out), and from a reader
that goes down part by part where the words may be anything.
"""
import os
import random
import sys

sys.setrecursionlimit(10000)
random.seed(1)
MOST = 2048
MODULUS = 4294967291
SAME = 4294967295
last = None
lines_in, lines_out = [], []


# ---- trees
def leaf(name=0, kind=1, low=5):
    return (name, kind, random.randrange(2), low, random.choice([0, 0, 3, 4294967295]), random.randrange(2), [])


def branch(kind, parts, name=0):
    return (name, kind, 0, None, 0, 0, parts)


def array(parts, name=0):
    return branch(13, parts, name)


def structure(parts, name=0):
    return branch(14, parts, name)


def size(t):
    return 1 + sum(size(p) for p in t[6])


def written(t):
    name, kind, sign, low, high, width, parts = t
    out = [name, kind, sign, len(parts) if kind >= 13 else low, high, width]
    for p in parts:
        out += written(p)
    return out


def run(ts):
    return [w for t in ts for w in written(t)]


def named(t, name):
    return (name,) + t[1:]


def chain(n, kind=14):
    t = leaf(9, 0)
    for i in range(n - 1):
        t = branch(kind if i % 2 else 27 - kind, [t], i + 1)
    return t


def some_tree(n, name):
    """A tree of n nodes, its shape by chance."""
    if n == 1:
        return leaf(name, random.randrange(13), random.choice([0, 1, 2, 4294967295]))
    left, parts = n - 1, []
    while left:
        k = random.randrange(1, left + 1)
        parts.append(some_tree(k, random.randrange(1, 6)))
        left -= k
    return branch(random.choice([13, 14]), parts, name)


# ---- reading words that may be anything
def end_of(words, at):
    if at + 6 > len(words):
        return None
    kind, low = words[at + 1], words[at + 3]
    if kind > 14:
        return None
    return ends(words, at + 6, low if kind >= 13 else 0)


def ends(words, at, count):
    while count:
        at = end_of(words, at)
        if at is None:
            return None
        count -= 1
    return at


# ---- lines
def total(words):
    t = 7
    for w in words:
        t = (t * 1000003 + w) % MODULUS
    return t


def case(function, words, args, answer):
    global last
    args = (list(args) + [0] * 8)[:8]
    same = words == last
    lines_in.append(' '.join(map(str, [function, SAME if same else len(words)] + args + ([] if same else words))))
    last = words
    lines_out.append('%d %s ' % (function, answer))


def extent(e):
    return 'not' if e is None else 'ends %d' % e


def whole(words, at):
    case(1, words, [at], extent(end_of(words, at)))


def after(words, at, count):
    case(2, words, [at, count], extent(ends(words, at, count)))


def is_tree(words, at, nodes):
    part = words[at:at + 6 * nodes]
    right = len(part) == 6 * nodes and end_of(part, 0) == 6 * nodes
    case(3, words, [at, nodes], 'yes' if right else 'no')


def value(words, at):
    answer = 'not'
    if at + 6 <= len(words):
        kind, low = words[at + 1], words[at + 3]
        if kind < 13:
            answer = 'leaf'
        elif kind < 15:
            answer = ('array %d' if kind == 13 else 'structure %d') % low
    case(4, words, [at], answer)


def find(words, at, name):
    answer = 'nothing'
    if at + 6 <= len(words) and words[at + 1] == 14:
        p = at + 6
        for _ in range(words[at + 3]):
            e = end_of(words, p)
            if e is None:
                break
            if words[p] == name:
                answer = 'at %d %d' % (p, e)
                break
            p = e
    case(5, words, [at, name], answer)


def nth_answer(words, at, i):
    b = ends(words, at, i)
    e = None if b is None else end_of(words, b)
    return 'nothing' if e is None else 'at %d %d' % (b, e)


def part(words, at, i):
    answer = 'nothing'
    if at + 6 <= len(words) and words[at + 1] >= 13 and i < words[at + 3]:
        answer = nth_answer(words, at + 6, i)
    case(6, words, [at, i], answer)


def nth(words, at, i):
    case(7, words, [at, i], nth_answer(words, at, i))


def read(words, at):
    inside = at + 6 <= len(words)
    case(8, words, [at], ' '.join(map(str, words[at:at + 6])) if inside else 'past')


def limits():
    for n in [0, 1, 2047, 2048, 2049, 4294967295]:
        case(11, [], [n], 'yes' if n <= MOST else 'no')
    for a in [0, 1, 1000, 2046, 2047, 2048, 2049, 4294967295]:
        for b in [0, 1, 1046, 1047, 1048, 2046, 2047, 2048, 4294967295]:
            case(12, [], [a, b], 'yes' if 1 + a + b <= MOST else 'no')
    for a in [0, 1, 2, 23, 89, 90, 1023, 1024, 2047, 2048, 4294967295]:
        for b in [0, 1, 2, 23, 88, 89, 90, 1023, 2047, 2048, 4294967295]:
            case(13, [], [a, b], 'yes' if 1 + a * b <= MOST else 'no')
    for places, made, before in [(9, 0, 0), (9, 8, 30), (9, 9, 2046), (9, 10, 2047), (4294967295, 0, 2048)]:
        for values, nodes in [(0, 0), (1, 1), (1, 2), (2, 1), (4294967295, 1), (1, 4294967295)]:
            adds(places, made, before, values, nodes)
            for times in [0, 1, 2, 8, 9, 10, 2047]:
                copies(times, places, made, before, values, nodes)
    # too large and too many at the same copy, and each one copy before the other
    for times, places, values, nodes in [(3, 4, 2, 1023), (4, 4, 2, 682), (4, 5, 2, 682), (4, 6, 2, 682), (2047, 2047, 1, 1), (2048, 2048, 1, 1), (2048, 2047, 1, 1)]:
        copies(times, places, 0, 0, values, nodes)


def added(places, values, nodes):
    """Whether so many values of so many nodes fit in the places under one head: its nodes are counted first."""
    return 'large' if 1 + nodes > MOST else 'many' if values > places else 'fits'


def adds(places, made, before, values, nodes):
    case(14, [], [places, made, before, values, nodes], added(places, made + values, before + nodes))


def copies(times, places, made, before, values, nodes):
    steps = [added(places, made + k * values, before + k * nodes) for k in range(1, times + 1)]
    case(15, [], [times, places, made, before, values, nodes], next((a for a in steps if a != 'fits'), 'fits'))


def wrote(function, words, args, at, new, inside, yes=None):
    """`new` over the words at `at`, where they are inside."""
    after = words[:at] + new + words[at + len(new):] if inside else words
    answer = (yes or 'ends %d' % (at + len(new))) if inside else ('no' if yes else 'not')
    case(function, words, args, '%s %d' % (answer, total(after)))


def leaf_at(words, at, node):
    wrote(21, words, [at] + node, at, [0] + node, at + 6 <= len(words))


def head_at(words, at, kind, count):
    wrote(kind + 9, words, [at, count], at, [0, kind, 0, count, 0, 0], at + 6 <= len(words))


def name_at(words, at, name):
    wrote(24, words, [at, name], at, [name], at + 6 <= len(words), 'yes')


def copy(words, a, n, at):
    wrote(25, words, [a, n, at], at, words[a:a + n], a + n <= len(words) and at + n <= len(words))


def shift(words, a, n, to):
    inside = a + n <= len(words) and to + n <= len(words) and (to <= a or a + n <= to)
    wrote(26, words, [a, n, to], to, words[a:a + n], inside)


def gather(words, a, nodes, at, before):
    n = 6 * nodes
    if 1 + before + nodes > MOST:
        case(27, words, [a, nodes, at, before], 'large %d' % total(words))
    else:
        wrote(27, words, [a, nodes, at, before], at, words[a:a + n], a + n <= len(words) and at + n <= len(words))


def repeat(words, at, nodes, times):
    n = 6 * nodes
    if 1 + times * nodes > MOST:
        case(28, words, [at, nodes, times], 'large %d' % total(words))
    else:
        wrote(28, words, [at, nodes, times], at, words[at:at + n] * times, at + n <= len(words) and at + n * times <= len(words))


def replace(prefix, tree, i, fresh, gap, room, name=None):
    """Part i of a tree that stands behind `prefix` words gives way to a tree behind a gap."""
    words = [random.randrange(99) for _ in range(prefix)] + written(tree)
    words += [random.randrange(99) for _ in range(gap)]
    at = len(words)
    words += written(fresh) + [random.randrange(9) for _ in range(room)]
    replace_in(words, prefix, tree, i, at, fresh, name)


def replace_in(words, prefix, tree, i, at, fresh, name=None):
    """Part i of the tree behind `prefix` words gives way to the tree at `at`."""
    t = (prefix, prefix + len(written(tree)))
    begin = prefix + 6 + len(run(tree[6][:i]))
    p = (begin, begin + len(written(tree[6][i])))
    f = (at, at + len(written(fresh)))
    tail = t[1] - p[1]
    args = list(t + p + f) + [f[1] + tail, name or 0]
    put = fresh if name is None else named(fresh, name)
    grown = tree[:6] + (tree[6][:i] + [put] + tree[6][i + 1:],)
    function = 31 if name is None else 32
    if size(grown) > MOST:
        case(function, words, args, 'large %d' % total(words))
    elif f[1] + tail > len(words):
        case(function, words, args, 'not %d' % total(words))
    else:
        new = words[:prefix] + written(grown)
        case(function, words, args, 'ends %d %d %d' % (len(new), total(new), total(words[f[1] + tail:])))


def disordered():
    """Places that are not one behind the other: nothing is written."""
    words = written(structure([leaf(1), leaf(2)])) + written(leaf(3)) + [7] * 12
    right = [0, 18, 6, 12, 18, 24]
    for i in range(6):
        for v in [0, 3, 9, 15, 21, 30, 4294967295]:
            a = list(right)
            a[i] = v
            if not a[0] <= a[2] <= a[3] <= a[1] <= a[4] <= a[5]:
                case(31, words, a + [a[5] + a[1] - a[3], 0], 'not %d' % total(words))


# ---- the cases
def corpus():
    yield leaf()
    for kind in range(15):
        yield leaf(kind, kind, 3) if kind < 13 else branch(kind, [], kind)
    yield array([leaf() for _ in range(5)])
    yield structure([leaf(1), array([leaf(), leaf()], 2), structure([leaf(1), leaf(2)], 3), leaf(2)])
    yield chain(40)
    yield structure([array([], i) for i in range(1, 9)])
    for n in [2, 3, 5, 8, 13, 21, 34, 55]:
        yield some_tree(n, 1)


def reading():
    for t in corpus():
        w, n = written(t), size(t)
        for before in [0, 7]:
            words = [random.randrange(20) for _ in range(before)] + w + [random.randrange(99) for _ in range(random.randrange(9))]
            whole(words, before)
            is_tree(words, before, n)
            is_tree(words, before, n + 1)
            is_tree(words, before, n - 1)
            value(words, before)
            read(words, before)
        for i in range(min(len(t[6]), 6) + 2):
            part(w, 0, i)
        for name in range(5):
            find(w, 0, name)
        for at in range(1, min(len(w), 13), 2):
            whole(w, at)
            value(w, at)
            find(w, at, 1)
        two = w + w + w[:-1]
        for k in range(4):
            after(two, 0, k)
            nth(two, 0, k)


def lying():
    """Counts and kinds that are wrong, words that end too early."""
    for t in corpus():
        w = written(t)
        for cut in [1, 6, len(w) // 2]:
            whole(w[:len(w) - cut], 0)
            find(w[:len(w) - cut], 0, 2)
        for _ in range(2):
            k = 6 * random.randrange(len(w) // 6)
            for place, v in [(1, 14), (1, 15), (1, 4294967295), (3, w[k + 3] + 1), (3, max(w[k + 3] - 1, 0)), (3, 4294967295), (3, 2147483648)]:
                x = list(w)
                x[k + place] = min(v, 4294967295)
                whole(x, 0)
                is_tree(x, 0, len(x) // 6)
                find(x, 0, 3)
                part(x, 0, 1)
    for words in [[0, 0, 0, 0, 0, 0], [1, 14, 3, 4, 5, 6], []]:
        for at in [0, 1, 5, 6, 7, 4294967295]:
            whole(words, at)
            read(words, at)
            value(words, at)
            find(words, at, 0)
            part(words, at, 0)
            for nodes in [0, 1, 4294967295]:
                is_tree(words, at, nodes)


def writing():
    base = list(range(100, 130))
    for at in [0, 1, 6, 23, 24, 25, 30, 4294967295]:
        leaf_at(base, at, [8, 1, 4294967295, 17, 1])
        head_at(base, at, 13, 4294967295)
        head_at(base, at, 14, 3)
        name_at(base, at, 77)
    for a, n, at in [(0, 6, 6), (0, 6, 24), (0, 7, 24), (3, 9, 0), (25, 6, 0), (0, 0, 30), (0, 0, 31), (30, 0, 0), (0, 30, 0), (4294967295, 1, 0), (0, 4294967295, 1)]:
        copy(base, a, n, at)
        shift(base, a, n, at)
    for a, n, at in [(6, 12, 3), (3, 6, 8), (3, 6, 9), (3, 6, 3), (12, 18, 0)]:
        shift(base, a, n, at)
    for before in [0, 2046, 2047, 4294967295]:
        gather(base, 0, 1, 24, before)
        gather(base, 18, 2, 0, before)
    gather(base, 0, 4294967295, 0, 0)
    gather(base, 0, 6, 0, 0)
    for nodes, times in [(1, 0), (1, 1), (1, 4), (1, 5), (2, 2), (2, 3), (0, 5), (0, 4294967295), (4294967295, 0), (5, 0), (3, 683), (1, 2048), (4294967295, 4294967295)]:
        repeat(base, 0, nodes, times)
        repeat(base, 6, nodes, times)
        repeat(base, 7, nodes, times)


def replacing():
    parts = [leaf(1), array([leaf(), leaf(), leaf()], 2), structure([leaf(1), leaf(2)], 3), leaf(4), chain(7)]
    news = [leaf(8), array([leaf() for _ in range(9)], 8), structure([], 8), some_tree(12, 8)]
    for i in range(5):
        for u in news:
            for gap, room in [(0, 120), (7, 120), (0, 0), (0, 60)]:
                replace(random.choice([0, 6, 11]), branch(random.choice([13, 14]), parts, 5), i, u, gap, room, random.choice([None, 6]))
    replace(0, structure([leaf(1)]), 0, leaf(2), 0, 0)
    disordered()


def large():
    """At the limit of 2,048 nodes: wide, deep, a part that just fits and one node more."""
    wide = structure([leaf(i + 1) for i in range(2047)])
    w = written(wide)
    whole(w, 0)
    is_tree(w, 0, 2048)
    find(w, 0, 2047)
    find(w, 0, 2048)
    part(w, 0, 2046)
    part(w, 0, 2047)
    deep = written(chain(2048))
    whole(deep, 0)
    is_tree(deep, 0, 2048)
    is_tree(deep, 0, 2047)
    replace(0, wide, 0, leaf(9), 0, 12276)
    replace(0, wide, 0, array([leaf()], 9), 0, 0)
    few = structure([leaf(1), some_tree(20, 2), leaf(3)])
    replace(6, few, 1, some_tree(2045, 4), 0, 6, 7)
    replace(6, few, 1, some_tree(2046, 4), 0, 6)
    many = structure([leaf(1), some_tree(2000, 2)] + [leaf(3) for _ in range(46)])
    replace(6, many, 1, leaf(4), 6, 276)
    zeros = written(array([leaf(), leaf()])) + [0] * 12270
    repeat(zeros, 6, 2, 1023)
    repeat(zeros, 0, 3, 682)
    repeat(zeros, 0, 3, 683)
    for nodes, times in [(1, 2047), (1, 2048), (23, 89), (2, 1024)]:
        repeat(zeros, 0, nodes, times)
        repeat(zeros, 6, nodes, times)
    base = list(range(30))
    for at in [0, 12, 24]:
        for nodes, before in [(1, 2046), (1, 2047), (0, 2047), (0, 2048)]:
            gather(base, 6, nodes, at, before)
    at_the_limit()


def at_the_limit():
    """The first, the middle and the last part give way to a tree that makes the whole 2,048 nodes large, and to the tree around it."""
    tree = structure([some_tree(4, 1), some_tree(4, 2), some_tree(4, 3)])
    inner = some_tree(2039, 4)
    outer = structure([inner], 5)
    at = len(written(tree))
    words = written(tree) + written(outer) + [8] * 48
    for i in range(3):
        for name in [None, 6]:
            replace_in(words, 0, tree, i, at + 6, inner, name)
            replace_in(words, 0, tree, i, at, outer, name)


def main():
    limits()
    reading()
    lying()
    writing()
    replacing()
    large()
    here = os.path.dirname(os.path.abspath(__file__))
    with open(os.path.join(here, 'stdin'), 'w') as f:
        f.write('\n'.join(lines_in) + '\n')
    with open(os.path.join(here, 'stdout'), 'w') as f:
        f.write('\n'.join(lines_out) + '\n')


main()
