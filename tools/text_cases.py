#!/usr/bin/env python3
"""A second reader of sequence text, written from docs/FORMAT.md and docs/REFUSALS.md alone, and the cases on which the
program text_cases is compared with it. Run from the top of the repository: it writes crates/text_cases/stdin and stdout."""
import random
import re

NUMBER = re.compile(rb'(0|-?[1-9][0-9]*)\Z')
RELATIONS = (b'lt', b'le', b'eq', b'ge', b'gt')
LAYERS = {1: 3, 2: 2, 3: 2, 4: 1, 5: 2, 6: 2, 7: 1, 8: 3, 9: 3, 10: 3, 11: 3}
HEAD = [(b'form', 1, 1), (b'autos', 1, 8), (b'clocks', 0, 16), (b'triggers', 0, 16), (b'chans', 0, 8)]
FIELDS = {b'var': 3, b'task': 3, b'set': 3, b'loc': 2, b'inv': 3, b'edge': 3, b'clk': 3, b'dif': 4, b'val': 3}
GUARDS = (b'clk', b'dif', b'val')


class Refused(Exception):
    def __init__(self, cause, line, column):
        self.report = (cause, LAYERS[cause], line, column)


class Field:
    def __init__(self, text, line, column):
        self.text, self.line, self.column = text, line, column

    def refuse(self, cause):
        raise Refused(cause, self.line, self.column)

    def number(self, low, high, text=None):
        text = self.text if text is None else text
        if not NUMBER.match(text):
            self.refuse(4)
        value = int(text)
        if not low <= value <= high:
            self.refuse(7)
        return value

    def reference(self, many, text=None):
        value = self.number(0, 255, text)
        if value >= many:
            self.refuse(9)
        return value

    def optional(self, many):
        return None if self.text == b'-' else self.reference(many)

    def word(self, words):
        if self.text not in words:
            self.refuse(6)

    def label(self, triggers, channels):
        if self.text == b'-':
            return
        letter, number = self.text[:1], self.text[1:]
        if letter == b't':
            self.reference(triggers, number)
        elif letter in (b's', b'r'):
            self.reference(channels, number)
        else:
            self.refuse(6)


class Reader:
    def __init__(self, text):
        self.text, self.at, self.line = text, 0, 0
        self.counts, self.variables, self.tasks, self.locations, self.edges = {}, 0, 0, [], 0
        self.owner, self.group = b'', {}

    def next_line(self):
        self.line += 1
        end = self.text.find(b'\n', self.at)
        if end < 0:
            raise Refused(2, self.line, 1)
        line = self.text[self.at:end]
        self.at = end + 1
        cut = line.find(b'=')
        if not 1 <= cut <= 8:
            raise Refused(2, self.line, 1)
        return line[:cut], line[cut + 1:]

    def fields(self, key, value, many):
        first = len(key) + 2
        parts = value.split(b',')
        if len(parts) != many:
            raise Refused(5, self.line, first)
        out, column = [], first
        for part in parts:
            out.append(Field(part, self.line, column))
            column += len(part) + 1
        return out

    def may_follow(self, key):
        whole = bool(self.locations) and self.locations[-1] == self.counts[b'autos'] - 1
        behind = {b'var': (b'',), b'task': (b'', b'task'), b'loc': (b'', b'task', b'loc'), b'set': (b'task', b'edge'), b'inv': (b'loc',)}
        if key in behind:
            return self.owner in behind[key]
        if key in (b'edge', b'edges'):
            return whole
        if key in GUARDS:
            return self.owner == b'edge' and not self.group['zero'] and not self.group['set']
        if key == b'zero':
            return self.owner == b'edge' and not self.group['set']
        return False

    def has_room(self, key):
        kind = 'guard' if key in GUARDS else key.decode('latin-1')
        most = {'var': 16, 'task': 16, 'loc': 64, 'edge': 128, 'set': 4, 'guard': 4, 'zero': 4, 'inv': 2}
        have = {'var': self.variables, 'task': self.tasks, 'loc': len(self.locations), 'edge': self.edges}
        return kind not in most or have.get(kind, self.group.get(kind, 0)) < most[kind]

    def read(self):
        if len(self.text) > 40960:
            raise Refused(1, 0, 0)
        for name, low, high in HEAD:
            key, value = self.next_line()
            if key != name:
                raise Refused(3, self.line, 1)
            self.counts[name] = self.fields(key, value, 1)[0].number(low, high)
        while not self.part():
            pass
        return self.at

    def part(self):
        key, value = self.next_line()
        if not self.may_follow(key):
            raise Refused(3, self.line, 1)
        if not self.has_room(key):
            raise Refused(8, self.line, 1)
        f = self.fields(key, value, FIELDS.get(key, 1))
        first = f[0].column
        clocks, variables = self.counts[b'clocks'], self.variables
        if key == b'var':
            low = f[0].number(-32768, 32767)
            f[2].number(low, f[1].number(low, 32767))
            self.variables += 1
        elif key == b'task':
            f[1].number(f[0].number(1, 1000000), 1000000)
            f[2].number(0, 255)
            self.tasks += 1
            self.owner, self.group = b'task', {'set': 0}
        elif key == b'set':
            f[0].reference(variables)
            f[1].optional(variables)
            f[2].number(-32768, 32767)
            self.group['set'] += 1
        elif key == b'loc':
            automaton = f[0].reference(self.counts[b'autos'])
            f[1].optional(self.tasks)
            last = self.locations[-1] if self.locations else -1
            if automaton not in (last, last + 1):
                raise Refused(10, self.line, first)
            self.locations.append(automaton)
            self.owner, self.group = b'loc', {'inv': 0}
        elif key == b'inv':
            f[0].reference(clocks)
            f[1].word(RELATIONS[:2])
            f[2].number(0, 10**9)
            self.group['inv'] += 1
        elif key == b'edge':
            start, end = (x.reference(len(self.locations)) for x in f[:2])
            f[2].label(self.counts[b'triggers'], self.counts[b'chans'])
            if self.locations[start] != self.locations[end]:
                raise Refused(10, self.line, first)
            self.edges += 1
            self.owner, self.group = b'edge', {'guard': 0, 'zero': 0, 'set': 0}
        elif key in (b'clk', b'val'):
            f[0].reference(clocks if key == b'clk' else variables)
            f[1].word(RELATIONS)
            f[2].number(*((0, 10**9) if key == b'clk' else (-32768, 32767)))
            self.group['guard'] += 1
        elif key == b'dif':
            f[0].reference(clocks)
            f[1].reference(clocks)
            f[2].word(RELATIONS)
            f[3].number(-10**9, 10**9)
            self.group['guard'] += 1
        elif key == b'zero':
            f[0].reference(clocks)
            self.group['zero'] += 1
        else:
            if f[0].number(0, 128) != self.edges:
                raise Refused(11, self.line, first)
            return True
        return False


def outcome(text):
    try:
        return 'read %d' % Reader(text).read()
    except Refused as refused:
        return 'refused=%d,%d,%d,%d' % refused.report


# ---- the cases

EXPOSURE = (b'form=1/autos=1/clocks=1/triggers=1/chans=0/var=0,2,0/task=3,5,1/set=0,0,1/loc=0,-/loc=0,-/inv=0,le,4/loc=0,0/'
            b'edge=0,1,t0/zero=0/edge=1,2,-/clk=0,ge,4/edge=2,0,-/val=0,ge,1/set=0,-,0/edges=3/').replace(b'/', b'\n')
ODD = [b'', b'-', b'-0', b'0', b'00', b'1', b'7', b'8', b'9', b'16', b'17', b'128', b'129', b'255', b'256', b'-1', b'1000000', b'1000001',
       b'1000000000', b'1000000001', b'-1000000000', b'-1000000001', b'32767', b'32768', b'-32768', b'-32769', b'4294967296',
       b'18446744073709551616', b'-18446744073709551616', b't', b't0', b't1', b's0', b'r0', b'r9', b't01', b't256', b't-1', b'tt0', b's+1',
       b'T0', b'lt', b'le', b'eq', b'ge', b'gt', b'ltt', b'+1', b'1x', b' 1', b'1 ']
LINES = [b'set=0,-,0', b'inv=0,le,3', b'zero=0', b'clk=0,lt,3', b'val=0,lt,3', b'dif=0,0,lt,3', b'loc=0,-', b'edge=0,0,-', b'edges=0', b'var=0,1,0',
         b'task=1,1,1', b'autos=1', b'order=fp', b'x=1', b'=1', b'toolongkey=1', b'eightkey=1', b'novalue', b'form=2', b'edge=', b'edges=', b'loc=0',
         b'va\x00=1', b'var\r=1', b'var=0,1,0\r', b'var=0=1']


def sequence(r):
    """A random good text."""
    automata, clocks, triggers, channels, variables, tasks = (r.randint(*x) for x in ((1, 4), (0, 4), (0, 3), (0, 3), (0, 4), (0, 3)))
    out = [b'form=1', b'autos=%d' % automata, b'clocks=%d' % clocks, b'triggers=%d' % triggers, b'chans=%d' % channels]

    def short():
        return r.choice([0, 1, -1, 5, 32767, -32768, r.randint(-99, 99)])

    def sets():
        for _ in range(r.randint(0, 4) if variables else 0):
            out.append(b'set=%d,%s,%d' % (r.randrange(variables), r.choice([b'-', b'%d' % r.randrange(variables)]), short()))

    for _ in range(variables):
        low = r.randint(-32768, 100)
        high = r.randint(low, 32767)
        out.append(b'var=%d,%d,%d' % (low, high, r.randint(low, high)))
    for _ in range(tasks):
        cost = r.choice([1, 3, 999999, 1000000])
        out.append(b'task=%d,%d,%d' % (cost, r.randint(cost, 1000000), r.choice([0, 1, 255])))
        sets()
    owners = []
    for a in range(automata):
        for _ in range(r.randint(1, 3)):
            owners.append(a)
            out.append(b'loc=%d,%s' % (a, r.choice([b'-'] + [b'%d' % x for x in range(tasks)])))
            for _ in range(r.randint(0, 2) if clocks else 0):
                out.append(b'inv=%d,%s,%d' % (r.randrange(clocks), r.choice(RELATIONS[:2]), r.choice([0, 4, 10**9])))
    edges = r.randint(0, 5)
    for _ in range(edges):
        start = r.randrange(len(owners))
        end = r.choice([i for i, a in enumerate(owners) if a == owners[start]])
        labels = [b'-'] + [b't%d' % x for x in range(triggers)] + [c + b'%d' % x for x in range(channels) for c in (b's', b'r')]
        out.append(b'edge=%d,%d,%s' % (start, end, r.choice(labels)))
        for _ in range(r.randint(0, 4)):
            kinds = ([b'clk', b'dif'] if clocks else []) + ([b'val'] if variables else [])
            if not kinds:
                break
            kind, relation = r.choice(kinds), r.choice(RELATIONS)
            if kind == b'clk':
                out.append(b'clk=%d,%s,%d' % (r.randrange(clocks), relation, r.choice([0, 4, 10**9])))
            elif kind == b'dif':
                out.append(b'dif=%d,%d,%s,%d' % (r.randrange(clocks), r.randrange(clocks), relation, r.choice([-10**9, 10**9, 0, -3])))
            else:
                out.append(b'val=%d,%s,%d' % (r.randrange(variables), relation, short()))
        for _ in range(r.randint(0, 4) if clocks else 0):
            out.append(b'zero=%d' % r.randrange(clocks))
        sets()
    out.append(b'edges=%d' % edges)
    return b'\n'.join(out) + b'\n'


def damaged(r, text):
    way, i = r.randint(0, 11), r.randrange(len(text))
    byte = bytes([r.choice(b'0123456789,=-tsr\n+ x\x00\xff')])
    if way == 0:
        return text[:i]
    if way == 1:
        return text[:i] + text[i + 1:]
    if way == 2:
        return text[:i] + byte + text[i:]
    if way == 3:
        return text[:i] + byte + text[i + 1:]
    if way == 11:
        return text + r.choice([b'', b'order=fp\n', b'\n', b'x'])
    lines = text.split(b'\n')[:-1]
    j = r.randrange(len(lines))
    if way == 4:
        lines.insert(j, lines[j])
    elif way == 5:
        del lines[j]
    elif way == 6:
        k = r.randrange(len(lines))
        lines[j], lines[k] = lines[k], lines[j]
    elif way == 10:
        lines.insert(j, r.choice(LINES))
    else:
        key, value = lines[j].split(b'=', 1)
        parts = value.split(b',')
        parts[r.randrange(len(parts))] = r.choice(ODD)
        lines[j] = key + b'=' + b','.join(parts)
    return b'\n'.join(lines) + b'\n'


def text(*lines):
    return b''.join(x + b'\n' for x in lines)


def cases():
    head = (b'form=1', b'autos=1', b'clocks=1', b'triggers=1', b'chans=1')
    tail = (b'loc=0,-', b'edges=0')
    yield b''
    for i in range(len(EXPOSURE) + 1):
        yield EXPOSURE[:i]
    # each limit at its edge and one over
    for many in (16, 17):
        yield text(*head, *[b'var=0,0,0'] * many, *tail)
        yield text(*head, *[b'task=1,1,0'] * many, *tail)
        yield text(b'form=1', b'autos=1', b'clocks=%d' % many, b'triggers=0', b'chans=0', *tail)
        yield text(b'form=1', b'autos=1', b'clocks=0', b'triggers=%d' % many, b'chans=0', *tail)
    for many in (4, 5):
        yield text(*head, b'var=0,0,0', b'task=1,1,0', *[b'set=0,0,0'] * many, *tail)
        for line in (b'clk=0,lt,1', b'dif=0,0,lt,1', b'val=0,lt,1', b'zero=0', b'set=0,-,0'):
            yield text(*head, b'var=0,0,0', b'loc=0,-', b'edge=0,0,-', *[line] * many, b'edges=1')
    for many in (2, 3):
        yield text(*head, b'loc=0,-', *[b'inv=0,lt,1'] * many, b'edges=0')
    for many in (64, 65):
        yield text(*head, *[b'loc=0,-'] * many, b'edges=0')
    for many in (128, 129):
        yield text(*head, b'loc=0,-', *[b'edge=0,0,-'] * many, b'edges=%d' % many)
    for many in (0, 1, 8, 9):
        yield text(b'form=1', b'autos=%d' % many, b'clocks=0', b'triggers=0', b'chans=%d' % many, *[b'loc=%d,-' % a for a in range(many)], b'edges=0')
    for d in (999999, 1000000, 1000001):
        yield text(*head, b'task=%d,%d,255' % (d, d), *tail)
        yield text(*head, b'task=1,%d,256' % d, *tail)
    # numbers of 1 to 30 digits, with and without a sign, in every field of each kind of line
    for digits in range(1, 31):
        for number in (b'9' * digits, b'1' + b'0' * (digits - 1), b'-' + b'9' * digits, b'0' + b'9' * digits):
            yield text(*head, b'var=0,%s,0' % number, *tail)
            yield text(*head, b'task=1,1,%s' % number, *tail)
            yield text(*head, b'loc=0,-', b'edge=0,0,t%s' % number, b'edges=1')
            yield text(*head, b'loc=0,-', b'edge=0,0,-', b'dif=0,0,lt,%s' % number, b'edges=1')
    for line in LINES:
        for i in range(6, EXPOSURE.count(b'\n') + 1):
            lines = EXPOSURE.split(b'\n')[:-1]
            yield text(*lines[:i], line, *lines[i:])
    for number in ODD:
        for line in (b'var=%s,1,0', b'var=0,%s,0', b'var=0,1,%s', b'task=%s,9,0', b'task=1,%s,0', b'task=1,9,%s', b'loc=%s,-', b'loc=0,%s'):
            yield text(*head, line % number, *tail)
        for line in (b'edge=%s,0,-', b'edge=0,%s,-', b'edge=0,0,%s'):
            yield text(*head, b'loc=0,-', line % number, b'edges=1')
        for line in (b'clk=%s,lt,1', b'clk=0,%s,1', b'clk=0,lt,%s', b'dif=%s,0,lt,1', b'dif=0,%s,lt,1', b'dif=0,0,%s,1', b'val=%s,lt,1', b'val=0,%s,1',
                     b'val=0,lt,%s', b'zero=%s', b'set=%s,-,0', b'set=0,%s,0', b'set=0,-,%s'):
            yield text(*head, b'var=0,0,0', b'loc=0,-', b'edge=0,0,-', line % number, b'edges=1')
        for line in (b'inv=%s,lt,1', b'inv=0,%s,1', b'inv=0,lt,%s'):
            yield text(*head, b'loc=0,-', line % number, b'edges=0')
        yield text(*head, b'loc=0,-', b'edges=%s' % number)
        for i in range(5):
            lines = list(head)
            lines[i] = lines[i].split(b'=')[0] + b'=' + number
            yield text(*lines, *tail)
    # the longest text that is not too long, and one byte more
    yield EXPOSURE + b'x' * (40960 - len(EXPOSURE))
    yield EXPOSURE + b'x' * (40961 - len(EXPOSURE))
    r = random.Random(20)
    for _ in range(250):
        good = sequence(r)
        yield good
        yield damaged(r, good)
        yield damaged(r, good)


def shown(text):
    return ''.join('/' if b == 10 else chr(b) if 33 <= b <= 126 and b not in b'/%' else '%%%02x' % b for b in text)


if __name__ == '__main__':
    seen = list(dict.fromkeys(cases()))
    with open('crates/text_cases/stdin', 'w') as out:
        out.writelines(shown(t) + '\n' for t in seen)
    with open('crates/text_cases/stdout', 'w') as out:
        out.writelines(outcome(t) + '\n' for t in seen)
    print(len(seen), 'cases')
