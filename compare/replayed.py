"""Writes what the program `test_vectors` is held to: its standard input and output.

    python3 compare/replayed.py compare/sample.txt sample/vectors.txt crates/test_vectors

The first lines of the two lists say what a line of each holds. crates/vector_fields says what a record is, and the functions that
crates/test_vectors calls which fields each kind has. Answers are those of the lists; nothing here computes one."""
import hashlib
import re
import sys

KINDS = {name: at for at, name in enumerate(
    'i64 i32 first span row adr und put64 put32 wrs wra une prn milli drift b2b b2b512 box txs'.split())}
KINDS.update(zip(('add', 'sub', 'add-in-place', 'sub-in-place'), range(32, 36)))
CALLS = 'append append-tx pop pop-tx spend unspend tally flush lists locate page'.split()
KINDS.update(zip(CALLS, range(48, 59)), run=64, load=65)
KINDS['go-on'] = 66
KINDS.update(zip(('to-second', 'to-first'), (67, 68)))
SUMMARY = ['summarize', 'append-summary', 'pop-summary', 'spend-summary', 'unspend-summary', 'tally-summary']
KINDS.update(zip(SUMMARY, [*range(59, 64), 69]))
FLAT = ['flat-append', 'flat-spend', 'flat-unspend', 'flat-pop']
KINDS.update(zip(FLAT, range(72, 76)))
BODIES = {1: 10, 2: 10, 3: 10, 4: 10, 5: 2, 6: 2, 7: 1, 8: 19, 9: 19}
RECORDS, KEY = {1: 10288, 2: 10326}, 32


# ---- fields

def coded(n):
    c = 2 * n if n >= 0 else -2 * n - 1
    out = b''
    while c >= 128:
        out += bytes([128 + c % 128])
        c //= 128
    return out + bytes([c])


def field(ns):
    """A list of numbers or bytes: its length, how many are given, and these; the last one stands for those like it behind it."""
    given = len(ns)
    while given > 1 and ns[given - 1] == ns[given - 2]:
        given -= 1
    body = bytes(ns[:given]) if isinstance(ns, bytes) else b''.join(map(coded, ns[:given]))
    return coded(len(ns)) + coded(given) + body


def row(first, second, count, other):
    lists = [coded(len(ns)) + b''.join(map(coded, ns)) for ns in (first, second)]
    return lists[0] + lists[1] + coded(count) + coded(other)


def numbered(*ns):
    return b''.join(map(coded, ns))


def record(kind, name, data):
    body = bytes([len(name.encode())]) + name.encode() + data
    return bytes([KINDS[kind]]) + len(body).to_bytes(2, 'big') + body


def listed(ns):
    return [len(ns)] + list(ns)


def held(nanos, ids, amounts, count):
    return coded(nanos) + field(ids) + field(amounts) + coded(count)


# ---- the sample of the reference's answers

def raw(text):
    return b'' if text == '-' else bytes.fromhex(text)


def number(data, signed=True):
    return int.from_bytes(data, 'big', signed=signed)


def numbers(data, signed=True):
    return [number(data[i:i + 8], signed) for i in range(0, len(data), 8)]


def sample_fields(name, ins):
    if name in ('i64', 'i32'):
        return coded(0) + field(ins[0])
    if name in ('row', 'adr'):
        return field([0] * 512) * 2 + field(ins[0])
    if name == 'wrs':
        txs, boxes = numbers(ins[0]), numbers(ins[1])
        counts = numbered(len(txs), len(boxes), number(ins[2]), number(ins[3]), 0)
        return counts + field(txs) + field(boxes) + field(bytes(10254))
    if name in ('box', 'txs'):
        return ins[0] + coded(number(ins[1]))
    if name == 'prn':
        heights = numbers(ins[0])
        return field(heights + [0] * (512 - len(heights))) + numbered(len(heights), 512, number(ins[1]), ins[2][0], number(ins[3]))
    if name in ('add', 'sub'):
        return b''.join(held(number(i[0]), i[1], numbers(i[2]), len(i[2]) // 8) for i in (ins[:3], ins[3:]))
    return ins[0]


def made(calls, answers):
    """How many calls, and the code of each with the number of an accepted pop."""
    words, count, at, taken = [], 0, 0, 0
    while at < len(calls):
        kind = calls[at]
        words.append(answers[taken])
        taken += 1
        if words[-1] == 0 and kind in (5, 6):
            words.append(number(answers[taken:taken + 8]))
            taken += 8
        at += BODIES[kind]
        count += 1
    assert (at, taken) == (len(calls), len(answers))
    return [count] + words


def sample_answer(name, ins, outs):
    if name in ('i64', 'i32', 'row', 'adr', 'und') and outs[0][0] != 0:
        return [outs[0][0]]
    if name in ('i64', 'i32'):
        return [0, number(outs[1]), number(outs[2])]
    if name == 'row':
        return [0] + listed(numbers(outs[1])) + listed(numbers(outs[2])) + [number(outs[3]), number(outs[4])]
    if name == 'adr':
        lists = [word for i in (5, 6, 7) for word in listed(numbers(outs[i]))]
        return [0, outs[1].hex(), outs[2][0], number(outs[3]), outs[4].hex()] + lists + [number(outs[8]), number(outs[9])]
    if name == 'und':
        return [0, outs[1][0], outs[2].hex(), number(outs[3], False), number(outs[4], False)]
    if name == 'prn':
        return [0] + listed(numbers(outs[0], False))
    if name in ('add', 'sub'):
        return [0, number(outs[0]), outs[1].hex()] + listed(numbers(outs[2]))
    if name == 'run':
        return made(ins[0], outs[0]) + numbers(outs[1])
    return [0, outs[0].hex()] if name == 'wrs' else [outs[0].hex()]


def from_sample(line):
    left, right = line.split(' = ')
    name, *words = left.split(' ')
    ins, outs = list(map(raw, words)), list(map(raw, right.split(' ')))
    return record(name, name, sample_fields(name, ins)), name, sample_answer(name, ins, outs)


# ---- the list of vectors

def words_of(text):
    """The words between spaces that stand in no bracket."""
    return re.findall(r'(?:[^\s\[{]|\[[^\]]*\]|\{[^}]*\})+', text)


def value(text):
    """A list of numbers, bytes or a number, as the first lines of the vectors say."""
    if text.startswith('['):
        out = []
        for word in text[1:-1].split():
            many, _, one = word.rpartition('*')
            first, _, last = one.partition('..')
            out += (list(range(int(first), int(last) + 1)) if last else [int(one)]) * int(many or 1)
        return out
    if text.startswith('id['):
        return b''.join(bytes([n]) + bytes(KEY - 1) for n in value(text[2:]))
    if text.startswith('seq['):
        step, first, many = map(int, text[4:-1].split())
        return bytes((step * i + first) % 256 for i in range(many))
    if '0x' in text:
        out = b''
        for word in text.split(','):
            many, _, one = word.rpartition('*')
            out += bytes.fromhex(one[2:]) * int(many or 1)
        return out
    return int(text)


def row_key(parent, text):
    kind, _, spill = text.rpartition('.')
    if not kind:
        return bytes([int(text)]) * KEY
    return hashlib.blake2b(f'{(bytes([parent]) * KEY).hex()} {kind} segment {spill}'.encode(), digest_size=KEY).digest()


def header(parent, text):
    """What a row of edition 2 says: 'box.0', or '4.box.0' for the parent of another byte."""
    *other, kind, number = text.split('.')
    return bytes([int(other[0]) if other else parent]) * KEY + bytes([1 if kind == 'box' else 2]) + coded(int(number))


def spill(edition, parent, text):
    """A record: its key, and its row as bytes '0x..', as numbers 'txs[..]boxes[..]' with counts of 0, or as a length only '#n'. In edition 2 the numbers stand
    behind the header of the key's spill, or, as any body behind 'SPILL/', of that one."""
    key, _, body = text.partition(':')
    if not body:
        return row_key(parent, key)
    if body.startswith('#'):
        return row_key(parent, key) + int(body[1:]).to_bytes(2, 'big') + bytes(RECORDS[edition] - 34)
    says, _, body = body.rpartition('/')
    found = re.fullmatch(r'txs(\[.*?\])boxes(\[.*?\])', body)
    data = row(value(found[1]), value(found[2]), 0, 0) if found else value(body)
    if says or (edition == 2 and found):
        data = header(parent, says or key) + data
    return row_key(parent, key) + len(data).to_bytes(2, 'big') + data + bytes(RECORDS[edition] - 34 - len(data))


def buffer(given, name, text):
    """'count/capacity', ':n' for other than the capacity borrowed, and '{record; record}': counts and bytes."""
    edition, parent = (int(given.get(word, none)) for word, none in (('edition', 1), ('parent', 3)))
    size = KEY if name == 'deleted' else RECORDS[edition]
    counts, _, inside = text.partition('{')
    counts, _, borrowed = counts.partition(':')
    count, capacity = map(int, counts.split('/'))
    data = b''.join(spill(edition, parent, one.strip()) for one in inside.rstrip('}').split(';')) if inside else b''
    return count, capacity, data + bytes(size * int(borrowed or capacity) - len(data))


def digest(data):
    return hashlib.blake2b(data, digest_size=32).hexdigest()


CHANGED = {'append': ['head', 'staged'], 'append-tx': ['head', 'staged'], 'pop': ['head', 'staged', 'deleted'],
           'pop-tx': ['head', 'staged', 'deleted'], 'spend': ['head', 'staged'], 'unspend': ['head', 'staged'],
           'flush': ['staged', 'table', 'deleted']}


def call_fields(given):
    parent = int(given.get('parent', 3))
    head = value(given.get('head', '[]'))
    count, room = int(given.get('len', len(head))), int(given.get('room', 512))
    out = bytes([int(given.get('edition', 1)), parent]) + field((head + [0] * 512)[:room]) + numbered(count, int(given.get('spills', 0)), int(given.get('number', 0)))
    for name in ('staged', 'table', 'deleted'):
        count, capacity, data = buffer(given, name, given.get(name, '0/1'))
        out += numbered(count, capacity) + field(data)
    return out


def page_fields(given):
    return coded(int(given.get('length', 64))) + field(value(given.get('page', '[64*7]')))


def summary_fields(given):
    numbers = value(given.get('summary', '[]'))
    lines = int(given.get('lines', len(numbers) // 5))
    return coded(lines) + field([n - 2**64 if n >= 2**63 else n for n in numbers])


def call_answer(kind, given, answer, after):
    words = list(answer)
    if answer[0] != '0':
        return words
    for name in CHANGED.get(kind.removesuffix('-summary'), []):
        text = after.get(name, given.get(name, '[]' if name == 'head' else '0/1'))
        words += listed(value(text)) if name == 'head' else [digest(buffer(given, name, text)[2])]
    return words


def vector_fields(kind, given):
    get = {name: value(text) for name, text in given.items()} if kind not in CALLS + SUMMARY else {}
    if kind in SUMMARY:
        return call_fields(given) + summary_fields(given)
    if kind in CALLS:
        return call_fields(given) + (page_fields(given) if kind == 'page' else b'')
    if kind in ('to-second', 'to-first'):
        return bytes([get.get('parent', 3), get.get('kind', 1)]) + coded(get.get('number', 0)) + field(get['row']) + field(get['out'])
    if kind in ('i64', 'i32'):
        return coded(get.get('at', 0)) + field(get['bytes'])
    if kind == 'span':
        return numbered(get['n'], get['at']) + field(get['bytes'])
    if kind in ('row', 'adr'):
        return field([0] * get.get('txs', 512)) + field([0] * get.get('boxes', 512)) + field(get['bytes'])
    if kind in ('put64', 'put32'):
        return numbered(get['number'], get.get('at', 0)) + field(get['out'])
    if kind in ('wrs', 'wra'):
        txs, boxes = get.get('txs', []), get.get('boxes', [])
        counts = numbered(get.get('n_txs', len(txs)), get.get('n_boxes', len(boxes)), get.get('box_count', 0), get.get('tx_count', 0), get.get('at', 0))
        balance = b''
        if kind == 'wra':
            balance = field(get['hash']) + coded(get['flag']) + held(get['nanos'], get['ids'], get['amounts'], get['count'])
        return balance + counts + field(txs) + field(boxes) + field(get['out'])
    if kind == 'une':
        return coded(get['known']) + field(get['header']) + field(get['out']) + get['txs'].to_bytes(8, 'big') + get['boxes'].to_bytes(8, 'big')
    if kind == 'prn':
        heights = get['heights']
        return field(heights) + numbered(get['count'], get['capacity'], get['current'], int('window' in get), get.get('window', 0))
    if kind == 'milli':
        return coded(get['nanos'])
    if kind == 'drift':
        return bytes([get['code']])
    if kind in ('box', 'txs'):
        return get['parent'] + coded(get['number'])
    if kind in ('add', 'sub', 'add-in-place', 'sub-in-place'):
        old = held(get['nanos'], get.get('ids', b''), get.get('amounts', []), get.get('count', len(get.get('amounts', []))))
        box = held(get['box_nanos'], get.get('box_ids', b''), get.get('box_amounts', []), get.get('box_count', len(get.get('box_amounts', []))))
        return old + box
    if kind in FLAT:
        return field(get['list'] + [0] * (get.get('room', 4096) - len(get['list']))) + numbered(get.get('count', len(get['list'])), get.get('number', 0))
    if kind in ('load', 'go-on'):
        counts = numbered(get['boxes'], get['txs']) if kind == 'go-on' else b''
        return field(get['out']) + numbered(get['state'], get['calls']) + counts
    return get['bytes']


def answer_words(text):
    """An answer's words; a list in brackets stands with its length, bytes as their hexadecimal digits."""
    for word in words_of(text):
        if '[' not in word and '0x' not in word:
            many, _, one = word.rpartition('*')
            yield from [one] * int(many or 1)
            continue
        found = value(word)
        yield from listed(found) if isinstance(found, list) else [found.hex()]


def from_vectors(line):
    name, rest = line.split(' | ')
    left, right = rest.split(' = ')
    kind, *words = words_of(left)
    given = dict(word.split('=', 1) for word in words)
    after = dict(word.split('=', 1) for word in words_of(right) if '=' in word)
    answer = list(answer_words(' '.join(word for word in words_of(right) if '=' not in word)))
    if kind in CALLS + SUMMARY:
        answer = call_answer(kind, given, answer, after)
    if kind in SUMMARY:
        # a second line: the numbers of the summary
        answer += [f'\n{name}:', 0] + value(after.get('summary', given.get('summary', '[]')))
    return record(kind, name, vector_fields(kind, given)), name, answer


def main(sample, vectors, folder):
    records, lines = b'', []
    for path, made_from in ((sample, from_sample), (vectors, from_vectors)):
        for line in open(path, encoding='utf-8'):
            if line.startswith('#') or not line.strip():
                continue
            data, name, words = made_from(line.rstrip('\n'))
            records += data
            lines.append(f"{name}: {' '.join(map(str, words))}\n".replace(' \n', '\n'))
    open(f'{folder}/stdin', 'wb').write(records)
    open(f'{folder}/stdout', 'w').write(''.join(lines))


main(*sys.argv[1:])
