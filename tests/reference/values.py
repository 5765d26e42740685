"""Values, faults, their printed forms and sizes."""

STEP_UNITS = 10_000_000
MAX_ELEMENTS = 262_144
MAX_WORDS = 1_048_576
MAX_DEPTH = 64
MAX_CALLS = 20
LEAST, GREATEST = -(1 << 63), (1 << 63) - 1


def wrap(n):
    return (n + (1 << 63)) % (1 << 64) - (1 << 63)


class Fault(Exception):
    def __init__(self, *what):
        self.what = what


class Range:
    def __init__(self, first, last):
        self.first, self.last = first, last if last >= first else first - 1

    def count(self):
        return self.last - self.first + 1

    def items(self):
        return range(self.first, self.last + 1)


class List:
    def __init__(self, items):
        self.items = items


class Tuple:
    def __init__(self, items):
        self.items = items


class Grid:
    def __init__(self, dims, cells):
        self.dims, self.cells = dims, cells


class Exception_:
    def __init__(self, fault):
        self.fault = fault


class Future:
    def __init__(self, owner, outcome):
        self.owner, self.outcome = owner, outcome


class Builtin:
    def __init__(self, name):
        self.name = name


class Closure:
    def __init__(self, body, kept, name=None):
        self.body, self.kept, self.name = body, kept, name


def is_int(v):
    return isinstance(v, int) and not isinstance(v, bool)


def shown_fault(f):
    kind = f[0]
    if kind == 'Error':
        return 'ErrorException(' + quoted(f[1]) + ')'
    if kind == 'Undef':
        return 'UndefVarError(:' + f[1] + ')'
    if kind == 'Exited':
        return 'ProcessExitedException(%d)' % f[1]
    if kind == 'Remote':
        return 'RemoteException(%d, %s)' % (f[1], shown_fault(f[2]))
    return {'Divide': 'DivideError()', 'Bounds': 'BoundsError()', 'BadType': 'TypeError()', 'Argument': 'ArgumentError()',
            'Invalid': 'InvalidStateException()', 'Budget': 'BudgetError()', 'Deep': 'StackOverflowError()'}[kind]


def quoted(text):
    return '"' + ''.join({'"': '\\"', '\\': '\\\\', '\n': '\\n', '\t': '\\t', '$': '\\$'}.get(c, c) for c in text) + '"'


def shown(v, inside=False):
    if v is None:
        return 'nothing'
    if v is True or v is False:
        return 'true' if v else 'false'
    if isinstance(v, int):
        return str(v)
    if isinstance(v, str):
        return quoted(v) if inside else v
    if isinstance(v, Range):
        return '%d:%d' % (v.first, v.last)
    if isinstance(v, List):
        inner = ', '.join(shown(i, True) for i in v.items)
        return ('' if v.items and all(is_int(i) for i in v.items) else 'Any') + '[' + inner + ']'
    if isinstance(v, Tuple):
        return '(' + ', '.join(shown(i, True) for i in v.items) + (',)' if len(v.items) == 1 else ')')
    if isinstance(v, Grid):
        if not v.cells:
            return 'Array(' + ', '.join(map(str, v.dims)) + ')'
        rows, columns = v.dims[0], v.dims[1]
        slabs = []
        for k in range(v.dims[2] if len(v.dims) == 3 else 1):
            at = lambda i, j: v.cells[i + rows * (j + columns * k)]
            slabs.append('; '.join(' '.join(str(at(i, j)) for j in range(columns)) for i in range(rows)))
        return '[' + ';;; '.join(slabs) + ']'
    if isinstance(v, Future):
        return 'Future(%d)' % v.owner
    if isinstance(v, Exception_):
        return shown_fault(v.fault)
    return 'function'


def text_words(t):
    return (len(t.encode()) + 7) // 8


def fault_words(f):
    return 1 + (text_words(f[1]) if f[0] in ('Error', 'Undef') else fault_words(f[2]) if f[0] == 'Remote' else 0)


def words(v):
    if isinstance(v, str):
        return 1 + text_words(v)
    if isinstance(v, (List, Tuple)):
        return 1 + sum(words(i) for i in v.items)
    if isinstance(v, Grid):
        return 1 + len(v.cells)
    if isinstance(v, Exception_):
        return 1 + fault_words(v.fault)
    if isinstance(v, Closure):
        return 1 + sum(words(x) for x in v.kept.values())
    return 1


def fault_depth(f):
    return 1 + (fault_depth(f[2]) if f[0] == 'Remote' else 0)


def depth(v):
    if isinstance(v, (List, Tuple)):
        return 1 + max((depth(i) for i in v.items), default=0)
    if isinstance(v, Exception_):
        return 1 + fault_depth(v.fault)
    if isinstance(v, Closure):
        return 1 + max((depth(x) for x in v.kept.values()), default=0)
    return 1


def limited(v):
    if isinstance(v, List) and len(v.items) > MAX_ELEMENTS or words(v) > MAX_WORDS:
        raise Fault('Argument')
    if depth(v) > MAX_DEPTH:
        raise Fault('Deep')
    return v


def equal(a, b):
    if isinstance(a, int) and isinstance(b, int):
        return int(a) == int(b)
    if isinstance(a, (Range, List)) and isinstance(b, (Range, List)):
        if isinstance(a, Range) and isinstance(b, Range):
            return a.count() == b.count() and (a.count() == 0 or a.first == b.first)
        x, y = elements(a), elements(b)
        return count_of(a) == count_of(b) and all(equal(i, j) for i, j in zip(x, y))
    if type(a) is not type(b):
        return False
    if isinstance(a, Tuple):
        return len(a.items) == len(b.items) and all(equal(i, j) for i, j in zip(a.items, b.items))
    if isinstance(a, Grid):
        return a.dims == b.dims and a.cells == b.cells
    if isinstance(a, Exception_):
        return a.fault == b.fault
    if isinstance(a, Builtin):
        return a.name == b.name
    if isinstance(a, Closure):
        return a is b or (a.name is not None and a.name == b.name) or (a.name is None and b.name is None and a.body is b.body
                                                                     and a.kept.keys() == b.kept.keys() and all(equal(a.kept[k], b.kept[k]) for k in a.kept))
    return a == b


def count_of(v):
    """How many elements a collection has; Python's own `len` ends at 2^63."""
    return v.count() if isinstance(v, Range) else len(elements(v))


def elements(v):
    if isinstance(v, Range):
        return v.items()
    if isinstance(v, (List, Tuple)):
        return v.items
    if isinstance(v, Grid):
        return v.cells
    raise Fault('BadType')


def kinds(test, *values):
    for v in values:
        if not test(v):
            raise Fault('BadType')


def is_bool(v):
    return v is True or v is False
