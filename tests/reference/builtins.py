"""The builtin functions."""
from .values import (Builtin, Closure, Exception_, Fault, Grid, LEAST, List, MAX_ELEMENTS, Range, Tuple, count_of, elements,
                     equal, is_bool, is_int, kinds, limited, wrap)


class Builtins:
    """What a task does with a builtin; `unit` and `apply` are the task's."""

    def builtin(self, name, a, calls):
        """The answer; one that is a list or grid costs a unit for each of its elements."""
        answer = self.answer(name, a, calls)
        if isinstance(answer, (List, Grid)):
            self.unit(count_of(answer))
        return answer

    def answer(self, name, a, calls):
        n = len(a)

        def count(k):
            kinds(lambda x: x == k, n)

        if name == '+' and n == 1:
            kinds(is_int, a[0])
            return a[0]
        if name in ('+', '-', '*'):
            count(2)
            kinds(is_int, *a)
            return wrap({'+': a[0] + a[1], '-': a[0] - a[1], '*': a[0] * a[1]}[name])
        if name == 'negate':
            count(1)
            kinds(is_int, *a)
            return wrap(-a[0])
        if name in ('div', 'rem', 'mod'):
            count(2)
            kinds(is_int, *a)
            if a[1] == 0 or (name == 'div' and a == [LEAST, -1]):
                raise Fault('Divide')
            quotient = abs(a[0]) // abs(a[1]) * (1 if (a[0] < 0) == (a[1] < 0) else -1)
            return {'div': quotient, 'rem': a[0] - quotient * a[1], 'mod': a[0] % a[1]}[name]
        if name in ('&', '|', 'xor'):
            count(2)
            if not (is_bool(a[0]) and is_bool(a[1])):
                kinds(is_int, *a)
            return {'&': a[0] & a[1], '|': a[0] | a[1], 'xor': a[0] ^ a[1]}[name]
        if name == '~':
            count(1)
            kinds(is_int, *a)
            return ~a[0]
        if name == '!':
            count(1)
            kinds(is_bool, *a)
            return not a[0]
        if name in ('==', '!='):
            count(2)
            return equal(a[0], a[1]) == (name == '==')
        if name in ('<', '<=', '>', '>='):
            count(2)
            kinds(is_int, *a)
            return {'<': a[0] < a[1], '<=': a[0] <= a[1], '>': a[0] > a[1], '>=': a[0] >= a[1]}[name]
        if name == ':':
            count(2)
            kinds(is_int, *a)
            return Range(a[0], a[1])
        if name == 'list':
            return limited(List(a))
        if name == 'tuple':
            return limited(Tuple(a))
        if name == 'grid':
            kinds(lambda t: isinstance(t, Tuple) and len(t.items) == len(a[0].items) and len(t.items) > 0, *a)
            rows = [t.items for t in a]
            for row in rows:
                kinds(is_int, *row)
            return limited(Grid([len(rows), len(rows[0])], [row[j] for j in range(len(rows[0])) for row in rows]))
        if name == 'index':
            return self.index(a)
        if name in ('abs', 'iseven', 'isodd'):
            count(1)
            kinds(is_int, *a)
            return {'abs': wrap(abs(a[0])), 'iseven': a[0] % 2 == 0, 'isodd': a[0] % 2 == 1}[name]
        if name in ('min', 'max'):
            count(2)
            kinds(is_int, *a)
            return min(a) if name == 'min' else max(a)
        if name == 'length':
            count(1)
            return wrap(count_of(a[0]))
        if name == 'size':
            count(1)
            if isinstance(a[0], Grid):
                return Tuple(list(a[0].dims))
            return Tuple([wrap(count_of(a[0]))])
        if name in ('sum', 'prod', 'maximum', 'minimum'):
            count(1)
            items = elements(a[0])
            if not isinstance(a[0], (Range, Grid)):
                kinds(is_int, *items)
            self.unit(count_of(a[0]))
            if name == 'sum':
                return wrap(sum(items))
            if name == 'prod':
                product = 1
                for i in items:
                    product = wrap(product * i)
                return product
            if len(items) == 0:
                raise Fault('Argument')
            return max(items) if name == 'maximum' else min(items)
        if name in ('map', 'filter', 'reduce'):
            return self.over_function(name, a, calls)
        is_row = lambda v: isinstance(v, (List, Range))
        if name == 'collect':
            count(1)
            kinds(is_row, a[0])
            self.unit(count_of(a[0]))
            return limited(self.row(a[0]))
        if name in ('first', 'last'):
            count(1)
            kinds(is_row, a[0])
            if isinstance(a[0], Range):
                return a[0].first if name == 'first' else a[0].last
            if not a[0].items:
                raise Fault('Bounds')
            return a[0].items[0 if name == 'first' else -1]
        if name == 'isempty':
            count(1)
            kinds(is_row, a[0])
            return count_of(a[0]) == 0
        if name == 'fill':
            count(2)
            kinds(is_int, a[1])
            if a[1] < 0 or a[1] > MAX_ELEMENTS:
                raise Fault('Argument')
            return limited(List([a[0]] * a[1]))
        if name == 'vcat':
            count(2)
            kinds(is_row, *a)
            if sum(count_of(v) for v in a) > MAX_ELEMENTS:
                raise Fault('Argument')
            return limited(List(list(elements(a[0])) + list(elements(a[1]))))
        if name == 'identity':
            count(1)
            return a[0]
        if name == 'error':
            count(1)
            kinds(lambda t: isinstance(t, str), a[0])
            raise Fault('Error', a[0])
        if name == 'throw':
            count(1)
            kinds(lambda e: isinstance(e, Exception_), a[0])
            raise Fault(*a[0].fault)
        if name == 'Array':
            count(1)
            kinds(lambda v: isinstance(v, (List, Range, Grid)), a[0])
            self.unit(count_of(a[0]))
            return limited(a[0] if isinstance(a[0], Grid) else self.row(a[0]))
        raise Fault('BadType')

    def row(self, v):
        if count_of(v) > MAX_ELEMENTS:
            raise Fault('Argument')
        return List(list(elements(v)))

    def over_function(self, name, a, calls):
        kinds(lambda x: x == 2, len(a))
        f, over = a
        kinds(lambda g: isinstance(g, (Closure, Builtin)), f)
        if name == 'filter':
            kinds(lambda v: isinstance(v, (List, Range)), over)
        items = elements(over)
        self.unit(count_of(over))
        if name == 'map':
            cells = [self.apply(f, [i], calls) for i in items]
            if isinstance(over, Grid):
                kinds(is_int, *cells)
                return limited(Grid(over.dims, cells))
            return limited(Tuple(cells)) if isinstance(over, Tuple) else limited(List(cells))
        if name == 'filter':
            kept = []
            for i in items:
                keep = self.apply(f, [i], calls)
                kinds(is_bool, keep)
                if keep:
                    kept.append(i)
            return limited(List(kept))
        if len(items) == 0:
            if isinstance(f, Builtin) and f.name in ('+', '*'):
                return 0 if f.name == '+' else 1
            raise Fault('Argument')
        total = items[0]
        for i in items[1:]:
            total = self.apply(f, [total, i], calls)
        return total

    def index(self, a):
        kinds(lambda x: x >= 1, len(a))
        x, picks = a[0], a[1:]
        dims = x.dims if isinstance(x, Grid) else [count_of(x)]
        kinds(lambda p: is_int(p) or isinstance(p, Range), *picks)
        if isinstance(x, Tuple):
            kinds(is_int, *picks)
        if len(picks) != len(dims):
            raise Fault('Bounds')
        for p, d in zip(picks, dims):
            first, last = (p, p) if is_int(p) else (p.first, p.last)
            if last >= first and not (1 <= first and last <= d):
                raise Fault('Bounds')
        if not isinstance(x, Grid):
            items, p = elements(x), picks[0]
            if is_int(p):
                return items[p - 1]
            if p.count() > MAX_ELEMENTS:
                raise Fault('Argument')
            return limited(List(list(items[p.first - 1:p.last] if p.count() else [])))
        axes = [[p] if is_int(p) else list(p.items()) for p in picks]
        cells = [0] * 0

        def offset(index):
            place, stride = 0, 1
            for i, d in zip(index, dims):
                place, stride = place + (i - 1) * stride, stride * d
            return place
        if all(is_int(p) for p in picks):
            return x.cells[offset(picks)]
        if len(axes) == 2:
            cells = [x.cells[offset((i, j))] for j in axes[1] for i in axes[0]]
        else:
            cells = [x.cells[offset((i, j, k))] for k in axes[2] for j in axes[1] for i in axes[0]]
        left = [len(s) for s, p in zip(axes, picks) if not is_int(p)]
        return limited(List(cells) if len(left) == 1 else Grid(left, cells))
