"""Lowering: to trees whose nodes and statements each take a unit."""
from .values import GREATEST, LEAST


class Refused(Exception):
    def __init__(self, token, kind):
        self.line, self.kind = token.line, kind


BINARY = {'+': '+', '-': '-', '*': '*', '÷': 'div', '%': 'rem', '&': '&', '|': '|', '⊻': 'xor', '==': '==', '!=': '!=', '<': '<',
          '<=': '<=', '>': '>', '>=': '>=', ':': ':'}
BUILTINS = set('div rem mod xor abs min max iseven isodd length size sum prod maximum minimum map filter reduce collect first last '
               'isempty fill vcat identity error throw typemax typemin Array'.split())
OPERATIONS = {'myid': 't', 'remotecall': '', 'fetch': 't', 'println': 'm', 'remotecall_fetch': ''}
ARRAY_CALLS = set('map reduce sum prod maximum minimum Array'.split())


class Place:
    """Where an expression stands: what is bound round it, whether effects are refused, whether array calls run first."""

    def __init__(self, scope, quiet, arrays):
        self.scope, self.quiet, self.arrays = scope, quiet, arrays

    def silent(self):
        return Place(self.scope, True, False)


class Lowering:
    def __init__(self, tree):
        self.tree = tree
        self.all_functions = {s[1].text for s in tree if s[0] == 'def'}
        self.loud, self.functions, self.bodies = {}, {}, 0

    # names that a body binds, without those of bodies inside it
    def bound_in(self, lines):
        names = set()
        for s in lines:
            self.bound_by(s, names)
        return names

    def bound_by(self, s, names):
        kind = s[0]
        if kind in ('set', 'push'):
            names.add(s[1].text)
            self.bound_of(s[2], names)
        elif kind == 'unset':
            names.add(s[1].text)
        elif kind in ('value', 'return'):
            self.bound_of(s[1], names)
        elif kind == 'if':
            for test, block in s[1]:
                self.bound_of(test, names)
                for line in block:
                    self.bound_by(line, names)
            for line in s[2]:
                self.bound_by(line, names)
        elif kind == 'while':
            self.bound_of(s[1], names)
            for line in s[2]:
                self.bound_by(line, names)
        elif kind == 'for':
            names.add(s[1].text)
            self.bound_of(s[2], names)
            for line in s[3]:
                self.bound_by(line, names)
        elif kind == 'try':
            if s[2]:
                names.add(s[2].text)
            for line in s[1] + s[3]:
                self.bound_by(line, names)

    def bound_of(self, x, names):
        kind = x[0]
        if kind == 'comprehension':
            for name, over in x[2]:
                names.add(name.text)
                self.bound_of(over, names)
            self.bound_of(x[1], names)
        elif kind == 'spawn':
            self.bound_of(x[2], names)
        elif kind == 'lambda':
            pass
        else:
            for part in x[1:]:
                if isinstance(part, tuple):
                    self.bound_of(part, names)
                elif isinstance(part, list):
                    for p in part:
                        if isinstance(p, tuple) and isinstance(p[0], str):
                            self.bound_of(p, names)
                        elif isinstance(p, list):
                            for q in p:
                                self.bound_of(q, names)

    def role(self, place, name):
        if name.text in place.scope:
            return 'variable'
        if name.text in self.all_functions:
            if name.text not in self.functions:
                return 'later'
            return 'loud' if self.loud[name.text] else 'quiet'
        if name.text in OPERATIONS:
            return 'operation'
        if name.text in BUILTINS:
            return 'builtin'
        return 'variable'

    def program(self):
        main = Place(self.bound_in([s for s in self.tree if s[0] != 'def']), False, True)
        body = Draft()
        for s in self.tree:
            if s[0] == 'def':
                self.define(s)
            else:
                self.line(main, body, s)
        return body.out

    def define(self, s):
        _, name, params, lines = s
        if name.text in self.functions:
            raise Refused(name, 'Twice')
        scope = {p.text for p in params} | self.bound_in(lines)
        bodies = self.bodies
        for arrays in (False, True):
            draft = Draft()
            self.bodies = bodies
            for line in lines:
                self.line(Place(scope, False, arrays), draft, line)
            if not draft.loud:
                break
        self.loud[name.text] = draft.loud
        self.functions[name.text] = ([p.text for p in params], draft.out)

    # -- statements

    def line(self, place, draft, s):
        kind = s[0]
        if kind == 'using':
            return
        if kind == 'value':
            draft.out.append(('value', self.expr(place, draft, s[1])))
        elif kind == 'return':
            draft.out.append(('return', self.expr(place, draft, s[1])))
        elif kind == 'set':
            x = s[2]
            while x[0] == 'group':
                x = x[1]
            before = len(draft.out)
            value = self.expr(place, draft, x)
            if len(draft.out) > before and value == ('name', draft.last) and draft.out[-1][0] in ('effect', 'calltask') and self.is_whole(place, x):
                made = draft.out.pop()
                draft.next -= 1
                draft.out.append((made[0], s[1].text) + made[2:])
                # the name's value is that of the statement
                draft.last = s[1].text
            else:
                draft.out.append(('set', s[1].text, value))
        elif kind == 'push':
            draft.out.append(('push', s[1].text, self.expr(place, draft, s[2])))
        elif kind == 'unset':
            draft.out.append(('unset', s[1].text))
        elif kind == 'if':
            arms = []
            for test, block in s[1]:
                effects, value = self.apart(draft, lambda: self.expr(place, draft, test))
                taken, _ = self.apart(draft, lambda: [self.line(place, draft, line) for line in block])
                arms.append((effects, value, taken))
            other, _ = self.apart(draft, lambda: [self.line(place, draft, line) for line in s[2]])
            draft.out.append(('if', arms, other))
        elif kind == 'while':
            effects, value = self.apart(draft, lambda: self.expr(place, draft, s[1]))
            turn, _ = self.apart(draft, lambda: [self.line(place, draft, line) for line in s[2]])
            draft.out.append(('while', effects, value, turn))
        elif kind == 'for':
            over = self.expr(place, draft, s[2])
            turn, _ = self.apart(draft, lambda: [self.line(place, draft, line) for line in s[3]])
            draft.out.append(('for', s[1].text, over, turn))
        elif kind == 'try':
            body, _ = self.apart(draft, lambda: [self.line(place, draft, line) for line in s[1]])
            handler, _ = self.apart(draft, lambda: [self.line(place, draft, line) for line in s[3]])
            draft.out.append(('try', body, s[2].text if s[2] else None, handler))
        else:
            draft.out.append((kind,))

    def is_whole(self, place, x):
        """The right side is one effect or array call."""
        if x[0] == 'spawn':
            return True
        if x[0] == 'index':
            return place.arrays
        if x[0] == 'call' and x[1][0] == 'name':
            role = self.role(place, x[1][1])
            return role in ('operation', 'loud') or (role == 'builtin' and place.arrays and x[1][1].text in ARRAY_CALLS)
        return False

    def apart(self, draft, act):
        before, draft.out = draft.out, []
        value = act()
        written, draft.out = draft.out, before
        return written, value

    # -- expressions

    def effect(self, draft, *effect):
        draft.next += 1
        name = '%' + str(draft.next)
        draft.out.append((effect[0], name) + effect[1:])
        draft.last = name
        return ('name', name)

    def exprs(self, place, draft, xs):
        return [self.expr(place, draft, x) for x in xs]

    def expr(self, place, draft, x):
        kind = x[0]
        if kind == 'literal':
            return ('literal', x[1])
        if kind == 'text':
            return ('literal', x[1])
        if kind == 'operator':
            return ('builtin', BINARY[x[1]])
        if kind == 'group':
            return self.expr(place, draft, x[1])
        if kind == 'name':
            role = self.role(place, x[1])
            if role == 'later':
                raise Refused(x[1], 'LateFunction')
            if role in ('operation', 'loud'):
                raise Refused(x[1], 'EffectInside')
            if role == 'quiet':
                return ('fun', x[1].text)
            return ('builtin' if role == 'builtin' else 'name', x[1].text)
        if kind == 'unary':
            op = {'-': 'negate', '+': '+', '!': '!', '~': '~'}[x[1]]
            return ('apply', op, [self.expr(place, draft, x[2])])
        if kind == 'binary':
            return ('apply', BINARY[x[1]], self.exprs(place, draft, x[3:]))
        if kind in ('and', 'or', 'choose'):
            return (kind,) + tuple(self.exprs(place.silent(), draft, x[1:]))
        if kind in ('list', 'tuple'):
            return ('apply', kind, self.exprs(place, draft, x[1]))
        if kind == 'matrix':
            return ('apply', 'grid', [('apply', 'tuple', self.exprs(place, draft, row)) for row in x[1]])
        if kind == 'index':
            parts = self.exprs(place, draft, [x[1]] + x[2])
            if place.arrays:
                return self.effect(draft, 'effect', 'index', None, parts)
            return ('apply', 'index', parts)
        if kind == 'lambda':
            self.bodies += 1
            return ('lambda', self.body([n.text for n in x[2]], x[3], place, True))
        if kind == 'spawn':
            return self.spawn(place, draft, x)
        if kind == 'comprehension':
            return self.comprehension(place, draft, x)
        if kind == 'call':
            return self.call(place, draft, x[1], x[2])
        raise AssertionError(kind)

    def body(self, params, x, place, quiet):
        number = self.bodies
        names = set(params)
        self.bound_of(x, names)
        draft = Draft()
        value = self.expr(Place(place.scope | names, quiet, not quiet), draft, x)
        return (number, params, draft.out + [('value', value)], names)

    def comprehension(self, place, draft, x):
        generators = x[2]
        if len(generators) > 1:
            element = self.expr(place.silent(), draft, x[1])
            overs = [self.expr(place if i == 0 else place.silent(), draft, over) for i, (_, over) in enumerate(generators)]
            return ('comp', element, [(name.text, over) for (name, _), over in zip(generators, overs)])
        (name, over), = generators
        written, element = self.apart(draft, lambda: self.expr(place, draft, x[1]))
        over = self.expr(place, draft, over)
        if not written:
            return ('comp', element, [(name.text, over)])
        draft.next += 1
        own = '%' + str(draft.next)
        draft.out.append(('set', own, ('apply', 'list', [])))
        draft.out.append(('for', name.text, over, written + [('push', own, element)]))
        return ('name', own)

    def spawn(self, place, draft, x):
        _, token, where, what = x
        if place.quiet:
            raise Refused(token, 'EffectInside')
        target = self.expr(place, draft, where)
        self.bodies += 1
        body = self.body([], what, place, False)
        future = self.effect(draft, 'effect', 'remotecall', body, [target])
        draft.loud = True
        if token.text == '@fetchfrom':
            return self.effect(draft, 'effect', 'fetch', None, [future])
        return future

    def task_body(self, place, draft, f, count):
        """The first argument of a remote call: a body, or an expression."""
        while f[0] == 'group':
            f = f[1]
        if f[0] == 'lambda':
            self.bodies += 1
            return self.body([n.text for n in f[2]], f[3], place, False), None
        if f[0] == 'name':
            role = self.role(place, f[1])
            if role == 'later':
                raise Refused(f[1], 'LateFunction')
            if role == 'loud' or (role == 'operation' and 't' in OPERATIONS[f[1].text]):
                self.bodies += 1
                params = ['%p' + str(i + 1) for i in range(count)]
                args = [('name', p) for p in params]
                inner = ('calltask', '%1', f[1].text, args) if role == 'loud' else ('effect', '%1', f[1].text, None, args)
                return (self.bodies, params, [inner, ('value', ('name', '%1'))], set(params)), None
        return None, self.expr(place, draft, f)

    def call(self, place, draft, callee, args):
        if callee[0] == 'name':
            name = callee[1]
            role = self.role(place, name)
            if role == 'later':
                raise Refused(name, 'LateFunction')
            if role in ('operation', 'loud') and place.quiet:
                raise Refused(name, 'EffectInside')
            if any(a[0] == 'keyword' for a in args):
                values = [self.expr(place, draft, a[2] if a[0] == 'keyword' else a) for a in args]
                wrong = ('callvalue', ('literal', None), values)
                if role in ('operation', 'loud'):
                    draft.loud = True
                    draft.next += 1
                    own = '%' + str(draft.next)
                    draft.out.append(('set', own, wrong))
                    return ('name', own)
                return wrong
            if role == 'operation':
                return self.operation(place, draft, name.text, args)
            if role == 'loud':
                values = self.exprs(place, draft, args)
                draft.loud = True
                return self.effect(draft, 'calltask', name.text, values)
            if role == 'quiet':
                return ('callfun', name.text, self.exprs(place, draft, args))
            if role == 'builtin':
                if name.text in ('typemax', 'typemin') and len(args) == 1 and args[0][0] == 'name' and args[0][1].text == 'Int' \
                        and self.role(place, args[0][1]) == 'variable' and 'Int' not in place.scope:
                    return ('literal', GREATEST if name.text == 'typemax' else LEAST)
                values = self.exprs(place, draft, args)
                if place.arrays and name.text in ARRAY_CALLS:
                    return self.effect(draft, 'effect', name.text, None, values)
                return ('apply', name.text, values)
        f = self.expr(place, draft, callee)
        if any(a[0] == 'keyword' for a in args):
            return ('callvalue', ('literal', None), [self.expr(place, draft, a[2] if a[0] == 'keyword' else a) for a in args])
        return ('callvalue', f, self.exprs(place, draft, args))

    def operation(self, place, draft, name, args):
        draft.loud = True
        if name in ('remotecall', 'remotecall_fetch'):
            body, first = None, []
            if args:
                body, value = self.task_body(place, draft, args[0], max(len(args) - 2, 0))
                first = [] if body else [value]
            values = first + self.exprs(place, draft, args[1:])
            future = self.effect(draft, 'effect', 'remotecall', body, values)
            if name == 'remotecall_fetch':
                return self.effect(draft, 'effect', 'fetch', None, [future])
            return future
        return self.effect(draft, 'effect', name, None, self.exprs(place, draft, args))


class Draft:
    def __init__(self):
        self.out, self.next, self.loud, self.last = [], 0, False, None
