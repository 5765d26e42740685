"""Evaluation, and calls between processes."""
import sys

from .builtins import Builtins
from .lowering import ARRAY_CALLS, Lowering, Refused
from .tokens import NotAScript
from .tree import Parser
from .values import (Builtin, Closure, Exception_, Fault, Future, Grid, List, MAX_CALLS, MAX_DEPTH, MAX_ELEMENTS, Range, STEP_UNITS,
                     elements, fault_depth, is_bool, is_int, kinds, limited, shown, shown_fault)


class Flow(Exception):
    def __init__(self, kind, value=None):
        self.kind, self.value = kind, value


class Task(Builtins):
    """One task: the process that it runs on, and the units that its step has left."""

    def __init__(self, cluster, process):
        self.cluster, self.process, self.left = cluster, process, STEP_UNITS

    def unit(self, n=1):
        if self.left < n:
            self.left = 0
            raise Fault('Budget')
        self.left -= n

    def answered(self):
        self.left = STEP_UNITS

    # -- expressions

    def value(self, x, env, calls):
        self.unit()
        kind = x[0]
        if kind == 'literal':
            return x[1]
        if kind == 'builtin':
            return Builtin(x[1])
        if kind == 'fun':
            return Closure((0,) + self.cluster.functions[x[1]] + (set(),), {}, x[1])
        if kind == 'name':
            if x[1] not in env:
                raise Fault('Undef', x[1])
            return env[x[1]]
        if kind == 'and' or kind == 'or':
            left = self.test(x[1], env, calls)
            if left == (kind == 'or'):
                return left
            return self.value(x[2], env, calls)
        if kind == 'choose':
            return self.value(x[2] if self.test(x[1], env, calls) else x[3], env, calls)
        if kind == 'apply':
            return self.builtin(x[1], [self.value(a, env, calls) for a in x[2]], calls)
        if kind == 'callfun':
            args = [self.value(a, env, calls) for a in x[2]]
            params, block = self.cluster.functions[x[1]]
            return self.called((0, params, block, set()), {}, args, calls)
        if kind == 'callvalue':
            f = self.value(x[1], env, calls)
            return self.apply(f, [self.value(a, env, calls) for a in x[2]], calls)
        if kind == 'lambda':
            return self.closure(x[1], env)
        if kind == 'comp':
            return self.comprehension(x, env, calls)
        raise AssertionError(kind)

    def closure(self, body, env):
        kept = {}
        for name in free_names(body):
            if name in env:
                kept[name] = env[name]
        return limited(Closure(body, kept))

    def test(self, x, env, calls):
        v = self.value(x, env, calls)
        kinds(is_bool, v)
        return v

    def comprehension(self, x, env, calls):
        overs = [elements(self.value(over, env, calls)) for _, over in x[2]]
        inner, cells = dict(env), []
        names = [name for name, _ in x[2]]

        def at(i):
            if i < 0:
                self.unit()
                cells.append(self.value(x[1], inner, calls))
                return
            for item in overs[i]:
                inner[names[i]] = item
                at(i - 1)
        at(len(overs) - 1)
        if len(overs) == 1:
            return limited(List(cells))
        kinds(is_int, *cells)
        dims = [len(o) for o in overs]
        if any(d > MAX_ELEMENTS for d in dims) or len(cells) > MAX_ELEMENTS:
            raise Fault('Argument')
        return Grid(dims, cells)

    def apply(self, f, args, calls):
        if isinstance(f, Builtin):
            return self.builtin(f.name, args, calls)
        if isinstance(f, Closure):
            return self.called(f.body, f.kept, args, calls)
        raise Fault('BadType')

    def called(self, body, kept, args, calls):
        _, params, block, _ = body
        if len(params) != len(args):
            raise Fault('BadType')
        if calls >= MAX_CALLS:
            raise Fault('Deep')
        env = dict(kept)
        env.update(zip(params, args))
        return self.run_body(block, env, calls + 1)

    def run_body(self, block, env, calls):
        try:
            return self.block(block, env, calls)
        except Flow as flow:
            return flow.value if flow.kind == 'return' else None

    # -- statements

    def block(self, block, env, calls):
        last = None
        for s in block:
            last = self.statement(s, env, calls)
        return last

    def statement(self, s, env, calls):
        self.unit()
        kind = s[0]
        if kind == 'value':
            return self.value(s[1], env, calls)
        if kind == 'set':
            v = self.value(s[2], env, calls)
            env[s[1]] = v
            return v
        if kind == 'unset':
            env.pop(s[1], None)
            return None
        if kind == 'push':
            v = self.value(s[2], env, calls)
            if s[1] not in env:
                raise Fault('Undef', s[1])
            kinds(lambda l: isinstance(l, List), env[s[1]])
            env[s[1]] = limited(List(env[s[1]].items + [v]))
            return env[s[1]]
        if kind == 'if':
            for effects, test, block in s[1]:
                self.block(effects, env, calls)
                if self.test(test, env, calls):
                    return self.block(block, env, calls)
            return self.block(s[2], env, calls)
        if kind == 'while':
            while True:
                self.block(s[1], env, calls)
                if not self.test(s[2], env, calls):
                    return None
                self.unit()
                if self.turn(s[3], env, calls):
                    return None
        if kind == 'for':
            for item in elements(self.value(s[2], env, calls)):
                self.unit()
                env[s[1]] = item
                if self.turn(s[3], env, calls):
                    return None
            return None
        if kind == 'try':
            try:
                return self.block(s[1], env, calls)
            except Fault as f:
                if f.what[0] == 'Budget':
                    raise
                if s[2]:
                    env[s[2]] = Exception_(f.what)
            return self.block(s[3], env, calls)
        if kind == 'return':
            raise Flow('return', self.value(s[1], env, calls))
        if kind in ('break', 'continue'):
            raise Flow(kind)
        if kind == 'effect':
            env[s[1]] = self.operation(s[2], s[3], [self.value(a, env, calls) for a in s[4]], env, calls)
            return env[s[1]]
        if kind == 'calltask':
            args = [self.value(a, env, calls) for a in s[3]]
            params, block = self.cluster.functions[s[2]]
            env[s[1]] = self.called((0, params, block, set()), {}, args, calls)
            return env[s[1]]
        raise AssertionError(kind)

    def turn(self, block, env, calls):
        """One turn of a loop; whether it was the last."""
        try:
            self.block(block, env, calls)
        except Flow as flow:
            if flow.kind == 'return':
                raise
            return flow.kind == 'break'
        return False

    # -- operations

    def operation(self, name, body, args, env, calls):
        if name in ARRAY_CALLS or name == 'index':
            return self.builtin(name, args, calls)
        if name == 'println':
            if args is None:
                args = []
            if self.process != 1 or not self.cluster.is_main(self):
                raise Fault('Argument')
            self.cluster.out.append(''.join(shown(a) for a in args))
            self.answered()
            return None
        if name == 'myid':
            kinds(lambda n: n == 0, len(args))
            return self.process
        if name == 'fetch':
            kinds(lambda n: n == 1, len(args))
            if not isinstance(args[0], Future):
                return args[0]
            self.answered()
            ok, value = args[0].outcome
            if ok:
                return value
            raise Fault(*value)
        if name == 'remotecall':
            code = self.closure(body, env) if body else None
            if code is None:
                if not args:
                    raise Fault('BadType')
                code, args = args[0], args[1:]
                kinds(lambda f: isinstance(f, (Closure, Builtin)), code)
            kinds(lambda n: n >= 1, len(args))
            kinds(is_int, args[0])
            if not 1 <= args[0] <= 1 + self.cluster.workers:
                raise Fault('Argument')
            return Future(args[0], self.cluster.run_task(args[0], code, args[1:], body is not None))
        raise AssertionError(name)


def free_names(body):
    _, params, block, bound = body
    names = []

    def use(name):
        if name not in bound and name not in written and name not in params and name not in names:
            names.append(name)

    written = set()

    def bind(s):
        if s[0] in ('set', 'push', 'unset', 'effect', 'calltask'):
            written.add(s[1])
        elif s[0] == 'for':
            written.add(s[1])
            for t in s[3]:
                bind(t)
        elif s[0] == 'while':
            for t in s[1] + s[3]:
                bind(t)
        elif s[0] == 'if':
            for effects, _, taken in s[1]:
                for t in effects + taken:
                    bind(t)
            for t in s[2]:
                bind(t)
        elif s[0] == 'try':
            if s[2]:
                written.add(s[2])
            for t in s[1] + s[3]:
                bind(t)
    for s in block:
        bind(s)

    def walk(x):
        if isinstance(x, tuple):
            if x and x[0] == 'name' and len(x) == 2 and isinstance(x[1], str):
                use(x[1])
            elif x and x[0] == 'lambda' or len(x) == 4 and isinstance(x[0], int):
                inner = x[1] if x[0] == 'lambda' else x
                for name in free_names(inner):
                    use(name)
            else:
                for part in x:
                    walk(part)
        elif isinstance(x, list):
            for part in x:
                walk(part)
    walk(block)
    return names


class Cluster:
    def __init__(self, workers, functions):
        self.workers, self.functions, self.out = workers, functions, []
        self.main = None

    def is_main(self, task):
        return task is self.main

    def run_task(self, process, code, args, is_literal):
        task = Task(self, process)
        try:
            if isinstance(code, Builtin):
                return True, task.builtin(code.name, args, 0)
            if len(code.body[1]) != len(args):
                raise Fault('BadType')
            env = dict(code.kept)
            env.update(zip(code.body[1], args))
            return True, task.run_body(code.body[2], env, 0 if is_literal else 1)
        except Fault as f:
            kept = f.what
            if 1 + fault_depth(('Remote', process, kept)) > MAX_DEPTH:
                kept = ('Deep',)
            return False, ('Remote', process, kept)


sys.setrecursionlimit(100000)


def run(workers, source):
    """The lines, the line of standard error or None, and the status."""
    try:
        lowering = Lowering(Parser(source).block(set()))
        program = lowering.program()
    except NotAScript as e:
        return [], 'not a script, line %s' % e, 3
    except Refused as r:
        return [], 'REFUSED line %d: %s' % (r.line, r.kind), 3
    cluster = Cluster(workers, lowering.functions)
    cluster.main = Task(cluster, 1)
    try:
        cluster.main.run_body(program, {}, 0)
    except Fault as f:
        return cluster.out, 'ERROR: ' + shown_fault(f.what), 1
    return cluster.out, None, 0
