"""The tree of a script."""
from .tokens import NotAScript, tokens_of
from .values import wrap


class Parser:
    def __init__(self, source):
        self.tokens, self.at = tokens_of(source), 0

    def peek(self, ahead=0):
        return self.tokens[min(self.at + ahead, len(self.tokens) - 1)]

    def is_sign(self, text, ahead=0):
        t = self.peek(ahead)
        return t.kind == 'sign' and t.text == text

    def is_word(self, text):
        t = self.peek()
        return t.kind in ('keyword', 'macro') and t.text == text

    def take(self):
        t = self.peek()
        self.at += 1
        return t

    def fail(self):
        raise NotAScript(self.peek().line)

    def want(self, text):
        if not (self.peek().kind in ('sign', 'keyword', 'macro') and self.peek().text == text):
            self.fail()
        return self.take()

    def name(self):
        if self.peek().kind != 'name':
            self.fail()
        return self.take()

    def block(self, ends):
        lines = []
        while True:
            while self.peek().kind == 'sep':
                self.take()
            t = self.peek()
            if t.kind == 'end' or (t.kind == 'keyword' and t.text in ends):
                return lines
            lines.append(self.statement())
            t = self.peek()
            if not (t.kind in ('sep', 'end') or (t.kind == 'keyword' and t.text in ends)):
                self.fail()

    def sep(self):
        if self.peek().kind != 'sep':
            self.fail()
        self.take()

    def names(self, close):
        names = []
        if not self.is_sign(close):
            names.append(self.name())
            while self.is_sign(','):
                self.take()
                names.append(self.name())
        self.want(close)
        if len({n.text for n in names}) < len(names):
            self.fail()
        return names

    def definition_ahead(self):
        if self.is_word('function'):
            return True
        if self.peek().kind != 'name' or not self.is_sign('(', 1):
            return False
        i = self.at + 2
        while i < len(self.tokens) and not (self.tokens[i].kind == 'sign' and self.tokens[i].text == ')'):
            t = self.tokens[i]
            if not (t.kind == 'name' or (t.kind == 'sign' and t.text == ',')):
                return False
            i += 1
        t = self.tokens[min(i + 1, len(self.tokens) - 1)]
        return t.kind == 'sign' and t.text == '='

    def definition(self):
        if self.is_word('function'):
            self.take()
            name = self.name()
            self.want('(')
            names = self.names(')')
            body = self.block({'end'})
            self.want('end')
            return ('def', name, names, body)
        name = self.name()
        self.want('(')
        names = self.names(')')
        self.want('=')
        return ('def', name, names, [('value', self.expr())])

    def statement(self):
        t = self.peek()
        if self.is_word('using') or (self.is_word('@everywhere') and self.peek(1).text == 'using'):
            if self.is_word('@everywhere'):
                self.take()
            self.take()
            self.name()
            while self.is_sign(','):
                self.take()
                self.name()
            return ('using',)
        if self.is_word('@everywhere'):
            self.take()
            return self.definition()
        if self.definition_ahead():
            return self.definition()
        if t.kind == 'name' and self.peek(1).kind == 'sign' and self.peek(1).text in ('=', '+=', '-=', '*='):
            name, sign = self.take(), self.take()
            if sign.text == '=':
                return ('set', name, self.right())
            return ('set', name, ('binary', sign.text[0], sign, ('name', name), self.expr()))
        if t.kind == 'name' and t.text in ('push!', 'finalize') and self.is_sign('(', 1) and self.peek(2).kind == 'name':
            start = self.at
            self.take()
            self.take()
            name = self.name()
            if t.text == 'push!' and self.is_sign(','):
                self.take()
                x = self.expr()
                if self.is_sign(')') and self.peek(1).kind in ('sep', 'end') or self.ends_block(1):
                    self.take()
                    return ('push', name, x)
            elif t.text == 'finalize' and self.is_sign(')') and (self.peek(1).kind in ('sep', 'end') or self.ends_block(1)):
                self.take()
                return ('unset', name)
            self.at = start
        if t.kind == 'keyword':
            if t.text == 'if':
                return self.branch()
            if t.text == 'while':
                self.take()
                test = self.expr()
                self.sep()
                body = self.block({'end'})
                self.want('end')
                return ('while', test, body)
            if t.text == 'for':
                self.take()
                name, over, body = self.loop()
                return ('for', name, over, body)
            if t.text == 'try':
                self.take()
                body = self.block({'catch'})
                self.want('catch')
                name = self.take() if self.peek().kind == 'name' else None
                self.sep()
                handler = self.block({'end'})
                self.want('end')
                return ('try', body, name, handler)
            if t.text == 'return':
                self.take()
                if self.peek().kind in ('sep', 'end') or self.peek().text in ('end', 'else', 'elseif', 'catch'):
                    return ('return', ('literal', None))
                return ('return', self.expr())
            if t.text in ('break', 'continue'):
                self.take()
                return (t.text,)
        return ('value', self.right())

    def ends_block(self, ahead):
        t = self.peek(ahead)
        return t.kind == 'keyword' and t.text in ('end', 'else', 'elseif', 'catch')

    def loop(self):
        name = self.name()
        if not (self.is_word('in') or self.is_sign('=')):
            self.fail()
        self.take()
        over = self.expr()
        self.sep()
        body = self.block({'end'})
        self.want('end')
        return name, over, body

    def branch(self):
        arms, other = [], []
        self.take()
        while True:
            test = self.expr()
            self.sep()
            arms.append((test, self.block({'elseif', 'else', 'end'})))
            t = self.take()
            if t.text == 'elseif':
                continue
            if t.text == 'else':
                other = self.block({'end'})
                self.want('end')
            elif t.text != 'end':
                self.fail()
            return ('if', arms, other)

    def right(self):
        return self.expr()

    def expr(self, ranges=True):
        t = self.peek()
        if t.kind == 'macro' and t.text in ('@spawnat', '@fetchfrom'):
            self.take()
            place = self.atom()
            return ('spawn', t, place, self.expr())
        if t.kind == 'name' and self.is_sign('->', 1):
            names = [self.take()]
            self.take()
            return ('lambda', t, names, self.expr())
        if self.is_sign('('):
            i = self.at + 1
            while i < len(self.tokens) and (self.tokens[i].kind == 'name' or (self.tokens[i].kind == 'sign' and self.tokens[i].text == ',')):
                i += 1
            if self.tokens[i].text == ')' and self.tokens[min(i + 1, len(self.tokens) - 1)].text == '->':
                start = self.at
                self.take()
                names = self.names(')')
                self.want('->')
                return ('lambda', self.tokens[start], names, self.expr())
        return self.cond(ranges)

    def cond(self, ranges=True):
        x = self.either(ranges)
        if self.is_sign('?'):
            self.take()
            a = self.either(False)
            self.want(':')
            return ('choose', x, a, self.cond(ranges))
        return x

    def either(self, ranges):
        x = self.both(ranges)
        while self.is_sign('||'):
            self.take()
            x = ('or', x, self.both(ranges))
        return x

    def both(self, ranges):
        x = self.compare(ranges)
        while self.is_sign('&&'):
            self.take()
            x = ('and', x, self.compare(ranges))
        return x

    def compare(self, ranges):
        x = self.range(ranges)
        if self.peek().kind == 'sign' and self.peek().text in ('==', '!=', '<', '<=', '>', '>='):
            t = self.take()
            x = ('binary', t.text, t, x, self.range(ranges))
        return x

    def range(self, ranges):
        x = self.sum()
        if ranges and self.is_sign(':'):
            t = self.take()
            x = ('binary', ':', t, x, self.sum())
        return x

    def sum(self):
        x = self.product()
        while self.peek().kind == 'sign' and self.peek().text in ('+', '-', '|', '⊻'):
            t = self.take()
            x = ('binary', t.text, t, x, self.product())
        return x

    def product(self):
        x = self.unary()
        while self.peek().kind == 'sign' and self.peek().text in ('*', '÷', '%', '&'):
            t = self.take()
            x = ('binary', t.text, t, x, self.unary())
        return x

    def number(self, after_minus):
        t = self.take()
        n = int(t.text)
        if n > (1 << 63) or (n == 1 << 63 and not after_minus):
            raise NotAScript(t.line)
        return ('literal', wrap(n))

    def unary(self):
        t = self.peek()
        if t.kind == 'sign' and t.text in ('-', '+', '!', '~'):
            self.take()
            if t.text == '-' and self.peek().kind == 'number' and not self.peek().blank and int(self.peek().text) == 1 << 63:
                return ('unary', '-', self.post(self.number(True)))
            return ('unary', t.text, self.unary())
        return self.post(self.primary())

    def post(self, x):
        while True:
            if self.is_sign('('):
                self.take()
                x = ('call', x, self.arguments())
            elif self.is_sign('['):
                self.take()
                indexes = [self.expr()]
                while self.is_sign(','):
                    self.take()
                    indexes.append(self.expr())
                self.want(']')
                x = ('index', x, indexes)
            else:
                return x

    def arguments(self):
        args = []
        if self.is_sign(')'):
            self.take()
            return args
        while True:
            t = self.peek()
            if t.kind == 'name' and self.is_sign('=', 1):
                self.take()
                self.take()
                args.append(('keyword', t, self.expr()))
            elif t.kind == 'sign' and t.text in ('+', '*', '&', '|', '⊻') and self.peek(1).text in (',', ';', ')') and not self.peek(1).blank:
                self.take()
                args.append(('operator', t.text))
            else:
                args.append(self.expr())
            t = self.take()
            if t.kind == 'sign' and t.text in (',', ';'):
                continue
            if t.kind == 'sign' and t.text == ')':
                return args
            self.at -= 1
            self.fail()

    def primary(self):
        t = self.peek()
        if t.kind == 'number':
            return self.number(False)
        if t.kind == 'text':
            return ('text', self.take().text)
        if t.kind == 'keyword' and t.text in ('true', 'false', 'nothing'):
            self.take()
            return ('literal', {'true': True, 'false': False, 'nothing': None}[t.text])
        if t.kind == 'name':
            return ('name', self.take())
        if self.is_sign('('):
            self.take()
            if self.is_sign(')'):
                self.take()
                return ('tuple', [])
            x = self.expr()
            if self.is_sign(')'):
                self.take()
                return ('group', x)
            items = [x]
            self.want(',')
            if not self.is_sign(')'):
                items.append(self.expr())
                while self.is_sign(','):
                    self.take()
                    items.append(self.expr())
            self.want(')')
            return ('tuple', items)
        if self.is_sign('['):
            return self.bracket()
        self.fail()

    def atom(self):
        t = self.peek()
        if self.is_sign('-') and self.peek(1).kind == 'number' and not self.peek(1).blank:
            self.take()
            return ('unary', '-', self.number(True))
        if t.kind == 'number':
            return self.number(False)
        if t.kind == 'name':
            return ('name', self.take())
        if self.is_sign('('):
            self.take()
            x = self.expr()
            self.want(')')
            return ('group', x)
        self.fail()

    def matrix(self):
        rows, row = [], [self.atom()]
        while True:
            if self.is_sign(']'):
                self.take()
                rows.append(row)
                break
            if self.is_sign(';'):
                self.take()
                rows.append(row)
                row = [self.atom()]
            else:
                if not self.peek().blank:
                    self.fail()
                row.append(self.atom())
        if len(rows) == 1 and len(rows[0]) == 1 or len({len(r) for r in rows}) > 1:
            self.fail()
        if len(rows[0]) == 1:
            return ('list', [r[0] for r in rows])
        return ('matrix', rows)

    def bracket(self):
        self.take()
        start = self.at
        try:
            return self.matrix()
        except NotAScript:
            self.at = start
        if self.is_sign(']'):
            self.take()
            return ('list', [])
        x = self.expr()
        if self.is_word('for'):
            self.take()
            generators = []
            while True:
                name = self.name()
                self.want('in')
                generators.append((name, self.expr()))
                if not self.is_sign(','):
                    break
                self.take()
            self.want(']')
            if len(generators) > 3:
                self.fail()
            return ('comprehension', x, generators)
        items = [x]
        while self.is_sign(','):
            self.take()
            items.append(self.expr())
        self.want(']')
        return ('list', items)
