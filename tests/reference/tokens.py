"""Tokens."""
import re

KEYWORDS = set('function if elseif else while for in try catch return break continue end true false nothing using'.split())
MACROS = {'@everywhere', '@spawnat', '@fetchfrom', '@distributed'}
SIGNS = ['->', '==', '!=', '<=', '>=', '&&', '||', '+=', '-=', '*=', '+', '-', '*', '÷', '%', '&', '|', '⊻', '!', '~', '<',
         '>', '=', '?', ':', ',', ';', '(', ')', '[', ']', '{', '}']
GOES_ON = {'+', '-', '*', '÷', '%', '&', '|', '⊻', '==', '!=', '<', '<=', '>', '>=', '&&', '||', ':', '?', ',', '->', '='}


class NotAScript(Exception):
    pass


class Token:
    def __init__(self, kind, text, line, blank):
        self.kind, self.text, self.line, self.blank = kind, text, line, blank


def tokens_of(source):
    tokens, i, line, blank = [], 0, 1, True
    depth = []
    while i < len(source):
        c = source[i]
        if c == '#':
            while i < len(source) and source[i] != '\n':
                i += 1
            continue
        if c in ' \t\r':
            i += 1
            blank = True
            continue
        if c == '\n':
            inside = bool(depth)
            goes_on = tokens and tokens[-1].kind == 'sign' and tokens[-1].text in GOES_ON
            if not inside and not goes_on:
                tokens.append(Token('sep', '\n', line, blank))
            line += 1
            i += 1
            blank = True
            continue
        m = re.compile(r'[0-9]+(?:_[0-9]+)*').match(source, i)
        if m:
            tokens.append(Token('number', m.group().replace('_', ''), line, blank))
        else:
            m = re.compile(r'[A-Za-z_][A-Za-z0-9_]*').match(source, i)
            if m:
                end = m.end()
                if source[end:end + 1] == '!' and source[end + 1:end + 2] != '=':
                    end += 1
                text = source[i:end]
                tokens.append(Token('keyword' if text in KEYWORDS else 'name', text, line, blank))
                i, blank = end, False
                continue
            m = re.compile(r'@[A-Za-z_][A-Za-z0-9_]*').match(source, i)
            if m:
                if m.group() not in MACROS:
                    raise NotAScript(line)
                tokens.append(Token('macro', m.group(), line, blank))
            elif c == '"':
                m = re.compile(r'"((?:[^"\\$\n]|\\[nt\\"$])*)"').match(source, i)
                if not m:
                    raise NotAScript(line)
                text = re.sub(r'\\(.)', lambda e: {'n': '\n', 't': '\t'}.get(e.group(1), e.group(1)), m.group(1))
                tokens.append(Token('text', text, line, blank))
            else:
                for sign in SIGNS:
                    if source.startswith(sign, i):
                        break
                else:
                    raise NotAScript(line)
                if sign in '([':
                    depth.append(sign)
                if sign in ')]' and depth:
                    depth.pop()
                kind = 'sep' if sign == ';' and not depth else 'sign'
                tokens.append(Token(kind, sign, line, blank))
                i, blank = i + len(sign), False
                continue
        i, blank = m.end(), False
    tokens.append(Token('end', '', line, True))
    return tokens
