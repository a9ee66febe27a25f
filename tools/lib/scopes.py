"""Which words of a definition are names: those that nothing in the definition binds."""
import re

WORD = r'[^\s(){},;:.λ→×⊎↔≡≢∷]+'
DOTTED = rf'{WORD}(?:\.{WORD})*'
TOKEN = re.compile(rf'[(){{}}λ]|{DOTTED}')
# What binds: names and their type in brackets, `λ` with names, `let` with a name, and a field of a record with its type.
TYPED = re.compile(rf'[({{]((?:{WORD} )+): ')
LAMBDA = re.compile(rf'λ((?: {WORD})+)\. ')
LET = re.compile(rf'let ({WORD}) ')
FIELD = re.compile(rf'pub ({WORD}) :')


class Brackets:
    """What is bound in a pair of brackets, what is bound behind it or behind the next field, and by each `let` that stands open."""

    def __init__(self, later=()):
        self.bound, self.later, self.field, self.lets = set(), later, (), []


def names_of(text, name, is_variable):
    """The words of the definition with this name that are names; `is_variable` says of a word of a pattern whether it is none."""
    for equation in re.split(rf'\n(?={re.escape(name)} )', text):
        left, right = sides(equation) if equation.startswith(f'{name} ') else ('', equation)
        words = re.findall(DOTTED, left.removeprefix(name))
        yield from (word for word in words if not is_variable(word))
        yield from free_words(right, {word for word in words if is_variable(word)})


def sides(equation):
    """The pattern and the term of an equation, if it is one: the sign between them stands in no brackets."""
    for sign in re.finditer(r' =\s', equation):
        left = equation[:sign.start()]
        if all(left.count(opened) == left.count(closed) for opened, closed in ('()', '{}')):
            return left, equation[sign.end():]
    return '', equation


def free_words(text, bound):
    """The words of a term that aren't bound there, where these are bound before it. Names of fields are none."""
    open_brackets = [Brackets()]
    open_brackets[0].bound |= bound
    start = 0
    for token in TOKEN.finditer(text):
        if token.start() < start:
            continue
        within, word = open_brackets[-1], token[0]
        if word in '({':
            typed = TYPED.match(text, token.start())
            open_brackets.append(Brackets(typed[1].split() if typed else ()))
            start = typed.end() if typed else start
        elif word in ')}':
            open_brackets.pop()
            open_brackets[-1].bound.update(within.later)
        elif told := FIELD.match(text, token.start()):
            within.bound.update(within.field)
            within.field, start = (told[1],), told.end()
        elif told := LAMBDA.match(text, token.start()):
            within.bound.update(told[1].split())
            start = told.end()
        elif told := LET.match(text, token.start()):
            within.lets.append(told[1])
            start = told.end()
        elif word == 'in' and within.lets:
            within.bound.add(within.lets.pop())
        elif not is_field(text, token) and not any(word.partition('.')[0] in brackets.bound for brackets in open_brackets):
            yield word


def is_field(text, token):
    """Whether this word of a term is the name of a field: behind a dot, or before the sign that gives it a value."""
    return re.match(r'\S\.$', text[max(token.start() - 2, 0):token.start()]) or re.match(r' =\s', text[token.end():token.end() + 3])
