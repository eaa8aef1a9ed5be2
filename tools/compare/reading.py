"""Tokens, nesting and grammar of the C profile, as docs/profile.md has them; the grammar is read out of that page."""
import re

LIMITS = (200, 200, 200)
GREATEST = 2147483647
MARKS = {
    3: ["<<=", ">>="],
    2: "++ -- += -= *= /= %= &= |= ^= && || == != <= >= << >> ->".split(),
    1: "+ - * / % & | ^ ~ ! < > = ? : ; , ( ) [ ] { } .".split(),
}
LEVELS = ["||", "&&", "|", "^", "&", "== !=", "< <= > >=", "<< >>", "+ -", "* / %"]
UPDATES = "+= -= *= /= %= <<= >>= &= ^= |=".split()


class Refused(Exception):
    """A text is refused: the words that say why, and the place."""

    def __init__(self, why, at):
        super().__init__(why)
        self.line = "refused: %d:%d %s\n" % (*at, why)


class Token:
    def __init__(self, kind, text, value, at):
        self.kind, self.text, self.value, self.at = kind, text, value, at


def begins_name(c):
    return c == "_" or c.isidentifier()


def goes_on(c):
    return c == "_" or ("a" + c).isidentifier()


def place_after(text):
    return text.count("\n") + 1, len(text) - (text.rfind("\n") + 1) + 1


def run_from(text, i, test):
    while i < len(text) and test(text[i]):
        i += 1
    return i


def gap_end(text, i):
    """The end of what separates tokens at i: i itself where nothing does, and None for a comment that is not closed."""
    if text[i] in " \t\r\n":
        return i + 1
    if text.startswith("//", i):
        return run_from(text, i, lambda c: c != "\n")
    if text.startswith("/*", i):
        end = text.find("*/", i + 2)
        return None if end < 0 else end + 2
    head = text[text.rfind("\n", 0, i) + 1 : i]
    if re.match(r"#[ \t]*include", text[i:]) and not head.strip(" \t") and text[i] == "#":
        return run_from(text, i, lambda c: c != "\n")
    return i


def number_value(word):
    for form, base in ((r"[1-9][0-9]*", 10), (r"0[0-7]*", 8), (r"0[xX][0-9a-fA-F]+", 16)):
        if re.fullmatch(form, word, re.A):
            return int(word, base)
    return None


def token_at(text, i, at):
    c = text[i]
    if begins_name(c):
        return Token("word", text[i : run_from(text, i, goes_on)], None, at)
    if c in "0123456789":
        word = text[i : run_from(text, i, goes_on)]
        value = number_value(word)
        if value is not None and value > GREATEST:
            raise Refused("number too large", at)
        if value is not None:
            return Token("number", word, value, at)
    found = re.match(r'"[ !#-\[\]-~]{0,200}"', text[i:])
    if found:
        return Token("text", found.group(), None, at)
    for size in (3, 2, 1):
        if text[i : i + size] in MARKS[size]:
            return Token("mark", text[i : i + size], None, at)
    raise Refused("bad token", at)


def tokens_of(text):
    tokens, i, line, start = [], 0, 1, 0
    while i < len(text):
        at = (line, i - start + 1)
        end = gap_end(text, i)
        if end is None:
            raise Refused("bad token", at)
        if end == i:
            tokens.append(token_at(text, i, at))
            end = i + len(tokens[-1].text)
        newlines = text.count("\n", i, end)
        if newlines:
            line, start = line + newlines, text.rfind("\n", i, end) + 1
        i = end
    return tokens


def check_nesting(tokens):
    brackets = run = words = 0
    for token in tokens:
        mark = token.text if token.kind == "mark" else ""
        brackets += mark in ("(", "[", "{")
        brackets -= mark in (")", "]", "}") and brackets > 0
        run = 0 if mark in (";", ",", "{", "}") else run + 1
        words = 0 if brackets == 0 else words + (token.text in ("else", "for"))
        if brackets > LIMITS[0] or run > LIMITS[1] or words > LIMITS[2]:
            raise Refused("too deep", token.at)


class Grammar:
    """A grammar by its rules, and the fronts of its programs (Earley)."""

    def __init__(self, page):
        words = re.findall(r"`((?:int|auto) [^`]*)`", page)
        self.kept, self.outside = words[0].split(), words[1].split()
        self.rules, self.made = {}, 0
        for name, body in self.bodies(page).items():
            self.rules[name] = self.choices(re.findall(r'"[^"]*"|\w+|[\[\](){}|]', body), None)
        self.empty = set()
        while any(self.may_be_empty(name) for name in self.rules if name not in self.empty):
            pass

    @staticmethod
    def bodies(page):
        bodies, name = {}, None
        for block in re.findall(r"```\n(.*?)```", page, re.S):
            for line in block.splitlines():
                begins = re.match(r"(\w+)\s*=\s(.*)", line)
                name = begins.group(1) if begins else name
                bodies[name] = bodies.get(name, "") + " " + (begins.group(2) if begins else line)
        bodies["null"] = '"NULL" | ZERO'
        bodies["OPEQ"] = " | ".join('"%s"' % mark for mark in UPDATES)
        for k, marks in enumerate(LEVELS):
            tighter = "level%d" % (k + 1) if k + 1 < len(LEVELS) else "unary"
            choice = " | ".join('"%s"' % mark for mark in marks.split())
            bodies["level%d" % k if k else "lor"] = "%s { ( %s ) %s }" % (tighter, choice, tighter)
        return bodies

    def fresh(self, choices):
        self.made += 1
        name = "#%d" % self.made
        self.rules[name] = choices(name)
        return name

    def choices(self, words, closing):
        choices, sequence = [], []
        while words and words[0] != closing:
            word = words.pop(0)
            if word == "|":
                choices.append(tuple(sequence))
                sequence = []
            elif word in ("[", "(", "{"):
                inner = self.choices(words, {"[": "]", "(": ")", "{": "}"}[word])
                words.pop(0)
                sequence.append(self.fresh(lambda name: self.grouped(word, inner, name)))
            else:
                sequence.append(word)
        return choices + [tuple(sequence)]

    @staticmethod
    def grouped(word, inner, name):
        if word == "(":
            return inner
        return [()] + ([(name,) + one for one in inner] if word == "{" else inner)

    def may_be_empty(self, name):
        found = any(all(part in self.empty for part in choice) for choice in self.rules[name])
        if found:
            self.empty.add(name)
        return found

    def symbols(self, token):
        if token.kind == "number":
            return {"NUMBER", "ZERO"} if token.value == 0 else {"NUMBER"}
        if token.kind == "text":
            return {"TEXT"}
        if token.kind == "mark" or token.text in self.kept:
            return {'"%s"' % token.text}
        return set() if token.text in self.outside else {"NAME"}

    def is_outside(self, token):
        return token.text in self.outside or token.kind == "mark" and token.text in (".", "->")

    def close(self, items, waiting, k):
        """All that may be read at token k, from what was read up to it."""
        work = list(items)
        while work:
            name, choice, dot, start = work.pop()
            new = []
            if dot == len(choice):
                new = [(n, c, d + 1, s) for n, c, d, s in waiting[start].get(name, ())]
            elif choice[dot] in self.rules:
                part = choice[dot]
                waiting[k].setdefault(part, []).append((name, choice, dot, start))
                new = [(part, one, 0, k) for one in self.rules[part]]
                new += [(name, choice, dot + 1, start)] if part in self.empty else []
            for item in new:
                if item not in items:
                    items.add(item)
                    work.append(item)

    def first_fault(self, tokens):
        """None where the tokens are a program, else how many of them begin one."""
        items, waiting = {("", ("program",), 0, 0)}, []
        for k in range(len(tokens) + 1):
            waiting.append({})
            self.close(items, waiting, k)
            if k == len(tokens):
                return None if ("", ("program",), 1, 0) in items else k
            symbols = self.symbols(tokens[k])
            items = {(n, c, d + 1, s) for n, c, d, s in items if d < len(c) and c[d] in symbols}
            if not items:
                return k


def read_program(grammar, text):
    """The tokens of a program, or the refusal of the text."""
    tokens = tokens_of(text)
    check_nesting(tokens)
    k = grammar.first_fault(tokens)
    if k is None:
        return tokens
    if k == len(tokens):
        raise Refused("bad syntax", place_after(text))
    outside = grammar.is_outside(tokens[k])
    raise Refused("outside profile: " + tokens[k].text if outside else "bad syntax", tokens[k].at)
