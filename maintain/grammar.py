#!/usr/bin/env python3
"""Compares the grammar of docs/TEXTS.md with the forms of litmus tests: maintain/grammar.py --check

Each rule of the page stands above a form, word for word, and no form has another rule. The signs and words that a rule
has, by itself and by the rules that it uses, must be those that its form has, by itself and by the definitions that it
uses. So a sign or word more, or another one, fails, even if definition and code agree on it.
"""
import re
import sys
from pathlib import Path

TOP = Path(__file__).resolve().parent.parent
SPECS = "crates/litmus_parser/specs", "crates/litmus_reader/specs"
SIGNS = {"COLON": ":", "SEMICOLON": ";", "COMMA": ",", "EQUALS": "=", "BAR": '"|"', "OPENING_BRACE": '"{"',
         "CLOSING_BRACE": '"}"', "OPENING_PARENTHESIS": '"("', "CLOSING_PARENTHESIS": '")"', "chain And": "/\\",
         "chain Or": "\\/"}
CLASSES = {"load", "store", "swap"}  # the page's names of mnemonics
KEYWORDS = {"exists", "~exists", "forall"}  # the form of rows looks for them, too
HEAD = re.compile(r"^(?:-- (\w+) := (.+)\n(?:-- .+\n)*)?(?:abbrev|unfoldable) pub (\w+) : ", re.M)


def page_rules():
    """The rules of the page, and what each has: signs and words, and the rules that it uses."""
    page = (TOP / "docs/TEXTS.md").read_text(encoding="utf-8")
    rules = dict(re.findall(r"^(\w+) := (.+)$", page, re.M))
    had = {}
    for rule, text in rules.items():
        words = set(re.findall(r'"."|/\\|\\/|[:;,=]|(?<!\S)(?:~?[a-z]+|x?0)(?!\S)', text))
        had[rule] = words - rules.keys() - CLASSES, rules.keys() & set(re.findall(r"\w+", text))
    table = re.search(r"```text\n(lw .+?)```", page, re.S)[1]
    suffixes = ["", *re.findall(r" (\.\w+)", table)]
    for name in re.findall(r"(?:^|  )([a-z][a-z.]+) (?=x|A)", table, re.M):
        had["instruction"][0].update(name + suffix for suffix in suffixes[:None if "." in name else 1])
    return rules, had


def form_rules():
    """The rules above forms, with the form's name, and what each definition has, as for rules. A parameter isn't the
    form of that name."""
    rules, had, given = {}, {}, {}
    for file in (file for folder in SPECS for file in sorted((TOP / folder).glob("*.antt"))):
        text = file.read_text(encoding="utf-8")
        heads = list(HEAD.finditer(text))
        for head, end in zip(heads, [*(each.start() for each in heads[1:]), len(text)]):
            body, name = re.sub(r"--.*", "", text[head.end():end]), head[3]
            if head[1]:
                rules[head[1]] = head[2], name
            signs = {sign for constant, sign in SIGNS.items() if re.search(rf"\b{constant}\b", body)}
            had[name] = signs | set(re.findall(r'codes "([^"]+)"', body)), set(re.findall(r"\w+", body))
            given[name] = set(re.findall(r"\w+", " ".join(re.findall(rf"^{name} (.*?) =", body, re.M))))
    forms = {form for _, form in rules.values()}
    return rules, {name: (words, uses - (given[name] & forms)) for name, (words, uses) in had.items()}


def reached(had, name):
    """The signs and words that a rule or definition has by itself and by those that it uses."""
    seen, left = set(), [name]
    while left:
        at = left.pop()
        if at in had and at not in seen:
            seen.add(at)
            left += had[at][1]
    return set().union(*(had[at][0] for at in seen))


def main():
    rules, of_page = page_rules()
    forms, of_forms = form_rules()
    above = {(rule, text) for rule, (text, _) in forms.items()}
    faults = [f"{'the page' if rule in rules.items() else 'a form'} alone has the rule {' := '.join(rule)}"
              for rule in sorted(set(rules.items()) ^ above)]
    for rule in sorted(rules.keys() & forms.keys()):
        shown, had = reached(of_page, rule) - KEYWORDS, reached(of_forms, forms[rule][1]) - KEYWORDS
        for word in sorted(shown ^ had):
            faults.append(f"{'the rule' if word in shown else 'the form'} of {rule} alone has {word}")
    words = set().union(*(had for had, _ in of_forms.values()))
    faults += [f"the forms lack {word}" for word in sorted(KEYWORDS - words)]
    for fault in faults:
        print("grammar.py: " + fault)
    raise SystemExit(1 if faults else 0)


if sys.argv[1:2] in (["-h"], ["--help"]):
    raise SystemExit(print(__doc__))
main()
