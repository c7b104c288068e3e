"""A message with an argument, and one whose plural form the language chooses: FLUENT_LIBRARY=PATH python3 hello.py"""
from fluent_rattle import FluentBundle

SOURCE = """
hello = Hello, { $name }!
mails = { $n ->
    [one] One mail
   *[other] { $n } mails
 }
"""

with FluentBundle(["en"], use_isolating=False) as bundle:
    bundle.add_resource(SOURCE)
    text, errors = bundle.format_value("hello", {"name": "Ada"})
    print(text)
    for n in 1, 3:
        text, errors = bundle.format_value("mails", {"n": n})
        print(text)
    text, errors = bundle.format_value("hello")
    print(text, errors)
