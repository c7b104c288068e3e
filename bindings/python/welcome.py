"""A message as for fluent.runtime: FLUENT_LIBRARY=PATH python3 welcome.py"""
from fluent_rattle import FluentBundle, FluentResource

SOURCE = """
welcome = Welcome, { UPPER($name) }!
    .title = { $count ->
        [one] one new message
       *[other] { $count } new messages
    }
"""

bundle = FluentBundle(["en"], functions={"UPPER": str.upper})
bundle.add_resource(FluentResource(SOURCE))
message = bundle.get_message("welcome")
text, errors = bundle.format_pattern(message.value, {"name": "Ada"})
print(text, errors)
text, errors = bundle.format_pattern(message.attributes["title"], {"count": 3})
print(text, errors)
