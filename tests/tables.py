"""Reads the constants of a test file: numbers, texts, and tables of them."""
import ast
import re

CONSTANT = re.compile(r'^(?:pub )?const (\w+): [^=]+? =\s*(.*?);$', re.MULTILINE | re.DOTALL)
COMMENT = re.compile(r'//[^\n]*')
FIELDS = re.compile(r'\w+::(\w+) \{([^{}]*)\}')
VALUE = re.compile(r'\w+::(\w+)\((\w+)\)')
VARIANT = re.compile(r'\w+::(\w+)')


def literal_of(text):
    """A constant's text as a literal of Python: `Reg(5)` is 5, `Width::B1` is 'B1',
    `CsrFrom::Number(2)` is ('Number', 2), and `Secure::Caller { rd: Reg(31) }` is
    ('Caller', {'rd': 31})."""
    text = COMMENT.sub('', text)
    text = re.sub(r'\bReg\((\d+)\)', r'\1', text)
    text = FIELDS.sub(lambda found: "('%s', {%s})" % (
        found.group(1), re.sub(r'(\w+):', r"'\1':", found.group(2))), text)
    text = VALUE.sub(r"('\1', \2)", text)
    text = VARIANT.sub(r"'\1'", text)
    return re.sub(r'\bfalse\b', 'False', re.sub(r'\btrue\b', 'True', text))


def values(path):
    """The constants of a file by name, each that is a literal."""
    with open(path, encoding='utf-8') as file:
        text = file.read()
    found = {}
    for name, value in CONSTANT.findall(text):
        try:
            found[name] = ast.literal_eval(literal_of(value).strip())
        except (ValueError, SyntaxError):
            pass
    return found
