"""The texts that tests hold the exporters to. They were written by hand, and have what no script makes: resources, and
schema URLs and attributes of scopes.
"""
import re

from scripts import TOP

RAW = re.compile(r'r#"(.*?)"#', re.DOTALL)
PLAIN = re.compile(r'"((?:[^"\\]|\\.)*)"', re.DOTALL)
ESCAPES = {'\\n': '\n', '\\"': '"', '\\\\': '\\'}


def literals(source):
    """The texts of a source, without escapes. A line that ends in a backslash goes on after the spaces of the next one."""
    yield from RAW.findall(source)
    for text in PLAIN.findall(RAW.sub('', source)):
        text = re.sub(r'(?<!\\)\\\n\s*', '', text)
        yield re.sub(r'\\.', lambda found: ESCAPES[found[0]] if found[0] in ESCAPES else found[0], text)


def format_of(text):
    """The format of an exporter's text; none if it is something else."""
    if text.startswith('{"resourceMetrics"'):
        return 'otlp'
    if re.match(r'# (HELP|TYPE) .*\n', text):
        return 'openmetrics' if text.endswith('\n# EOF\n') else 'prometheus'
    return None


def texts_of_tests():
    """The texts by name, each with its format. A line of OTLP is written on several. Texts of several collections, which
    stand in the tests of scripts, are left out.
    """
    found = {}
    tests = TOP / 'crates/otel_tests/src/tests'
    for path in sorted([*tests.glob('exporters/*.rt'), *tests.glob('prometheus/*.rt')]):
        texts = [text for text in literals(path.read_text(encoding='utf-8')) if format_of(text)]
        for number, text in enumerate(texts, 1):
            form = format_of(text)
            whole = text.replace('\n', '') if form == 'otlp' else text
            found[f'{path.stem} {number} by hand {form}'] = (form, whole.encode())
    return found
