"""Reports that can be handed on: a page in one file, JUnit's XML, JSON. Both programs of the bench give their cases."""
import collections, html, json
from xml.sax.saxutils import escape, quoteattr

# What was tried: its name, how it went (`passed`, `failed` or `error`), one line of words, all lines, what JSON has besides, and what makes more for the page.
Case = collections.namedtuple("Case", "name outcome words lines facts page", defaults=[[], {}, lambda: ""])
PASSED, FAILED, ERROR = "passed", "failed", "error"

STYLE = """body { font: 15px/1.5 system-ui, sans-serif; max-width: 75em; margin: 2em auto; padding: 0 1em; color: #222 }
pre { font: 13px/1.5 ui-monospace, monospace; background: #f6f6f4; padding: .8em; overflow-x: auto }
summary { cursor: pointer; padding: .2em 0 } mark { background: #ffb3a8; font-weight: bold }
.passed > summary::before { content: "\\2713  "; color: #18794e } .failed > summary::before, .error > summary::before { content: "\\2717  "; color: #b3261e }
.failed > summary, .error > summary { font-weight: 600 } table { border-collapse: collapse } td, th { text-align: left; padding: .1em .8em .1em 0 }
ul.tree { list-style: none; padding-left: 1.2em; font: 13px/1.6 ui-monospace, monospace }"""


def case_html(case):
    shown = "" if case.outcome == PASSED else " open"
    lines = f"<pre>{html.escape(chr(10).join(case.lines))}</pre>" if case.lines else ""
    return f'<details class="{case.outcome}"{shown}><summary>{html.escape(case.name)}: {html.escape(case.words)}</summary>\n{lines}{case.page()}</details>\n'


def as_html(title, summary, cases):
    order = sorted(cases, key=lambda case: case.outcome == PASSED)
    return (f'<!DOCTYPE html>\n<html lang="en"><head><meta charset="utf-8"><title>{html.escape(title)}</title><style>{STYLE}</style></head>\n'
            f"<body><h1>{html.escape(title)}</h1><p>{html.escape(summary)}</p>\n{''.join(map(case_html, order))}</body></html>\n")


def case_xml(case):
    tag, text = "failure" if case.outcome == FAILED else "error", escape("\n".join(case.lines) or case.words)
    inside = "" if case.outcome == PASSED else f"<{tag} message={quoteattr(case.words)}>{text}</{tag}>"
    return f"  <testcase classname={quoteattr(case.facts.get('folder', 'heideklonk'))} name={quoteattr(case.name)}>{inside}</testcase>\n"


def printable(text):
    """XML knows no control characters."""
    return "".join(letter if letter in "\n\t" or letter.isprintable() else "?" for letter in text)


def as_junit(title, summary, cases):
    count = collections.Counter(case.outcome for case in cases)
    head = f'<testsuite name={quoteattr(title)} tests="{len(cases)}" failures="{count[FAILED]}" errors="{count[ERROR]}">'
    return printable(f'<?xml version="1.0" encoding="UTF-8"?>\n{head}\n{"".join(map(case_xml, cases))}</testsuite>\n')


def as_json(title, summary, cases):
    rows = [{"name": case.name, "outcome": case.outcome, "words": case.words, **case.facts} for case in cases]
    return json.dumps({"title": title, "summary": summary, "cases": rows}, ensure_ascii=False, indent=1) + "\n"


def add_options(parser):
    """The words that both programs have for reports."""
    parser.add_argument("--failures", action="store_true", help="tell only what failed, and the summary")
    parser.add_argument("--html", metavar="FILE", help="write a report as one page")
    parser.add_argument("--junit", metavar="FILE", help="write a report as JUnit's XML")
    parser.add_argument("--json", action="store_true", help="tell all as JSON, and nothing else")
    parser.add_argument("--library", metavar="COMMAND", help="another program that speaks the harness's protocol")


def write_reports(words, title, summary, cases):
    for path, made in ((words.html, as_html), (words.junit, as_junit)):
        if path:
            with open(path, "w", encoding="utf-8") as file:
                file.write(made(title, summary, cases))
    if words.json:
        print(as_json(title, summary, cases), end="")
