"""A document as HTML for a PDF: what stands on it (records/paper.py) laid out on A4, with number,
code and page of pages at each page's foot. It names no other file and no address to be fetched."""
import json
from html import escape

from goo_service.records.letters import pieces
from goo_service.records.questions import Row

STYLE = '''
@page { size: A4; margin: 18mm 16mm 20mm;
  @bottom-left { font: 8pt "DejaVu Sans", sans-serif; color: #333; white-space: nowrap;
    content: %s }
  @bottom-right { font: 8pt "DejaVu Sans", sans-serif; color: #333; white-space: nowrap;
    content: %s counter(page) %s counter(pages) %s } }
html { font: 9pt/1.35 "DejaVu Sans", sans-serif; color: #111; }
body { margin: 0; border-top: 3pt solid #14513c; padding-top: 4mm; }
.house { color: #14513c; font-weight: bold; margin: 0 0 1mm; }
h1 { font-size: 15pt; margin: 0 0 3mm; overflow-wrap: anywhere; }
.claim { font-size: 11pt; margin: 0 0 4mm; }
.facts { border: solid #bbb; border-width: .5pt 0; padding: 2mm 0 0; margin: 0 0 4mm; }
.facts div { display: inline-block; width: 31%%; vertical-align: top; padding: 0 2%% 2mm 0; }
.facts small, caption, th { color: #555; font-weight: normal; font-size: 7.5pt; }
.facts small, .line { display: block; }
.facts, td { overflow-wrap: anywhere; }
.check { border: .5pt solid #999; padding: 2mm 3mm; margin: 0 0 5mm; break-inside: avoid;
  min-height: 28mm; }
.check svg { float: right; width: 28mm; height: 28mm; margin-left: 4mm; }
.check p { margin: 0 0 1mm; } .check b { font: bold 11pt "DejaVu Sans Mono", monospace; }
.foot, .note { color: #333; font-size: 7.5pt; }
table { width: 100%%; border-collapse: collapse; table-layout: fixed; margin: 0 0 5mm;
  font-size: 8pt; }
caption { text-align: left; padding-bottom: 1mm; }
th { text-align: left; border-bottom: .7pt solid #555; padding: .8mm 1mm .8mm 0; }
td { vertical-align: top; border-bottom: .3pt solid #bbb; padding: 1mm 1mm 1mm 0; }
th, td { hyphens: manual; }
.right { text-align: right; padding-right: 0; width: 12%%; }
.days { white-space: nowrap; width: 13%%; }
.lot { break-inside: avoid; break-after: avoid; } .lot td { border-bottom: 0; padding-bottom: 0; }
th:first-child { width: 23%%; }
.ranges { padding-top: .5mm; }
.ranges span { display: inline-block; width: 33%%; white-space: nowrap; font-size: 7.5pt; }
.mark { border: .4pt solid #a32a22; color: #a32a22; font: bold 7pt "DejaVu Sans Mono", monospace; }
'''
SIDE = 4
"""Light modules around a QR code (ISO/IEC 18004)."""


def visible(text: str) -> str:
    """A text that others may have written, with its special characters shown by their codes."""
    inner = ''.join(f'<span class="mark">{piece.text}</span>' if piece.is_mark
                    else escape(piece.text) for piece in pieces(text))
    return f'<bdi>{inner}</bdi>'


def quote(text: str) -> str:
    """A text as a string of CSS within a style element."""
    return json.dumps(text, ensure_ascii=False).replace('<', '\\3c ')


def lines(texts: list[str], kind: str = 'line') -> str:
    return ''.join(f'<span class="{kind}">{visible(text)}</span>' for text in texts)


def qr(rows: list[str]) -> str:
    """A QR code as one path."""
    if not rows:
        return ''
    size = len(rows) + 2 * SIDE
    path = ''.join(f'M{x + SIDE} {y + SIDE}h1v1h-1z' for y, row in enumerate(rows)
                   for x, letter in enumerate(row) if letter == '1')
    return (f'<svg xmlns="http://www.w3.org/2000/svg" viewBox="0 0 {size} {size}">'
            f'<path d="{path}" fill="#000"/></svg>')


def table(of: Row) -> str:
    """A table; what is in a column of ranges stands below its row."""
    kinds = [column['kind'] for column in of['columns']]
    beside = [at for at, kind in enumerate(kinds) if kind != 'ranges']
    below = [at for at, kind in enumerate(kinds) if kind == 'ranges']
    heads = ''.join(f'<th class="{kinds[at]}">{visible(of["columns"][at]["name"])}</th>'
                    for at in beside)
    rows = []
    for row in of['rows']:
        ranges = ''.join(lines(row[at], 'range') for at in below)
        cells = ''.join(f'<td class="{kinds[at]}">{lines(row[at])}</td>' for at in beside)
        rows.append(f'<tr class="{"lot" if ranges else ""}">{cells}</tr>')
        if ranges:
            rows.append(f'<tr><td class="ranges" colspan="{len(beside)}">{ranges}</td></tr>')
    return (f'<table><caption>{visible(of["caption"])}</caption>'
            f'<thead><tr>{heads}</tr></thead><tbody>{"".join(rows)}</tbody></table>')


def page(of: Row) -> str:
    """The document as HTML."""
    before, between, after = map(quote, of['page'].split('{}'))
    style = STYLE % (quote(of['each_page']), before, between, after)
    claim = ''.join(visible(text) if at % 2 else f'<b>{visible(text)}</b>'
                    for at, text in enumerate(of['claim']))
    facts = ''.join(f'<div><small>{visible(fact["name"])}</small>{lines(fact["lines"])}</div>'
                    for fact in of['facts'])
    notes = ''.join(f'<p class="note">{visible(text)}</p>' for text in of['notes'])
    check = of['check']
    return f'''<!doctype html>
<html lang="{of["language"]}"><head><meta charset="utf-8"><title>{escape(of["title"])}</title>
<style>{style}</style></head><body>
<p class="house">{visible(of["house"])}</p><h1>{visible(of["title"])}</h1>
<p class="claim">{claim}</p><div class="facts">{facts}</div>{notes}
<div class="check">{qr(of["qr"])}<p>{visible(check["name"])} <b>{visible(check["code"])}</b></p>
<p class="foot">{visible(check["text"])}</p></div>
{"".join(map(table, of["tables"]))}
<p class="foot">{visible(of["foot"])}</p></body></html>'''
