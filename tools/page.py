"""One page of HTML with a time line of each session of a log; it loads nothing else.

Other tools import this; it is not run.
"""

from html import escape

import names

COLOURS = {"asked": "#c9ced6", "login": "#f2c14e", "authorised": "#3c9d5d",
           "restricted": "#d9822b", "held": "#c0392b", "ended": "#ffffff"}

STYLE = """
body { font: 15px/1.5 system-ui, sans-serif; margin: 2rem auto; max-width: 76rem; padding: 0 1rem;
  color: #1d2430; }
table { border-collapse: collapse; width: 100%; }
th, td { text-align: left; padding: .3rem .6rem; border-bottom: 1px solid #e3e6ea;
  white-space: nowrap; }
td.line { width: 50%; }
.bar { display: flex; height: 1.1rem; background: #f6f7f9; border-radius: 3px; overflow: hidden; }
.bar span { display: block; min-width: 1px; }
.key span { display: inline-block; margin-right: 1.2rem; }
.key i { display: inline-block; width: .9rem; height: .9rem; margin-right: .4rem;
  vertical-align: -2px; border: 1px solid #aab; }
"""


def bar(row, first, last, clock_text):
    """The time line of a session from the first second of the log to its last."""
    whole = max(1, last - first)
    parts = [f'<span style="flex:{row.began - first} 0 0"></span>']
    ends = [at for at, _, _ in row.history[1:]] + [last]
    for (at, state, vlan), until in zip(row.history, ends):
        told = f"{state}{f', VLAN {vlan}' if vlan else ''}: {clock_text(at)}, {until - at} s"
        parts.append(f'<span style="flex:{until - at} 0 0;background:{COLOURS[state]}"'
                     f' title="{escape(told)}"></span>')
    return f'<div class="bar" data-seconds="{whole}">{"".join(parts)}</div>'


def table_row(row, first, last, clock_text):
    """A session as a row of the table."""
    number = f"{row.number:08X}" if row.number is not None else ""
    name = names.printable(row.name) if row.name else ""
    state = row.state + (f": {row.cause}" if row.cause and not row.is_open else "")
    cells = (row.port, row.host.hex(":"), name, row.eap or "", number, state, row.vlan or "")
    inside = "".join(f"<td>{escape(str(cell))}</td>" for cell in cells)
    line = bar(row, first, last, clock_text)
    return f'<tr class="session">{inside}<td class="line">{line}</td></tr>'


def drops(counted):
    """The table of what was dropped."""
    rows = sorted((labels, n) for (name, labels), n in counted.count.items()
                  if name == "switch_drops")
    for labels, n in rows:
        of, reason = (value for _, value in labels)
        yield (f"<tr><td>{escape(of)}</td><td>{escape(reason)}</td><td>{n}</td>"
               f"<td>{escape(names.DROPS[of][reason])}</td></tr>")


def page(reader, table, counted, clock_text):
    """The page."""
    first, last = int((reader.get("clock", "0"))[0]), table.at
    rows = sorted(table.ended + list(table.rows.values()), key=lambda r: (r.port, r.host, r.began))
    body = "\n".join(table_row(row, first, last, clock_text) for row in rows)
    key = "".join(f'<span><i style="background:{colour}"></i>{state}</span>'
                  for state, colour in COLOURS.items())
    nas = escape(" ".join(reader.get("nas", "192.0.2.10", "sw1")))
    controls = counted.count["switch_control_records", ()]
    return f"""<!DOCTYPE html>
<html lang="en"><head><meta charset="utf-8"><title>Sessions of {nas}</title>
<style>{STYLE}</style></head><body>
<h1>Sessions of {nas}</h1>
<p id="span">{clock_text(first)} to {clock_text(last)}, {len(rows)} sessions,
{controls} control records.</p>
<p class="key">{key}</p>
<table id="sessions"><tr><th>Port<th>Host<th>User<th>EAP<th>Session<th>State<th>VLAN<th>Time</tr>
{body}
</table>
<h2>Dropped</h2>
<table id="drops"><tr><th>What<th>Name<th>How often<th>Why</tr>
{"".join(drops(counted))}
</table>
</body></html>
"""
