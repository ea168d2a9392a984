#!/usr/bin/env python3
"""Draws a run: a column for main, for each thread and for each host's work, a row for each label.

    tools/timeline.py REPORT [--text TEXT] [--page FILE | --picture FILE]

REPORT is what `run` printed. The page is HTML with nothing beside it: it draws the rows that are in sight, so that fifty thousand labels
scroll as ten do. The picture is an SVG of the whole run, for short ones. Without a file the page goes to standard output.

With --text, the scenario that was run, each state is the machine's (tools/explain.py has the same replay), columns are grouped by instance
and call, and the page shows the line and the op of the row where the mouse is. Without it a stopped thread may be queued already.

Grey is an entry at a mark, blue runs, green is a work that is polled, white is stopped (it waits, is suspended, blocked or behind another),
yellow is held. An arrow goes to a thread or a work that is made, and to a thread that is woken; a bar across a column is its end. The row
of a trap, a failure or a deadlock is red, and the last row is the outcome.

On the page, "go to" takes a label's number and "search" goes through all rows, to the next one by Enter and back by Shift and Enter. The
filter names columns, as `main 1 4-7 f2`, and keeps the rows that name one of them. All can stand in the address: run.html#1,4-7 filters,
run.html#@120 goes to label 120, run.html#/wakes searches.

Statuses: 2 wrong words, or REPORT is no report; 3 TEXT is no scenario; 4 a file can't be read or written; 5 the report is of another text;
6 TEXT is too long.
"""
import argparse
import html
import json
import pathlib
import re
import sys

import drawing
import scenario
from explain import ENDS

TALL, WIDE, LEFT = 18, 26, 360
LETTER = 6.7
COLOURS = {'queued': '#b8bcc4', 'runs': '#3b76c4', 'live': '#8fc98f', 'stopped': '#ffffff', 'held': '#f0c648'}
RED = '#fbd5d5'
BAD = re.compile(r'^trap |^deadlock | fails')
ARROW = ('<defs><marker id="tip" markerWidth="7" markerHeight="7" refX="6" refY="3" orient="auto">'
         '<path d="M0,0 L6,3 L0,6 z" fill="#333"/></marker></defs>')
TEMPLATE = pathlib.Path(__file__).resolve().parent / 'timeline.html'


def groups(columns):
    """Neighbours of one instance, and of one call: the name of each group, its first column and how many they are.

    An instance whose name is too long for its columns is named with each of its calls."""
    instances, calls = [], []
    for place, (column, call, name) in enumerate(columns):
        instance, _, export = name.partition('.')
        title = export or ('' if column == 'main' else column if column[0] == 'f' else f'call {call}')
        for found, key, shown in ((instances, instance, instance), (calls, call, title)):
            if found and found[-1][0] == key:
                found[-1][3] += 1
            else:
                found.append([key, shown, place, 1])
    for group in instances:
        if LETTER * len(group[1]) > WIDE * group[3] - 8:
            for call in calls:
                if group[2] <= call[2] < group[2] + group[3]:
                    call[1] = f'{group[1]}.{call[1]}' if call[1] else group[1]
            group[1] = ''
    return instances, calls


def height_of_heads(columns):
    """Room for the instances' line, the exports' names upright and the columns' numbers."""
    return round(44 + LETTER * max((len(title) for _, title, _, _ in groups(columns)[1]), default=0))


def heads(columns, top):
    """The lines over the columns as pieces of an SVG."""
    instances, calls = groups(columns)
    for _, title, place, many in instances:
        if title:
            x = LEFT + WIDE * place - 10
            yield f'<rect x="{x}" y="4" width="{WIDE * many - 6}" height="15" fill="#eef1f5"/>'
            yield f'<text x="{x + 3}" y="15" font-weight="bold">{html.escape(title)}</text>'
    for _, title, place, many in calls:
        x = LEFT + WIDE * place
        yield f'<text transform="translate({x + 4} {top - 22}) rotate(-90)">{html.escape(title)}</text>'
        if many > 1:
            yield f'<line x1="{x - 8}" y1="{top - 18}" x2="{x + WIDE * (many - 1) + 8}" y2="{top - 18}" stroke="#9aa0aa"/>'
    for place, (column, _, _) in enumerate(columns):
        shown = '' if column == 'main' else column
        yield f'<text x="{LEFT + WIDE * place}" y="{top - 6}" text-anchor="middle" fill="#666">{shown}</text>'


def legend(exact):
    """What each state is called: without a text a stopped thread may be queued."""
    return {state: 'stopped or queued' if state == 'stopped' and not exact else state for state in COLOURS}


def picture(drawn, outcome, exact=True):
    """The whole run as an SVG."""
    columns, labels = drawn.columns(), drawn.labels
    at = {column[0]: LEFT + WIDE * place for place, column in enumerate(columns)}
    top = height_of_heads(columns)
    tall, wide = top + TALL * (len(labels) + 2), LEFT + WIDE * len(columns) + 40
    parts = [f'<svg xmlns="http://www.w3.org/2000/svg" width="{wide}" height="{tall}" font-family="monospace" font-size="11">',
             '<rect width="100%" height="100%" fill="white"/>', ARROW, *heads(columns, top)]
    for row, label in enumerate(labels):
        if BAD.search(label):
            parts.append(f'<rect x="0" y="{top + TALL * row}" width="{wide}" height="{TALL}" fill="{RED}"/>')
    x = 8
    for state, shown in legend(exact).items():
        parts.append(f'<rect x="{x}" y="6" width="12" height="12" fill="{COLOURS[state]}" stroke="#9aa0aa"/>')
        parts.append(f'<text x="{x + 16}" y="16" fill="#666">{shown}</text>')
        x += round(26 + LETTER * len(shown))
    for column, state, since, until in drawn.bars:
        parts.append(f'<rect x="{at[column] - 6}" y="{top + TALL * since}" width="12" height="{TALL * (until - since)}" '
                     f'fill="{COLOURS[state]}" stroke="#9aa0aa"/>')
    for column, row in drawn.ends:
        if column in at:
            parts.append(f'<rect x="{at[column] - 9}" y="{top + TALL * (row + 1) - 1}" width="18" height="3" fill="#333"/>')
    for row, label in enumerate(labels):
        parts.append(f'<text x="8" y="{top + TALL * row + 13}"><tspan fill="#999">{row + 1}</tspan> {html.escape(label)}</text>')
    for row, source, target in drawn.arrows:
        if source in at and target in at:
            y = top + TALL * row + TALL // 2
            parts.append(f'<line x1="{at[source]}" y1="{y}" x2="{at[target]}" y2="{y}" stroke="#333" marker-end="url(#tip)"/>')
    parts.append(f'<text x="8" y="{top + TALL * len(labels) + 15}" font-weight="bold">{html.escape(outcome)}</text></svg>')
    return '\n'.join(parts) + '\n'


def page(drawn, outcome, exact=True, text=''):
    """The run as one HTML page."""
    data = json.dumps({'labels': drawn.labels, 'outcome': outcome, 'columns': drawn.columns(), 'bars': drawn.bars, 'arrows': drawn.arrows,
                       'ends': drawn.ends, 'lines': drawn.lines if text else [], 'text': text.splitlines()}, separators=(',', ':'))
    keys = ''.join(f'<span class="key" style="background:{COLOURS[state]}">{shown}</span>' for state, shown in legend(exact).items())
    written = TEMPLATE.read_text(encoding='utf-8')
    for word, value in {'KEYS': keys, 'SIZE_TALL': TALL, 'SIZE_WIDE': WIDE, 'SIZE_LEFT': LEFT, 'SIZE_LETTER': LETTER, 'RED_HERE': RED,
                        'COLOURS_HERE': json.dumps(COLOURS), 'ARROW_HERE': ARROW, 'BAD_HERE': BAD.pattern}.items():
        written = written.replace(word, str(value))
    return written.replace('DATA', data.replace('</', '<\\/'))


def drawn_of(report, text):
    """The drawing of a report, its outcome, and the text's lines if there is a text."""
    *labels, outcome = scenario.report(report)
    if not outcome.startswith(ENDS):
        raise scenario.Unreadable(2, f'{report} is no report: its last line is `{outcome[:60]}`, which is no outcome')
    if text is None:
        return drawing.of_labels(labels), outcome, ''
    return drawing.of_replay(scenario.read(text), labels), outcome, scenario.content(text).decode('ascii')


def main(given=None):
    """The status of a call with these words, or with those of the command line."""
    parser = argparse.ArgumentParser(description=__doc__, formatter_class=argparse.RawDescriptionHelpFormatter)
    parser.add_argument('report')
    parser.add_argument('--text')
    where = parser.add_mutually_exclusive_group()
    where.add_argument('--page')
    where.add_argument('--picture')
    options = parser.parse_args(given)
    try:
        drawn, outcome, text = drawn_of(options.report, options.text)
        exact = options.text is not None
        made = picture(drawn, outcome, exact) if options.picture else page(drawn, outcome, exact, text)
        target = options.picture or options.page
        if target:
            pathlib.Path(target).write_text(made, encoding='utf-8')
        else:
            sys.stdout.write(made)
    except scenario.Unreadable as error:
        print(f'timeline: {error}', file=sys.stderr)
        return error.status
    except OSError as error:
        print(f"timeline: {error.filename or 'standard output'} can't be written: {error.strerror}", file=sys.stderr)
        return 4
    return 0


if __name__ == '__main__':
    sys.exit(main())
