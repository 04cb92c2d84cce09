"""Message sequence charts: the columns and rows of a run, as a text and as a picture. `trace` reads the run."""
import html

WIDTH = 100
BORN = ("a0", "println", "say")


class Chart:
    """The columns and the rows of a chart: of each event who sent the message, who got it, its label, its failure, and whom it created."""

    def __init__(self, run, title, most):
        self.title = title
        self.rows = [(*run.message(e.number), e.failure, [run.names[n] for n in e.created]) for e in run.events]
        seen = {name for row in self.rows for name in row[:2]}
        names = [name for name in run.names.values() if name in seen]
        devices = [name for name in names if name in ("println", "say")]
        actors = [name for name in names if name not in devices]
        room = most - len(devices)
        self.folded = actors[room - 1 :] if len(actors) > room else []
        self.columns = [*actors[: room - 1], "others", *devices] if self.folded else actors + devices
        self.rows = [(*map(self.column, row[:2]), self.label(*row[:4]), row[3], self.made(row[4])) for row in self.rows]
        self.notes = self.notes_of(run)

    def column(self, name):
        """The place of an actor's column, none for one that takes no part."""
        return self.columns.index("others" if name in self.folded else name) if name in self.columns + self.folded else None

    def made(self, created):
        """The columns of created actors."""
        return sorted({self.column(name) for name in created} - {None})

    def label(self, sender, target, label, failure):
        """A message's label."""
        whose = f" [{sender} to {target}]" if {sender, target} & set(self.folded) else ""
        return label + whose + (f" ({failure})" if failure else "")

    def notes_of(self, run):
        """The lines below a chart."""
        failed = [event for event in run.events if event.failure and not event.ran_out]
        spent = [event for event in run.events if event.ran_out]
        done = {event.number for event in run.events}
        pending = [n for n in run.cell_of if n not in done]
        count = len(done)
        notes = [f"finished {count} committed {count - len(failed) - len(spent)} failed {len(failed)} spent {len(spent)} pending {len(pending)}", run.end]
        if self.folded:
            notes.append(f"{len(self.folded)} actors share the column 'others': {self.folded[0]} to {self.folded[-1]}")
        for sender, target, label in map(run.message, pending[:20]):
            notes.append(f"not delivered {label} [{sender} to {target}]")
        return notes + [f"and {len(pending) - 20} more"] * (len(pending) > 20)


# ---- the chart as a text


class Lines:
    """The lines of a chart in ASCII, at most 100 columns wide."""

    most = 13

    def __init__(self, chart):
        self.chart, self.born = chart, {i for i, name in enumerate(chart.columns) if name in BORN}
        gaps = max(1, len(chart.columns) - 1)
        longest = max(len(row[2]) for row in chart.rows)
        self.at = [3 + i * max(7, min((WIDTH - 7) // gaps, longest + 6)) for i in range(len(chart.columns))]

    def line(self, *puts):
        """A line of the actors that are there, with texts put over it."""
        line = [" "] * WIDTH
        for i in self.born:
            line[self.at[i]] = "|"
        for place, text in puts:
            line[place : place + len(text)] = text
        return "".join(line[:WIDTH]).rstrip()

    def names(self):
        """The line of the names."""
        puts = ((max(0, at - len(name) // 2), name) for at, name in zip(self.at, self.chart.columns))
        line = [" "] * (WIDTH + 8)
        for place, name in puts:
            line[place : place + len(name)] = name
        return "".join(line).rstrip()

    def arrow(self, sender, target, label, failure):
        """The lines of a message."""
        label, head = label[: WIDTH - 10], "x" if failure else None
        if sender is None:
            return [self.line((0, "--" + (head or ">")), (self.at[target] + 2, label))]
        start, end = self.at[sender], self.at[target]
        if start == end and start + 6 + len(label) > WIDTH:
            return [self.line((start - 5 - len(label), f"{label} +-{head or '>'}"))]
        if start == end:
            return [self.line((start + 1, f"{head or '<'}-+ {label}"))]
        span = abs(end - start) - 1
        fits = len(label) + 5 <= span
        body = ("- " + label + " " if fits else "").ljust(span - 1, "-")
        shaft = body + (head or ">") if start < end else (head or "<") + body
        low = min(start, end)
        above = [] if fits else [self.line((min(low + 2, WIDTH - len(label)), label))]
        return above + [self.line((low + 1, shaft))]

    def creation(self, creator, created):
        """The line on which actors come to be."""
        ends = [self.at[i] for i in [creator, *created]]
        self.born.update(created)
        dots = (min(ends), "." * (max(ends) - min(ends)))
        return self.line(dots, (self.at[creator], "|"), *((self.at[i], "o") for i in created))

    def all(self):
        """The whole text."""
        lines = [self.chart.title, "---> message   ---x failed   ...o created", "", self.names(), self.line()]
        for sender, target, label, failure, created in self.chart.rows:
            lines += self.arrow(sender, target, label, failure)
            if created:
                lines.append(self.creation(target, created))
        return "\n".join([*lines, self.line(), self.names(), "", *self.chart.notes, ""])


# ---- the chart as a picture

STYLE = """
text { font-family: monospace; font-size: 13px; fill: #1a1a1a; }
.under { fill: #ffffff; }
.life { stroke: #b0b0b0; }
.arrow { stroke: #1a1a1a; fill: none; marker-end: url(#head); }
.made { stroke: #1f6f3f; stroke-dasharray: 2 4; fill: none; }
.cross { stroke: #b00020; stroke-width: 2; fill: none; }
.lost { stroke: #b00020; fill: none; }
.failed { fill: #b00020; }
.box { fill: #eef3f8; stroke: #1a1a1a; }
"""


class Picture:
    """The chart as SVG."""

    most = 40

    def __init__(self, chart):
        self.chart, self.parts, self.y = chart, [], 96
        longest = max(len(row[2]) for row in chart.rows)
        apart = max(96, min(240, 8 * longest + 40))
        self.at = [90 + i * apart for i in range(len(chart.columns))]
        self.begins = {i: 64 for i, name in enumerate(chart.columns) if name in BORN}
        self.width = max(self.at[-1] + 90, 12 + 8 * max(map(len, [chart.title, *chart.notes])), 8 * longest + 180)

    def put(self, kind, words, inside=None):
        """One more element."""
        self.parts.append(f"<{kind} {words}/>" if inside is None else f"<{kind} {words}>{html.escape(inside)}</{kind}>")

    def path(self, kind, points):
        """One more path."""
        self.put("path", f'class="{kind}" d="{points}"')

    def text(self, x, label, failure, anchor):
        """The text of a message, kept within the picture."""
        size = 8 * len(label)
        x = max(size / 2 + 8, min(x, self.width - size / 2 - 8)) if anchor == "middle" else min(x, self.width - size - 8)
        left = x - size / 2 if anchor == "middle" else x
        # So that no line goes through it.
        self.put("rect", f'class="under" x="{left:.0f}" y="{self.y - 18}" width="{size}" height="15"')
        self.put("text", f'class="{"failed" if failure else "passed"}" x="{x:.0f}" y="{self.y - 6}" text-anchor="{anchor}"', label)

    def arrow(self, sender, target, label, failure):
        """A message."""
        end = self.at[target]
        start = end - 60 if sender is None else self.at[sender]
        if start == end:
            self.path("lost" if failure else "arrow", f"M {start} {self.y - 10} h 26 v 10 h -24")
            self.text(start + 34, label, failure, "start")
        else:
            tip = end - 2 if start < end else end + 2
            self.path("lost" if failure else "arrow", f"M {start} {self.y} H {tip}")
            self.text((start + end) / 2 if sender is not None else end + 8, label, failure, "middle" if sender is not None else "start")
        if failure:
            self.path("cross", f"M {end - 6} {self.y - 6} l 12 12 m 0 -12 l -12 12")

    def creation(self, creator, created):
        """Actors that come to be."""
        for i in created:
            self.path("made", f"M {self.at[creator]} {self.y} H {self.at[i]}")
            self.put("circle", f'cx="{self.at[i]}" cy="{self.y}" r="4" fill="#1f6f3f"')
            self.begins.setdefault(i, self.y)

    def heads(self, y):
        """The names of the columns."""
        for at, name in zip(self.at, self.chart.columns):
            self.put("rect", f'class="box" x="{at - 38}" y="{y}" width="76" height="24" rx="4"')
            self.put("text", f'x="{at}" y="{y + 17}" text-anchor="middle"', name)

    def all(self):
        """The whole file."""
        for sender, target, label, failure, created in self.chart.rows:
            self.arrow(sender, target, label, failure)
            self.y += 30
            if created:
                self.creation(target, created)
                self.y += 30
        lives = "".join(f'<path class="life" d="M {self.at[i]} {y} V {self.y}"/>' for i, y in sorted(self.begins.items()))
        self.heads(40)
        self.put("text", 'x="12" y="24"', self.chart.title)
        for i, note in enumerate(self.chart.notes):
            self.put("text", f'x="12" y="{self.y + 24 + 18 * i}"', note)
        height = self.y + 24 + 18 * len(self.chart.notes)
        head = '<marker id="head" markerWidth="9" markerHeight="9" refX="7" refY="4" orient="auto"><path d="M 0 0 L 8 4 L 0 8 z" fill="#1a1a1a"/></marker>'
        return "\n".join(
            [
                f'<svg xmlns="http://www.w3.org/2000/svg" width="{self.width}" height="{height}" viewBox="0 0 {self.width} {height}">',
                f"<style>{STYLE}</style><defs>{head}</defs>",
                f'<rect width="{self.width}" height="{height}" fill="#ffffff"/>{lives}',
                *self.parts,
                "</svg>\n",
            ]
        )
