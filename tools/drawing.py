"""Draws the graph of crates: a band for each layer, the lowest at the bottom, and a line up from each crate to those built on it."""
GAP, ROW, MARGIN, HIGH = 14, 58, 24, 26
FILLS = ["#e8eef7", "#fdf1dc", "#e6f4ea", "#f3e8f7", "#fde8e4", "#e4f3f5", "#f0f0f0"]
LINES = ["#5b7fae", "#b98a2f", "#4f9a64", "#8e5ba6", "#bb6150", "#3f8f9a", "#888888"]


def width(name):
    """How wide a crate's box is."""
    return round(7.3 * len(name)) + 18


def rows_of(graph):
    """The rows of the picture from the bottom up, each with its layer's number: a crate is above those of its layer that it lists."""
    rows = []
    for number, crates in enumerate(graph.layers.values()):
        level = {}
        for crate in crates:
            level[crate] = 1 + max((level[low] for low in graph.below(crate) if low in level), default=-1)
        rows += [(number, [it for it in crates if level[it] == at]) for at in sorted(set(level.values()))]
    return rows


def spread(row, wish):
    """Puts a row's boxes near the places that they wish, in the order of these, none over another."""
    row.sort(key=lambda it: wish[it])
    at, right = {}, MARGIN
    for it in row:
        at[it] = max(wish[it], right + width(it) / 2)
        right = at[it] + width(it) / 2 + GAP
    limit = None
    for it in reversed(row):
        most = max(wish[it], 0) if limit is None else limit - width(it) / 2
        at[it] = max(min(at[it], most), width(it) / 2 + MARGIN)
        limit = at[it] - width(it) / 2 - GAP
    # (what no place to the left could mend moves right)
    right = MARGIN
    for it in row:
        at[it] = max(at[it], right + width(it) / 2)
        right = at[it] + width(it) / 2 + GAP
    return at


def places(graph, rows):
    """Where the middle of each box is, across: near those that it is built on and those that are built on it."""
    near = {it: list(graph.reduced(it)) for it in graph.lists}
    for upper in graph.lists:
        for low in graph.reduced(upper):
            near[low].append(upper)
    at = {it: 480 + 150 * (number - (len(row) - 1) / 2) for _, row in rows for number, it in enumerate(row)}
    for turn in range(60):
        for _, row in rows if turn % 2 else reversed(rows):
            wish = {it: sum(at[other] for other in near[it]) / len(near[it]) if near[it] else at[it] for it in row}
            at.update(spread(row, wish))
    left = min(at[it] - width(it) / 2 for it in at)
    return {it: round(x - left + MARGIN) for it, x in at.items()}


def picture(graph):
    """The SVG text of the graph."""
    rows = rows_of(graph)
    at = places(graph, rows)
    wide = max(x + width(it) // 2 for it, x in at.items()) + MARGIN
    layers, tall = list(graph.layers), MARGIN + ROW * len(rows) + 22 * len(graph.layers)
    top, bands, y = {}, [], tall - 10
    for number, layer in enumerate(layers):
        own = [row for it, row in rows if it == number]
        high = ROW * len(own) + 16
        y -= high + 6
        bands.append(f'<rect x="8" y="{y}" width="{wide - 16}" height="{high}" rx="8" fill="{FILLS[number % len(FILLS)]}"/>')
        bands.append(f'<text x="18" y="{y + 18}" class="layer" fill="{LINES[number % len(LINES)]}">{layer}</text>')
        for up, row in enumerate(own):
            top |= {it: y + high - ROW * (up + 1) + 18 for it in row}
    lines, boxes = [], []
    for number, crate in ((number, it) for number, row in rows for it in row):
        color = LINES[number % len(LINES)]
        for low in graph.reduced(crate):
            start, stop = top[low], top[crate] + HIGH
            bend = max(18, (start - stop) // 2)
            lines.append(f'<path d="M{at[low]} {start}C{at[low]} {start - bend} {at[crate]} {stop + bend} {at[crate]} {stop}" stroke="{color}"/>')
        wider = width(crate)
        boxes.append(f'<rect x="{at[crate] - wider // 2}" y="{top[crate]}" width="{wider}" height="{HIGH}" rx="5" stroke="{color}"/>')
        boxes.append(f'<text x="{at[crate]}" y="{top[crate] + 17}" class="crate">{crate}</text>')
    style = "text{font:12px ui-monospace,monospace}.crate{text-anchor:middle}.layer{font:bold 12px sans-serif}path{fill:none;stroke-opacity:.55}.boxes rect{fill:#fff}"
    head = f'<svg xmlns="http://www.w3.org/2000/svg" viewBox="0 0 {wide} {tall}" width="{wide}" height="{tall}" role="img" aria-label="The crates by layer, each with lines to what it is built on">'
    parts = [head, f"<style>{style}</style>", f'<rect width="{wide}" height="{tall}" fill="#fff"/>', *bands, *lines, '<g class="boxes">', *boxes, "</g>", "</svg>"]
    return "\n".join(parts) + "\n"
