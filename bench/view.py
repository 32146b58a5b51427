"""Pictures of small random results beside those that are worked out here.

view.py TORVIEW SEED COUNT

Each result has kept paths of two ASes alone, so that any labels go with them and each edge is open. The picture of an AS of it is worked
out here, from docs/FORMATS.md and drawing/specs, and compared with what the program writes, for random numbers of boxes and generations.
"""
import os
import random
import subprocess
import sys
import tempfile

HEAD = ['tor|1', 'sets|cut', 'ratio|60'] + [f'aside|{cause}|0' for cause in 'nopath badsegments confed sets reserved loop short'.split()]
STYLE = (
    'svg{font:11px sans-serif;background:#fff;color-scheme:light dark}text{fill:#111}.t{font-size:16px;font-weight:bold}.b{font-weight:bold}'
    '.s{font-size:10px}.m{text-anchor:middle}.p{fill:#d6e7f7}.q{fill:#fbeebb}.c{fill:#ecd9e2}'
    '.f,.o,.d,.k{fill:#fff;stroke:#111;stroke-width:1.5}.d{stroke:#999}.r{fill:none;stroke:#888;shape-rendering:crispEdges}'
    'polyline.f,polyline.o{fill:none}@media (prefers-color-scheme:dark){svg{background:#111}text{fill:#eee}.p{fill:#15324c}'
    '.q{fill:#433a12}.c{fill:#452a3b}.f,.o,.d,.k{fill:#111;stroke:#eee}.d{stroke:#888}.r{stroke:#999}}')
LOOKS = {'forced': ('f', 'none'), 'open': ('o', '4 3'), None: ('d', '1 3')}
KINDS = (('provider', 'p'), ('peer', 'q'), ('customer', 'c'))
LINKS = [None, None, 'https://as.example/{}', 'http://a/?as={}&of={}&', 'https://{{}}{}{a}&amp;{', 'http://']


def random_result(draws, ases, wanted):
    """Numbers of ASes, edges as (low, high, label, mark, support), and the text of a result that has them."""
    numbers = draws.sample([n for n in range(1, 64000) if n != 23456], ases)
    pairs = set()
    while len(pairs) < wanted:
        one, other = draws.choice(numbers[:max(2, ases // 3)]), draws.choice(numbers)
        if one != other:
            pairs.add((min(one, other), max(one, other)))
    edges, kept, opens = [], [], []
    for low, high in draws.sample(sorted(pairs), len(pairs)):
        paths = draws.sample([f'{low} {high}', f'{high} {low}'], draws.randint(1, 2))
        kept += [f'kept|1|{path}' for path in paths]
        label = draws.choice(['low', 'high', 'high', 'peer'])
        edges.append((low, high, label, 'open', len(paths)))
        if label != 'peer':
            opens.append(f'open|{high}|{low}' if label == 'low' else f'open|{low}|{high}')
    lines = HEAD + kept + ['edge|' + '|'.join(map(str, edge)) for edge in edges] + opens
    peers = sum(label == 'peer' for _, _, label, _, _ in edges)
    return numbers, edges, '\n'.join(lines + [f'end|{len(kept)}|0|{len(edges)}|0|{peers}']) + '\n'


def upward(edge):
    """The customer and the provider at the ends of an edge."""
    low, high, label, _, _ = edge
    return {'low': (high, low), 'high': (low, high), 'peer': (None, None)}[label]


def in_order(neighbours):
    """Neighbours as (number, mark, support), by falling support and then by number."""
    return sorted(neighbours, key=lambda n: (-n[2], n[0]))


def groups_of(edges, asked):
    """The providers, the peers and the customers."""
    groups = ([], [], [])
    for low, high, label, mark, support in edges:
        if asked in (low, high):
            place = 1 if label == 'peer' else 2 if (label == 'low') == (asked == low) else 0
            groups[place].append((high if asked == low else low, mark, support))
    return [in_order(group) for group in groups]


def rows(boxes):
    return max(1, (boxes + 7) // 8)


def cell(boxes, i):
    """How many boxes the row of box i has, how many stand left of it, and how many rows above."""
    return min(8, boxes - 8 * (i // 8)), i % 8, i // 8


def counted(n, what):
    return f'{n:,} {what}' + ('' if n == 1 else 's')


class Picture:
    def __init__(self, edges, asked, most, depth, link):
        self.most, self.lines, self.further, self.link = most, [], depth - 1, link
        groups = groups_of(edges, asked)
        floors, near = [groups[0]], {asked} | {n[0] for group in groups for n in group}
        for _ in range(self.further):
            drawn, best = {n[0] for n in floors[-1][:most]}, {}
            for edge in edges:
                customer, provider = upward(edge)
                if customer in drawn and provider not in near and (provider not in best or best[provider][2] < edge[4]):
                    best[provider] = (provider, edge[3], edge[4])
            floors.append(in_order(best.values()))
            near |= set(best)
        self.write(edges, asked, groups, floors)

    def entries(self, neighbours):
        left = len(neighbours) - self.most
        return neighbours[:self.most] + ([(None, None, left)] if left > 0 else [])

    def text(self, x, y, look, words):
        self.lines.append(f'<text x="{x}" y="{y}" class="{look}">{words}</text>')

    def line(self, points, look):
        self.lines.append('<polyline points="' + ''.join(f' {x},{y}' for x, y in points) + f'" class="{look}"/>')

    def start(self, number):
        """The first line of a box, and the last one."""
        if self.link is None or number is None:
            return '<g>', '</g>'
        return f'<a href="{self.link.replace("{}", str(number)).replace("&", "&amp;")}">', '</a>'

    def band(self, y, height, look, kind, neighbours, part):
        self.lines.append(f'<rect x="8" y="{y}" width="{self.width - 16}" height="{height}" class="{look}"/>')
        self.text(16, y + 20, 'b', kind + 's')
        self.text(16, y + 36, 's', f'{len(neighbours):,} in all')
        self.text(16, y + 50, 's', part)

    def box(self, x, y, entry, kind, is_high=False):
        number, mark, support = entry
        look, dashes = ('d', 'none') if is_high and number is not None else LOOKS[mark]
        paths = counted(support, 'path')
        if number is None:
            title, texts = counted(support, 'more ' + kind), [(20, 'm', f'{support:,} more')]
        else:
            title = f'AS{number}, provider, up to {paths}' if is_high else f'AS{number}, {kind}, {mark}, {paths}'
            texts = [(14, 'm', f'AS{number}'), (26, 'm s', paths)]
        first, last = self.start(number)
        self.lines += [first, f'<title>{title}</title>',
                       f'<rect x="{x}" y="{y}" width="88" height="32" class="{look}" stroke-dasharray="{dashes}"/>']
        for down, letters, words in texts:
            self.text(x + 44, y + down, letters, words)
        self.lines.append(last)

    def x(self, count, place):
        return 144 + 52 * (self.columns - count) + 104 * place

    def floor_y(self, up):
        return 76 + 104 * (self.further - up)

    def write(self, edges, asked, groups, floors):
        drawn, floors_drawn = [self.entries(group) for group in groups], [self.entries(floor) for floor in floors]
        is_one_row = self.further > 0
        in_a_row = [len(drawn[0]) if is_one_row else min(8, len(drawn[0]))] + [min(8, len(group)) for group in drawn[1:]]
        self.columns = max([3] + in_a_row + [len(floor) for floor in floors_drawn[1:]])
        heights = [64 if is_one_row else 56 * rows(len(drawn[0])) + 8] + [56 * rows(len(group)) + 8 for group in drawn[1:]]
        centre = self.floor_y(0) + heights[0] + 24
        tops = [self.floor_y(0), centre + 56, centre + 56 + heights[1] + 40]
        self.width, height = 148 + 104 * self.columns, tops[2] + heights[2] + 16
        forced = [sum(n[1] == 'forced' for n in group) for group in groups]
        self.head(asked, height, [f'{counted(len(group), kind)} ({n:,} forced)' for group, (kind, _), n in zip(groups, KINDS, forced)])
        for up, floor in list(enumerate(floors))[1:]:
            self.band(self.floor_y(up), 64, 'p', 'provider', floor, f'{up + 1} steps up')
        for group, top, tall, (kind, look), n in zip(groups, tops, heights, KINDS, forced):
            self.band(top, tall, look, kind, group, f'{n:,} forced')
        self.middle(asked, centre)
        for place, entries in enumerate(drawn):
            self.group(place, entries, centre, tops[place])
        self.links(edges, floors_drawn)
        for up, floor in list(enumerate(floors_drawn))[1:]:
            for i, entry in enumerate(floor):
                self.box(self.x(len(floor), i), self.floor_y(up) + 12, entry, 'provider', True)
        self.lines.append('</svg>')

    def head(self, asked, height, tallies):
        self.lines += [f'<svg xmlns="http://www.w3.org/2000/svg" width="{self.width}" height="{height}" viewBox="0 0 {self.width} {height}">',
                       f'<title>AS{asked}: ' + ', '.join(tallies) + '</title>', f'<style>{STYLE}</style>']
        self.text(16, 28, 't', f'AS{asked}')
        self.text(16, 46, 'l', 'solid frame: the label of the edge is forced')
        self.text(16, 60, 'l', 'dashed frame: it is open, as between peers it always is')

    def middle(self, asked, y):
        axis = 136 + 52 * self.columns
        first, last = self.start(asked)
        self.lines += [first, f'<title>AS{asked}</title>',
                       f'<rect x="{axis - 60}" y="{y}" width="120" height="32" class="k" stroke-dasharray="none"/>']
        self.text(axis, y + 20, 'm b', f'AS{asked}')
        self.lines.append(last)

    def group(self, place, entries, centre, top):
        for i, entry in enumerate(entries):
            count, left, row = (len(entries), i, 0) if place == 0 and self.further > 0 else cell(len(entries), i)
            x, y = self.x(count, left), top + (20 if place else 12) + 56 * row
            rail, end = (y - 10, y) if place else (y + 42, y + 32)
            start = 76 + 52 * self.columns, centre + 16
            self.line([start, (130, start[1]), (130, rail), (x + 44, rail), (x + 44, end)], 'r')
            self.box(x, y, entry, KINDS[place][0])

    def links(self, edges, floors):
        places = [{entry[0]: (len(floor), i) for i, entry in enumerate(floor) if entry[0] is not None} for floor in floors]
        for up in range(self.further):
            for edge in edges:
                customer, provider = upward(edge)
                if customer in places[up] and provider in places[up + 1]:
                    (count, i), (many, k) = places[up][customer], places[up + 1][provider]
                    x, y = self.x(count, i) + 4 + 80 * (k + 1) // (many + 1), self.floor_y(up) + 12
                    end, stop = self.x(many, k) + 4 + 80 * (i + 1) // (count + 1), self.floor_y(up + 1) + 44
                    look, dashes = LOOKS[edge[3]]
                    self.line([(x, y), (x, y - 10), (end, stop + 10), (end, stop)], f'{look}" stroke-dasharray="{dashes}')


def main(torview, seed, count):
    draws = random.Random(int(seed))
    runs = differ = drawn = 0
    with tempfile.TemporaryDirectory() as folder:
        name = os.path.join(folder, 'result.txt')
        for _ in range(int(count)):
            ases = draws.choice([3, 6, 20, 60, 150])
            numbers, edges, text = random_result(draws, ases, min(draws.randint(1, 3 * ases), ases * (ases - 1) // 6 + 1))
            with open(name, 'w') as file:
                file.write(text)
            for asked in draws.sample(numbers, 3):
                most, depth, link = draws.choice([1, 2, 3, 5, 10, 13, 60, 2000]), draws.randint(1, 8), draws.choice(LINKS)
                words = [f'--most={most}', f'--depth={depth}'] + ([] if link is None else [f'--link={link}'])
                ended = subprocess.run([torview, *words, name, str(asked)], capture_output=True, text=True)
                there = any(asked in edge[:2] for edge in edges)
                wanted = '\n'.join(Picture(edges, asked, most, depth, link).lines) + '\n' if there else ''
                note = '' if there else f'absent|{asked}\n'
                runs += 1
                drawn += there
                if (ended.returncode, ended.stdout, ended.stderr) != (0 if there else 1, wanted, note):
                    differ += 1
    print(f'{runs} runs, {drawn} pictures, {differ} differ')
    return 1 if differ else 0


if __name__ == '__main__':
    sys.exit(main(*sys.argv[1:]))
