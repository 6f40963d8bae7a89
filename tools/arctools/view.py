"""tools/view: a page that shows a run over time, and what stood in the cache after each read."""
import argparse
import json
import os

from . import sizes
from .arcstat import add_source, report_of
from .command import end_with, say, whole
from .replay import FOUND, LISTS, Replay
from .trace import arc_of

SAMPLES = 1_200
MOST_DETAILS = 400_000  # changes of a list that a page holds; about ten bytes each

HELP = """\
a whole example:
  tools/import strace log --only '*.db' -o my
  tools/view my.trace -o my.html

The page needs no network. It shows the sizes of the lists, the target p and the capacity c, the hits among the reads just before, the evictions and
the feeds. A click chooses a read, and what stood in each list after it is listed below; the arrow keys step. Of a run with more than 400,000
changes of the lists only --from and --to choose what is listed so; the picture shows all of it."""


def sampled(timeline, window):
    """At most SAMPLES places of a timeline, and what stood there."""
    count = len(timeline)
    places = sorted({max(1, round((i + 1) * count / min(count, SAMPLES))) for i in range(min(count, SAMPLES))})
    def among(counts, at):
        """How many of something there were in the last reads, for each of them."""
        return round((counts[at - 1] - (counts[at - window - 1] if at > window else 0)) / min(at, window), 4)
    return {
        'name': timeline.name, 'reads': count, 'window': window, 'at': places,
        **{word: [timeline.sizes[word][at - 1] for at in places] for word in LISTS},
        'p': [timeline.p[at - 1] for at in places], 'c': [timeline.c[at - 1] for at in places],
        'ratio': [among(timeline.hits, at) for at in places], 'evictions': [among(timeline.evictions, at) for at in places],
        'feeds': [last for first, last in zip([0, *places], places) if timeline.feeds[last - 1] > (timeline.feeds[first - 1] if first else 0)],
    }


def details(replay, first, last):
    """The reads from `first` on in front of `last`, and the changes of the lists up to there; those in front of `first` come as what stood then."""
    moves = replay.moves
    begin = next((i for i, at in enumerate(moves.at) if at >= first), len(moves.at))
    end = next((i for i in range(begin, len(moves.at)) if moves.at[i] >= last), len(moves.at))
    if end - begin > MOST_DETAILS:
        return None
    stood = {}
    for i in range(begin):
        stood.pop(moves.keys[i], None)
        if moves.states[i]:
            stood[moves.keys[i]] = moves.states[i]
    at, keys, states = [first] * len(stood) + list(moves.at[begin:end]), [*stood, *moves.keys[begin:end]], [*stood.values(), *moves.states[begin:end]]
    # a change at the first read is told by its own, behind what stood before
    steps = [now - then for then, now in zip([first, *at], at)]
    accesses = replay.accesses
    wanted = sorted({*keys, *accesses['key'][first:last]})
    number = {key: place for place, key in enumerate(wanted)}
    return {
        'first': first, 'last': last, 'base': len(stood),
        'keys': [[*replay.report.keys[key], replay.owners[key]] for key in wanted],
        'steps': steps, 'moved': [number[key] for key in keys], 'states': states,
        'read': [number[key] for key in accesses['key'][first:last]], 'found': ''.join(map(str, replay.all.found[first:last])),
        'who': list(accesses['who'][first:last]), 'tick': list(accesses['tick'][first:last]), 'event': list(accesses['event'][first:last]),
    }


def page(replay, given, arc):
    count = len(replay.all)
    window = given.window or max(10, min(10_000, count // 50))
    first, last = min(given.first, count), min(given.last or count, count)
    shown = details(replay, first, last) if count and first < last else None
    if count and first < last and shown is None:
        say(f'the lists change more than {MOST_DETAILS:,} times, so the page shows the picture alone: --from and --to choose reads of which it lists what stood where')
    told = replay.report
    refused = told.status == 1
    return {
        'name': os.path.basename(given.trace), 'callers': arc[0], 'shards': arc[1], 'capacity': sum(shard.c for shard in replay.shards), 'resized': len(set(replay.all.c)) > 1, 'reads': count,
        'counts': told.counts, 'evictions': sum(shard.evictions for shard in replay.shards), 'keys': len(told.keys), 'refused': refused,
        'bytes': sum(size for _, size, _ in told.keys), 'found': FOUND, 'timelines': [sampled(timeline, window) for timeline in [replay.all, *replay.each]] if count else [],
        'details': shown,
    }


def written(data):
    """The page with its data. In JSON no `<` is needed, so that nothing in the data ends the script."""
    with open(os.path.join(os.path.dirname(os.path.abspath(__file__)), 'page.html'), encoding='utf-8') as file:
        frame = file.read()
    text = json.dumps(data, separators=(',', ':')).replace('<', '\\u003c')
    return frame.replace('/*DATA*/null', text, 1)


def run():
    parser = argparse.ArgumentParser(prog='view', description='Writes a page that shows a run over time.', epilog=HELP,
                                     formatter_class=argparse.RawDescriptionHelpFormatter)
    add_source(parser)
    parser.add_argument('-o', '--output', required=True, metavar='FILE', help='the page')
    parser.add_argument('--window', type=int, metavar='N', help='the hit ratio is that of the last N reads (a fiftieth of all)')
    parser.add_argument('--from', dest='first', type=int, default=0, metavar='N', help='the first read whose lists can be looked at (0)')
    parser.add_argument('--to', dest='last', type=int, metavar='N', help='and the one in front of which they end (all)')
    given = parser.parse_args()
    if given.first < 0 or (given.last is not None and given.last <= given.first) or (given.window is not None and given.window < 1):
        parser.error('--window is from 1 on, and --to above --from')
    arc = arc_of(given.trace)
    replay = Replay(arc, report_of(given), with_moves=True)
    text = written(page(replay, given, arc))
    with whole(given.output) as out:
        out.write(text)
    say(f'wrote {given.output}, {sizes.text(len(text))}, of {len(replay.all):,} reads')


def main():
    end_with(run)
