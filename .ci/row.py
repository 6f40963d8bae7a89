"""A row of the tables of traces, and the letters that stand for digests in it."""
import collections

DIGESTS = {
    'Z': '076a27c79e5ace2a3d47f9dd2e83e4ff6ea8872b3c2218f66c92b89b55f36560',  # of 512 zero bytes
    'Y': '5f70bf18a086007016e948b04aed3b82103a36bea41755b6cddfaf10ace3c6ef',  # of 1,024
    'X': 'e5a00aa9991ac8a5ee3109844d84a55583bd20572ad3ffcd42792f3c36b183ad',  # of 2,048
    'L': 'fa43239bcee7b97ca62f007cc68487560a39e19f74f3dde7486db3f98df8e471',  # of 131,072
    'M': '080acf35a507ac9849cfcba47dc2ad83e01b75663a516279c8b9d243b719643e',  # of 16,777,216
    'N': '110009dcee21620b166f3abfecb5eff7a873be729d1c2d53822e7acc5f34eb9b',  # of the numbers from 0 to 255 twice
    'P': '847c7abf4f64e13f1641564318260d6b134fa1d065830bd260a7cc0012744c31',  # of 512 bytes ab
    'Q': '58b991c23d339f9d25eccb315cf8ba9edb608bb60be3be6c73b03a4481dc7682',  # of 512 bytes cd
    'R': 'a12488efd11dbb70c564168b43ffddd833a43c5f967b0f3bbaf0b887089b559a',  # of a byte ff and 511 zero bytes
    'F': 'f' * 64,  # of no bytes that are known
}
COUNTING = bytes(range(256)) * 2

# What it shows, the words, the pool (the number of its zero bytes, or its bytes), the standard input, the exit status (None where a report tells it), the reports,
# the bytes of the cache device, what the pool and the device may be afterwards (as before where nothing is said), and how often it is run, where it matters.
Row = collections.namedtuple('Row', 'shows words pool source status reports device pool_after device_after times', defaults=(None, None, None, None))


def spelled(text):
    """A text with the digests in place of their letters."""
    return text.translate(str.maketrans(DIGESTS))


def pool_of(row):
    return row.pool if isinstance(row.pool, bytes) else bytes(row.pool)


def may_leave(after, before):
    """The contents that a file may have afterwards."""
    if after is None:
        return [before]
    return [bytes(it) for it in (after if isinstance(after, list) else [after])]
