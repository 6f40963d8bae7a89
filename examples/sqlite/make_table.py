#!/usr/bin/env python3
"""Makes the table that the example of sqlite reads: examples/sqlite/make_table.py FILE. 20,000 rows with an index on their words."""
import hashlib
import os
import sqlite3
import sys


def rows():
    for number in range(20_000):
        drawn = hashlib.sha256(str(number).encode()).hexdigest()
        yield number, drawn[:12], drawn * 2


def main():
    name = sys.argv[1]
    if os.path.exists(name):
        sys.exit(f'{name} is there already')
    base = sqlite3.connect(name)
    base.execute('create table things (number integer primary key, word text, text text)')
    base.executemany('insert into things values (?, ?, ?)', rows())
    base.execute('create index words on things (word)')
    base.commit()
    base.close()


main()
