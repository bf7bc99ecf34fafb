"""Copies of a store: all players, lines and images as they stood at one moment, in a file of SQLite, whichever engine the store
has.

A copy is taken while servers play, and brought back while they play: a session that they have in memory counts only where its
last line stands in the store. So a copy also moves a store from one engine to the other.
"""
import contextlib
import os
import sqlite3
import urllib.parse

import common
import store

TABLES = {"player": store.PLAYER + ", base", "line": "game, name, generation, n, key, text, at", "image": "digest, data"}
WITH_BYTES = ("player", "image")    # the last column of these is bytes
ROWS_AT_ONCE = 1000


class Damaged(Exception):
    """A file that is no whole copy of a store."""


def rows_of(engine, connection, table, columns):
    """The rows of a table, a few at a time."""
    cursor, text = connection.cursor(), "select %s from %s" % (columns, table)
    if engine.lock:  # PostgreSQL gives all of them at once where it isn't asked for a few
        cursor.execute("declare rows_of_%s no scroll cursor for %s" % (table, text))
    else:
        cursor.execute(text)
    while True:
        if engine.lock:
            cursor.execute("fetch %d from rows_of_%s" % (ROWS_AT_ONCE, table))
        rows = cursor.fetchmany(ROWS_AT_ONCE)
        if not rows:
            break
        yield rows
    cursor.close()


def put(engine, connection, table, columns, rows):
    """Writes rows into a table."""
    text = "insert into %s (%s) values " % (table, columns)
    cursor = connection.cursor()
    if engine.lock:
        from psycopg2.extras import execute_values  # many rows in one go
        execute_values(cursor, text + "%s", rows, page_size=ROWS_AT_ONCE)
    else:
        cursor.executemany(text + "(%s)" % ", ".join("?" * len(columns.split(", "))), rows)
    cursor.close()


def move(source, from_, target, to):
    """Writes all rows of one connection into another; gives how many there were, by table."""
    counts = dict.fromkeys(TABLES, 0)
    for table, columns in TABLES.items():
        for rows in rows_of(source, from_, table, columns):
            if table in WITH_BYTES:
                rows = [(*row[:-1], target.bytes(None if row[-1] is None else bytes(row[-1]))) for row in rows]
            put(target, to, table, columns, rows)
            counts[table] += len(rows)
    return counts


def begin_to_read(engine, connection):
    """From here on a connection sees what stands now, whatever is changed meanwhile."""
    run(connection, "begin isolation level repeatable read read only" if engine.lock else "begin")
    if not engine.lock:
        run(connection, "select count(*) from player")


def run(connection, text):
    cursor = connection.cursor()
    cursor.execute(text)
    found = cursor.fetchall() if cursor.description else None
    cursor.close()
    return found


def copy(address, path):
    """Copies a store into a file, which is put in its place once it is whole and on the disk; gives how many rows it has, by
    table."""
    source, made = store.engine_of(address), path + ".new"
    with contextlib.suppress(FileNotFoundError):
        os.unlink(made)
    target = store.Sqlite(made)
    with contextlib.closing(source.connect()) as from_, contextlib.closing(target.connect()) as to:
        target.make(to)
        source.make(from_)
        begin_to_read(source, from_)
        run(to, "begin immediate")
        counts = move(source, from_, target, to)
        run(to, "commit")
        run(from_, "rollback")
        run(to, "pragma journal_mode = delete")
    os.replace(made, path)
    common.sync_folder(os.path.dirname(os.path.abspath(path)))
    return counts


def restore(path, address):
    """Puts a copy in the place of what a store has, all at once."""
    if not os.path.isfile(path):
        raise Damaged("there is no such file")
    source, target = store.Sqlite(path), store.engine_of(address)
    address = "file:%s?mode=ro" % urllib.parse.quote(path)
    try:
        with contextlib.closing(sqlite3.connect(address, uri=True)) as from_:
            check(from_)
            begin_to_read(source, from_)
            with contextlib.closing(target.connect()) as to:
                target.make(to)
                return put_in_place(source, from_, target, to)
    except sqlite3.DatabaseError as fault:
        raise Damaged(str(fault)) from fault


def put_in_place(source, from_, target, to):
    """Takes away what a store has, and writes what a copy has, in one transaction."""
    run(to, target.begins)
    if target.lock:
        run(to, "lock table player, line, image in exclusive mode")
    try:
        for table in TABLES:
            run(to, "delete from " + table)
        counts = move(source, from_, target, to)
        run(to, "commit")
        return counts
    except BaseException:
        with contextlib.suppress(Exception):
            run(to, "rollback")
        raise


def check(connection):
    """Raises Damaged where a file is no whole copy."""
    tables = {row[0] for row in run(connection, "select name from sqlite_master where type = 'table'")}
    if not tables >= set(TABLES):
        raise Damaged("it has no players and lines")
    found = run(connection, "pragma quick_check(1)")
    if found != [("ok",)]:
        raise Damaged(str(found[0][0]))
