"""The database of a catalogue, OUT/collection.sqlite: its schema, its versions, and how it is opened (docs/adf-catalogue.1).

What it says is not relied on: another program may have written it. Before anything of it is read, its schema has to be the one of this
program, since a view or an index can have any query; before it is written or merged, it has to be whole, and each value of the type of its
column. A page is written only under a name that a page can have, and every text is shown as a text.
"""

from __future__ import annotations

import contextlib
import fcntl
import functools
import os
import re
import sqlite3
import stat
from typing import Dict, Iterator, NoReturn, Optional, Set, Tuple

from adf_tools.names import one_line
from adf_tools.program import FAILED, host_text, stop
from adf_tools.trees import identity, named

NAME = "collection.sqlite"
APPLICATION, WAIT = 0x61646643, 60.0  # adfC; so many seconds one program waits for another to end its transaction
CACHE = 64 << 10  # KiB of a database that a process keeps that goes through all of it
FIRST = """
CREATE TABLE facts (name TEXT PRIMARY KEY, value TEXT NOT NULL) WITHOUT ROWID;
CREATE TABLE runs (
    id INTEGER PRIMARY KEY, begun TEXT NOT NULL, ended TEXT, program TEXT NOT NULL,
    files INTEGER, read INTEGER NOT NULL DEFAULT 0, removed INTEGER NOT NULL DEFAULT 0);
CREATE TABLE files (
    id INTEGER PRIMARY KEY, path TEXT NOT NULL UNIQUE, size INTEGER, altered_ns INTEGER, inode INTEGER, changed_ns INTEGER,
    run INTEGER NOT NULL REFERENCES runs);
CREATE TABLE images (
    id INTEGER PRIMARY KEY, file INTEGER NOT NULL REFERENCES files ON DELETE CASCADE, disk INTEGER REFERENCES images ON DELETE CASCADE,
    name TEXT NOT NULL, number INTEGER NOT NULL, member TEXT, page TEXT, bytes INTEGER,
    crc32 TEXT, md5 TEXT, sha1 TEXT, sha256 TEXT, tree TEXT, advice TEXT NOT NULL, verdict TEXT NOT NULL, block INTEGER, cause TEXT,
    kind TEXT, type INTEGER, blocks INTEGER, used INTEGER, free INTEGER, dirs INTEGER, files INTEGER,
    label TEXT, root TEXT, altered TEXT, created TEXT, boot_crc32 TEXT, boot_is_right INTEGER,
    faults INTEGER, sound INTEGER, lost INTEGER, unlisted INTEGER, fits INTEGER, rescued TEXT, roles BLOB,
    is_shown INTEGER NOT NULL DEFAULT 0);
CREATE INDEX images_of_files ON images (file);
CREATE INDEX images_of_disks ON images (disk);
CREATE INDEX images_by_name ON images (name, number);
CREATE INDEX images_by_sha256 ON images (sha256);
CREATE INDEX images_by_tree ON images (tree);
CREATE INDEX images_by_advice ON images (advice, name, number);
CREATE TABLE findings (
    id INTEGER PRIMARY KEY, image INTEGER NOT NULL REFERENCES images ON DELETE CASCADE,
    first INTEGER NOT NULL, last INTEGER NOT NULL, cause TEXT NOT NULL, path TEXT, owner TEXT);
CREATE INDEX findings_of_images ON findings (image);
CREATE TABLE entries (
    id INTEGER PRIMARY KEY, image INTEGER NOT NULL REFERENCES images ON DELETE CASCADE, kind TEXT NOT NULL, path TEXT NOT NULL,
    size INTEGER NOT NULL, protection INTEGER NOT NULL, date TEXT NOT NULL, comment TEXT NOT NULL, header INTEGER NOT NULL,
    state TEXT NOT NULL, sha256 TEXT);
CREATE INDEX entries_of_images ON entries (image);
CREATE INDEX entries_by_sha256 ON entries (sha256) WHERE sha256 IS NOT NULL;
CREATE TABLE left_out (
    id INTEGER PRIMARY KEY, image INTEGER NOT NULL REFERENCES images ON DELETE CASCADE, why TEXT NOT NULL, path TEXT NOT NULL);
CREATE INDEX left_out_of_images ON left_out (image);
CREATE TABLE partitions (
    id INTEGER PRIMARY KEY, disk INTEGER NOT NULL REFERENCES images ON DELETE CASCADE, number INTEGER NOT NULL, name TEXT NOT NULL,
    kind TEXT NOT NULL, first INTEGER NOT NULL, blocks INTEGER NOT NULL, flags INTEGER NOT NULL, priority INTEGER NOT NULL,
    block INTEGER NOT NULL, fault TEXT NOT NULL, volume INTEGER REFERENCES images ON DELETE SET NULL);
CREATE INDEX partitions_of_disks ON partitions (disk);
CREATE INDEX partitions_of_volumes ON partitions (volume);
CREATE TABLE holders (sha256 TEXT PRIMARY KEY, images TEXT NOT NULL) WITHOUT ROWID;
CREATE TABLE touched (sha256 TEXT PRIMARY KEY, name TEXT NOT NULL) WITHOUT ROWID;
"""
SECOND = """
CREATE VIRTUAL TABLE image_words USING fts5 (name, label, content = '');
CREATE VIRTUAL TABLE entry_words USING fts5 (path, comment, content = '');
CREATE VIRTUAL TABLE text_words USING fts5 (content);
CREATE VIRTUAL TABLE image_terms USING fts5vocab (image_words, instance);
CREATE VIRTUAL TABLE entry_terms USING fts5vocab (entry_words, instance);
CREATE VIRTUAL TABLE image_vocabulary USING fts5vocab (image_words, row);
CREATE VIRTUAL TABLE entry_vocabulary USING fts5vocab (entry_words, row);
CREATE VIRTUAL TABLE touched_words USING fts5 (words, content = '', detail = none);
CREATE VIRTUAL TABLE touched_vocabulary USING fts5vocab (touched_words, row);
CREATE TABLE parts_due (name TEXT PRIMARY KEY) WITHOUT ROWID;
INSERT INTO image_words (rowid, name, label) SELECT id, name, label FROM images;
INSERT INTO entry_words (rowid, path, comment) SELECT id, substr(path, -1024), comment FROM entries;
"""
THIRD = """
CREATE TABLE known (
    id INTEGER PRIMARY KEY, list TEXT NOT NULL, game TEXT NOT NULL, name TEXT NOT NULL, plain_name TEXT NOT NULL,
    size INTEGER, crc32 TEXT, md5 TEXT, sha1 TEXT);
CREATE INDEX known_by_sha1 ON known (sha1);
CREATE INDEX known_by_md5 ON known (md5);
CREATE INDEX known_by_crc32 ON known (crc32);
CREATE INDEX known_by_name ON known (plain_name);
ALTER TABLE images ADD COLUMN known TEXT;
ALTER TABLE images ADD COLUMN known_as TEXT;
CREATE INDEX images_by_sha1 ON images (sha1);
CREATE INDEX images_by_md5 ON images (md5);
CREATE INDEX images_by_crc32 ON images (crc32);
CREATE INDEX images_by_known ON images (known, name, number);
"""
FOURTH = """
CREATE TABLE icons (
    id INTEGER PRIMARY KEY, image INTEGER NOT NULL REFERENCES images ON DELETE CASCADE, path TEXT NOT NULL,
    width INTEGER NOT NULL, height INTEGER NOT NULL, palette INTEGER NOT NULL, pixels BLOB NOT NULL);
CREATE INDEX icons_of_images ON icons (image);
"""
FIFTH = """
ALTER TABLE images ADD COLUMN boot TEXT;
CREATE INDEX images_by_boot ON images (boot_crc32);
CREATE TABLE boots (crc32 TEXT PRIMARY KEY, images INTEGER NOT NULL) WITHOUT ROWID;
"""
SIXTH = """
ALTER TABLE known ADD COLUMN status TEXT;
CREATE TABLE written (name TEXT PRIMARY KEY) WITHOUT ROWID;
INSERT INTO facts (name, value) SELECT 'unnoted', '1' FROM runs LIMIT 1;
"""
SEVENTH = """
ALTER TABLE images ADD COLUMN form TEXT;
ALTER TABLE images ADD COLUMN lost_least INTEGER;
ALTER TABLE images ADD COLUMN judged TEXT;
UPDATE images SET judged = advice, lost_least = 1;
ALTER TABLE files ADD COLUMN bytes INTEGER;
ALTER TABLE files ADD COLUMN crc32 TEXT;
ALTER TABLE files ADD COLUMN md5 TEXT;
ALTER TABLE files ADD COLUMN sha1 TEXT;
ALTER TABLE files ADD COLUMN sha256 TEXT;
CREATE TABLE sums (
    id INTEGER PRIMARY KEY, path TEXT NOT NULL, run INTEGER NOT NULL REFERENCES runs, bytes INTEGER NOT NULL, sha256 TEXT NOT NULL);
CREATE INDEX sums_by_path ON sums (path);
CREATE TABLE passed (
    id INTEGER PRIMARY KEY, file INTEGER REFERENCES files ON DELETE CASCADE, kind TEXT NOT NULL, count INTEGER NOT NULL);
CREATE INDEX passed_of_files ON passed (file);
CREATE TABLE lists (name TEXT PRIMARY KEY, shows TEXT NOT NULL) WITHOUT ROWID;
INSERT INTO image_words (image_words) VALUES ('delete-all');
INSERT INTO entry_words (entry_words) VALUES ('delete-all');
INSERT INTO image_words (rowid, name, label) SELECT id, words_of(name), words_of(label) FROM images;
INSERT INTO entry_words (rowid, path, comment) SELECT id, words_of(substr(path, -1024)), words_of(comment) FROM entries;
"""
EIGHTH = """
ALTER TABLE images ADD COLUMN deleted INTEGER;
ALTER TABLE images ADD COLUMN deleted_whole INTEGER;
CREATE TABLE deleted (
    id INTEGER PRIMARY KEY, image INTEGER NOT NULL REFERENCES images ON DELETE CASCADE, block INTEGER NOT NULL, state TEXT NOT NULL,
    kind TEXT NOT NULL, path TEXT NOT NULL, size INTEGER NOT NULL, protection INTEGER NOT NULL, date TEXT NOT NULL, comment TEXT NOT NULL);
CREATE INDEX deleted_of_images ON deleted (image);
CREATE VIRTUAL TABLE deleted_words USING fts5 (path, comment, content = '');
"""
STEPS = (FIRST, SECOND, THIRD, FOURTH, FIFTH, SIXTH, SEVENTH, EIGHTH)  # each brings a database to the next version
BESIDE_WORDS = {  # the tables that SQLite makes beside one of words, and of one that has its texts
    "config": "(k PRIMARY KEY, v) WITHOUT ROWID", "data": "(id INTEGER PRIMARY KEY, block BLOB)", "docsize": "(id INTEGER PRIMARY KEY, sz BLOB)",
    "idx": "(segid, term, pgno, PRIMARY KEY(segid, term)) WITHOUT ROWID", "content": "(id INTEGER PRIMARY KEY, c0)"}  # fmt: skip
TYPES = {"INTEGER": "integer", "TEXT": "text", "BLOB": "blob"}
ESCAPE = re.compile(r"\\x[0-9a-f]{2}")
BESIDE = "-journal", "-wal", "-shm"
JOURNAL_MARK = bytes.fromhex("d9d505f920a163d7")  # with it ends a journal that names another file, which is of several databases
TEXTS = "SELECT 1 FROM text_words_content WHERE typeof(c0) NOT IN ('text', 'null') LIMIT 1"


def left(path: str, why: object) -> NoReturn:
    stop(FAILED, f"{host_text(path)}: {one_line(why)}; it is left as it is")


@contextlib.contextmanager
def told(path: str) -> Iterator[None]:
    """What SQLite cannot do with a database is told in one line."""
    try:
        yield
    except sqlite3.DatabaseError as error:
        is_damaged = not isinstance(error, sqlite3.OperationalError) or any(word in str(error) for word in ("malformed", "UTF-8"))
        stop(FAILED, f"{host_text(path)}: {'damaged; it is left as it is: ' if is_damaged else ''}{one_line(error)}")
    except (UnicodeDecodeError, OverflowError) as error:  # what SQLite tells is not in UTF-8, or a number is too large
        left(path, f"damaged: {error}")


def check_files(path: str) -> None:
    """What SQLite opens of a database are files, and its journal has no name of another file, which SQLite would remove."""
    for name in (path, *(path + end for end in BESIDE)):
        with contextlib.suppress(FileNotFoundError):
            if not stat.S_ISREG(os.lstat(name).st_mode):
                left(name, "not a file")
    with contextlib.suppress(FileNotFoundError), open(path + BESIDE[0], "rb") as journal:
        journal.seek(max(0, os.fstat(journal.fileno()).st_size - len(JOURNAL_MARK)))
        if journal.read() == JOURNAL_MARK:
            left(path, "its journal is of another program")


def large_connection_to(path: str, mode: str) -> sqlite3.Connection:
    """A connection by which all of a database is gone through, or written: of its pages more are kept."""
    connection = connection_to(path, mode)
    connection.execute(f"PRAGMA cache_size = -{CACHE}")
    return connection


def connection_to(path: str, mode: str) -> sqlite3.Connection:
    """A connection to the file of a database, which is made if the mode is `rwc`."""
    with named(path):
        check_files(path)
    name = "".join(map("%{:02x}".format, os.fsencode(os.path.abspath(path))))
    connection = sqlite3.connect(f"file:{name}?mode={mode}", uri=True, timeout=WAIT, isolation_level=None)
    connection.row_factory = sqlite3.Row
    add_functions(connection)
    for pragma in ("trusted_schema = OFF", "foreign_keys = ON", "cell_size_check = ON"):
        connection.execute(f"PRAGMA {pragma}")
    return connection


def words_of(text: object) -> Optional[str]:
    """A text as it is indexed: what stands there for a byte that cannot be printed parts words."""
    return None if text is None else ESCAPE.sub(" ", str(text))


def add_functions(connection: sqlite3.Connection) -> None:
    connection.create_function("words_of", 1, words_of)


def schema_of(connection: sqlite3.Connection) -> Set[Tuple[str, ...]]:
    """All that a database is made of, each with its statement; how that is spaced does not count."""
    rows = connection.execute("SELECT type, name, tbl_name, sql FROM sqlite_master").fetchall()
    return {(*map(str, row[:3]), " ".join(str(row[3]).split())) for row in rows}


def told_schema(version: int) -> Set[Tuple[str, ...]]:
    """What a database of a version is made of, as its statements say it: that takes no database, which SQLite takes longer to make than to
    ask another one."""
    made: Dict[Tuple[str, ...], str] = {}
    for words in (statement.split() for statement in "".join(STEPS[:version]).split(";")):
        if words[:1] == ["ALTER"]:
            table = ("table", words[2], words[2])
            made[table] = f"{made[table][:-1]}, {' '.join(words[5:])})"
        elif words[:2] == ["CREATE", "INDEX"]:
            made["index", words[2], words[4]] = " ".join(words)
        elif words[:1] == ["CREATE"]:
            name, text = words[words.index("TABLE") + 1], " ".join(words)
            made["table", name, name] = text
            if " UNIQUE" in text:
                made["index", f"sqlite_autoindex_{name}_1", name] = str(None)
            for end in BESIDE_WORDS if " USING fts5 " in text else ():
                if end != "content" or "content = ''" not in text:
                    made["table", f"{name}_{end}", f"{name}_{end}"] = f"CREATE TABLE '{name}_{end}'{BESIDE_WORDS[end]}"
    return {(*key, text) for key, text in made.items()}


@functools.lru_cache(maxsize=None)
def own_schema(version: int) -> Set[Tuple[str, ...]]:
    """What a database of a version is made of."""
    with contextlib.closing(made_in_memory(version)) as connection:
        return schema_of(connection)


def made_in_memory(version: int) -> sqlite3.Connection:
    connection = sqlite3.connect(":memory:", isolation_level=None)
    add_functions(connection)
    for step in STEPS[:version]:
        connection.executescript(step)
    return connection


def version_of(connection: sqlite3.Connection, path: str) -> int:
    """The version of a database: 0 if it is empty. A file of another program or of a newer version is left as it is."""
    mark, version = (connection.execute(f"PRAGMA {name}").fetchone()[0] for name in ("application_id", "user_version"))
    if mark == 0 and version == 0 and not connection.execute("SELECT COUNT(*) FROM sqlite_master").fetchone()[0]:
        return 0
    if mark != APPLICATION or version < 1:
        left(path, "not the database of a catalogue")
    if version > len(STEPS):
        left(path, f"of version {version}, and this program knows those up to {len(STEPS)}")
    found = schema_of(connection)
    other = found != told_schema(version) and found ^ own_schema(version)  # another SQLite may make other tables beside those of words
    if other:
        kind, name, *_ = min(other)
        left(path, f"not the database of a catalogue: {kind} {name} is another one")
    return int(version)


def type_checks(connection: sqlite3.Connection) -> Iterator[Tuple[str, str]]:
    """The name of each table of a database of this version, and a query for a row with a value of another type than its column; SQLite has
    any in any column."""
    yield "text_words", TEXTS
    for kind, name, _, line in sorted(told_schema(len(STEPS))):
        if kind == "table" and line.startswith(f"CREATE TABLE {name} "):
            columns = [(row[1], TYPES[row[2]]) for row in connection.execute(f"PRAGMA table_info({name})")]
            are_other = " OR ".join(f"typeof({column}) <> '{type_}' AND {column} IS NOT NULL" for column, type_ in columns)
            yield name, f"SELECT 1 FROM {name} WHERE {are_other} LIMIT 1"


def check_types(connection: sqlite3.Connection, path: str) -> None:
    """Each value is of the type of its column, or null."""
    for name, query in type_checks(connection):
        if connection.execute(query).fetchone() is not None:
            left(path, f"damaged: {name} has a value of another type than its column")


def lock(path: str, flags: int) -> int:
    """The descriptor of a folder or a file which no other run has, as far as its file system can tell."""
    with named(path):
        file = os.open(path, os.O_RDONLY | os.O_NONBLOCK | os.O_NOCTTY | os.O_CLOEXEC | flags, 0o666)
    try:
        try:
            fcntl.flock(file, fcntl.LOCK_EX | fcntl.LOCK_NB)
        except BlockingIOError:
            stop(FAILED, f"{host_text(path)}: another run is writing this catalogue")
        except OSError:
            pass
        with named(path):
            found = os.fstat(file)
            if identity(path) != (found.st_dev, found.st_ino):
                stop(FAILED, f"{host_text(path)}: another run is writing this catalogue")
        return file
    except BaseException:
        os.close(file)
        raise


@contextlib.contextmanager
def alone(path: str) -> Iterator[None]:
    """Keeps other runs out of a file, which is made if it is not there."""
    file = lock(path, os.O_CREAT | os.O_NOFOLLOW)
    try:
        yield
    finally:
        os.close(file)


@contextlib.contextmanager
def transaction(connection: sqlite3.Connection) -> Iterator[None]:
    """All that is written in here is kept, or nothing of it."""
    connection.execute("BEGIN IMMEDIATE")
    try:
        yield
        connection.execute("COMMIT")
    except BaseException:
        with contextlib.suppress(sqlite3.Error):
            connection.execute("ROLLBACK")
        raise


def migrate(connection: sqlite3.Connection, path: str) -> None:
    """Brings a database to this version, in one transaction."""
    with transaction(connection):
        for step in STEPS[version_of(connection, path) :]:
            for statement in statements_of(step):
                connection.execute(statement)
        connection.execute(f"PRAGMA application_id = {APPLICATION}")
        connection.execute(f"PRAGMA user_version = {len(STEPS)}")


def statements_of(script: str) -> Iterator[str]:
    """The statements of a script, one after the other: sqlite3's own way to run a script ends the transaction."""
    left = ""
    for line in script.splitlines(keepends=True):
        left += line
        if sqlite3.complete_statement(left):
            yield left
            left = ""


def check_whole(connection: sqlite3.Connection, path: str) -> None:
    """A damaged database is told before anything is written."""
    (found,) = connection.execute("PRAGMA quick_check(1)").fetchone()
    if found != "ok":
        stop(FAILED, f"{host_text(path)}: damaged; it is left as it is: {one_line(' '.join(str(found).split()))}")


@contextlib.contextmanager
def opened(path: str, is_new: bool = False, folder: str = "") -> Iterator[sqlite3.Connection]:
    """A database to write, which is made if it is new, and brought to this version if it is older. Errors are told as if it were in the
    given folder already."""
    with told(os.path.join(folder, NAME) if folder else path):
        connection = large_connection_to(path, "rwc" if is_new else "rw")
        try:
            if version_of(connection, path):
                check_whole(connection, path)
            if version_of(connection, path) < len(STEPS):
                migrate(connection, path)
            check_types(connection, path)
            yield connection
        finally:
            connection.close()


def check_version(connection: sqlite3.Connection, path: str) -> None:
    version = version_of(connection, path)
    if version < len(STEPS):
        stop(FAILED, f"{host_text(path)}: of version {version}; the next run of adf-catalogue brings it to version {len(STEPS)}")


@contextlib.contextmanager
def asked(path: str, is_strange: bool = False) -> Iterator[sqlite3.Connection]:
    """A database to ask. An older one is not brought to this version by that. One from elsewhere is checked whole, and not written at all:
    what a run that was broken off has left is not put right."""
    if is_strange and os.path.lexists(path + BESIDE[0]):
        left(path, "a run is writing it, or was broken off")
    with told(path):
        connection = connection_to(path, "rw" if os.access(path, os.W_OK) and not is_strange else "ro")
        try:
            connection.execute("PRAGMA query_only = ON")
            check_version(connection, path)
            if is_strange:
                check_whole(connection, path)
                check_types(connection, path)
            yield connection
        finally:
            connection.close()
