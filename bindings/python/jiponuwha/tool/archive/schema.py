"""The tables of a catalogue. docs/ARCHIVES.md describes them."""
from __future__ import annotations

# "jipC", which SQLite keeps in the header of the file, and the number of this schema.
APPLICATION = 0x6A697043
VERSION = 2

TABLES = """
CREATE TABLE about (
    name TEXT PRIMARY KEY,
    value
) WITHOUT ROWID;

CREATE TABLE images (
    id INTEGER PRIMARY KEY,
    path NOT NULL UNIQUE,
    member TEXT,
    container TEXT NOT NULL,
    file_size INTEGER,
    file_time INTEGER,
    bytes INTEGER,
    crc32 TEXT,
    md5 TEXT,
    sha1 TEXT,
    sha256 TEXT,
    verdict TEXT NOT NULL CHECK (verdict IN ('ok', 'validated', 'refused', 'unreadable', 'fatal')),
    reason TEXT,
    kind TEXT,
    label TEXT,
    blocks INTEGER,
    used INTEGER,
    free INTEGER,
    boot_sha1 TEXT,
    boot TEXT,
    boot_sum INTEGER,
    more_faults INTEGER NOT NULL DEFAULT 0,
    gone INTEGER NOT NULL DEFAULT 0
);

CREATE TABLE files (
    image INTEGER NOT NULL REFERENCES images (id) ON DELETE CASCADE,
    place INTEGER NOT NULL,
    path TEXT NOT NULL,
    type TEXT NOT NULL CHECK (type IN ('file', 'directory')),
    size INTEGER NOT NULL,
    bits INTEGER NOT NULL,
    date TEXT NOT NULL,
    comment TEXT NOT NULL,
    crc32 TEXT,
    md5 TEXT,
    sha1 TEXT,
    sha256 TEXT,
    PRIMARY KEY (image, place)
) WITHOUT ROWID;

CREATE TABLE faults (
    image INTEGER NOT NULL REFERENCES images (id) ON DELETE CASCADE,
    place INTEGER NOT NULL,
    kind TEXT NOT NULL,
    block INTEGER NOT NULL,
    text TEXT NOT NULL,
    at INTEGER,
    found INTEGER,
    wanted INTEGER,
    PRIMARY KEY (image, place)
) WITHOUT ROWID;

CREATE TABLE salvaged (
    image INTEGER NOT NULL REFERENCES images (id) ON DELETE CASCADE,
    place INTEGER NOT NULL,
    path TEXT NOT NULL,
    state TEXT NOT NULL,
    size INTEGER NOT NULL,
    missing INTEGER NOT NULL,
    is_cut INTEGER NOT NULL,
    is_found INTEGER NOT NULL,
    bits INTEGER NOT NULL,
    date TEXT NOT NULL,
    comment TEXT NOT NULL,
    crc32 TEXT,
    md5 TEXT,
    sha1 TEXT,
    sha256 TEXT,
    PRIMARY KEY (image, place)
) WITHOUT ROWID;

CREATE INDEX images_by_sha1 ON images (sha1);
CREATE INDEX files_by_sha256 ON files (sha256);
"""
