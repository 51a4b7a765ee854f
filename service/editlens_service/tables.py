"""The statements of the service. Those of a pair name it by the first column of its primary key, so each goes to one partition."""

PAIR = "SELECT id, forms FROM pairs WHERE kind = $1 AND name = $2"

PAIRS = "SELECT name FROM pairs WHERE kind = $1 AND name > $2 ORDER BY name LIMIT $3"

MAKE_PAIR = "INSERT INTO pairs (kind, name, forms) VALUES ($1, $2, $3) ON CONFLICT (kind, name) DO NOTHING RETURNING id"

MAKE_RECORD = """
INSERT INTO records (pair, number, entry_id, kind, payload, side, answer, words, back_to, author)
VALUES ($1, $2, $3, $4, $5, $6, $7, $8, $9, $10)
"""

MAKE_SNAPSHOT = "INSERT INTO snapshots (pair, number, payload) VALUES ($1, $2, $3) ON CONFLICT DO NOTHING"

MAKE_REQUEST = "INSERT INTO requests (pair, key, digest, reply) VALUES ($1, $2, $3, $4)"

SNAPSHOT_OF_RECORD = """
INSERT INTO snapshots (pair, number, payload)
SELECT $1, $2, $3 FROM (SELECT 1 FROM records WHERE pair = $1 AND number = $2 FOR KEY SHARE) AS it ON CONFLICT DO NOTHING
"""
"""Stores a snapshot, if its record is there."""

SNAPSHOT = "SELECT number, payload FROM snapshots WHERE pair = $1 AND number <= $2 ORDER BY number DESC LIMIT 1"

SNAPSHOT_FROM = "SELECT number, payload FROM snapshots WHERE pair = $1 AND number >= $2 ORDER BY number LIMIT 1"

TAIL = "SELECT number, kind, payload FROM records WHERE pair = $1 AND number >= $2 AND number <= $3 ORDER BY number LIMIT $4"

NEWEST = "SELECT max(number) FROM records WHERE pair = $1"

NEWEST_OF_ALL = """
SELECT it.pair, (SELECT max(number) FROM records WHERE records.pair = it.pair) AS number FROM unnest($1::bigint[]) AS it (pair)
"""

ROWS = """
SELECT number, entry_id, kind, side, words, answer, author, at, back_to FROM records
WHERE pair = $1 AND number > $2 ORDER BY number LIMIT $3
"""

LAST_ROWS = """
SELECT number, kind, side, words FROM records WHERE pair = $1 AND number <= $2 AND number > 0 ORDER BY number DESC LIMIT $3
"""

BACK = "SELECT number, kind, payload, back_to FROM records WHERE pair = $1 AND number = $2"

REPLY = "SELECT digest, reply FROM requests WHERE pair = $1 AND key = $2"

NUMBER_OF_ENTRY = "SELECT number FROM records WHERE pair = $1 AND entry_id = $2"

LOG = "SELECT number, kind, payload FROM records WHERE pair = $1 AND number > $2 AND number <= $3 ORDER BY number"

STORE = """
WITH before AS (
    SELECT 1 FROM records WHERE pair = $1 AND number = $2 FOR KEY SHARE
), request AS (
    INSERT INTO requests (pair, key, digest, reply) SELECT $1, $10, $11, $12 FROM before WHERE $10::text IS NOT NULL
)
INSERT INTO records (pair, number, entry_id, kind, payload, side, answer, words, back_to, author)
SELECT $1, $2 + it.place, it.entry_id, it.kind, it.payload, it.side, it.answer, it.words, it.back_to, $13
FROM before, unnest($3::text[], $4::text[], $5::text[], $6::text[], $7::text[], $8::text[], $9::bigint[])
    WITH ORDINALITY AS it (entry_id, kind, payload, side, answer, words, back_to, place)
RETURNING number
"""
"""Stores a batch behind record $2. The lock on that record is what makes a trimmed or removed log refuse a worker that knows an old state:
without it the next number could be free again. A batch of another worker is found by the primary key."""

STORE_REPLY = """
WITH before AS (
    SELECT 1 FROM records WHERE pair = $1 AND number = $2
        AND NOT EXISTS (SELECT 1 FROM records WHERE pair = $1 AND number = $2 + 1) FOR KEY SHARE
)
INSERT INTO requests (pair, key, digest, reply) SELECT $1, $3, $4, $5 FROM before RETURNING 1
"""
"""Stores the reply to a request of which nothing was accepted, if state $2 is the newest."""

REMOVE = (
    "DELETE FROM pairs WHERE id = $1",
    "DELETE FROM snapshots WHERE pair = $1",
    "DELETE FROM requests WHERE pair = $1",
)

REMOVE_RECORDS = "DELETE FROM records WHERE pair = $1 AND number <= $2"
"""The end stays behind the records, so that no worker stores anything behind them."""

TELL = "SELECT pg_notify('editlens', $1) FROM set_config('synchronous_commit', 'off', true)"
"""Nothing rests on what is told, so its transaction does not wait for the disk."""

TOKEN = "SELECT author, rights FROM tokens WHERE digest = $1 AND (ends IS NULL OR ends > now())"

MAKE_TOKEN = """
INSERT INTO tokens (digest, author, rights, ends) VALUES ($1, $2, $3, CASE WHEN $4::float8 IS NULL THEN NULL ELSE now() + $4 * interval '1 day' END)
"""

TRIMMABLE = """
SELECT it.pair, max(snapshots.number) AS number
FROM (SELECT pair, max(number) AS newest, min(number) AS oldest FROM records GROUP BY pair) AS it JOIN snapshots ON snapshots.pair = it.pair
WHERE snapshots.number <= it.newest - $1 AND snapshots.number > it.oldest AND snapshots.at < now() - $2 * interval '1 day'
GROUP BY it.pair
"""
"""For each pair the newest snapshot that is old enough and far enough behind the end of its log."""

TRIM_RECORDS = "DELETE FROM records WHERE pair = $1 AND number < $2 AND at < now() - $3 * interval '1 day'"
"""The record of the snapshot itself stays: something may be stored behind it."""

TRIM_SNAPSHOTS = "DELETE FROM snapshots WHERE pair = $1 AND number < $2"

TRIM_REQUESTS = "DELETE FROM requests WHERE at < now() - $1 * interval '1 day'"

TRIM_ENDS = "DELETE FROM records WHERE kind = 'end' AND at < now() - $1 * interval '1 day'"

LONG_LOGS = """
SELECT pairs.id AS pair, pairs.kind FROM pairs
WHERE (SELECT max(number) FROM records WHERE pair = pairs.id) - (SELECT max(number) FROM snapshots WHERE pair = pairs.id) >= $1
"""
