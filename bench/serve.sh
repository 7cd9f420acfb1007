#!/bin/sh
# What clients of offices that serve wait for: sessions a second of a ring of four, with one client and with sixteen, and how long a
# session takes from its line to its answer, with each way to sync, beside SQLite and PostgreSQL; and the memory of an office over
# 100,000 sessions.
# `docs/BENCHMARKS.md` has the figures. It needs a program that is built, python3 and a C compiler, and four processors with no other
# work. Stores are made in the folder of temporary files (TMPDIR), so that is to be on a disk. It fails only where a session isn't done,
# or an audit of the stores doesn't add up.
#
#   sh bench/serve.sh [PROGRAM]        PROGRAM is crates/drink/out/drink where it is left out
set -eu
top=$(cd "$(dirname "$0")/.." && pwd)
. "$top/bench/shared/program.sh"

# The same sessions by PostgreSQL, synced, in a folder of its own: rows of the table, or a line that it isn't here.
postgres() (
    at=$work/postgres
    if ! command -v initdb > /dev/null || ! command -v pgbench > /dev/null; then
        echo "PostgreSQL isn't here."
        exit
    fi
    mkdir "$at"
    # It takes no root.
    as=
    if [ "$(id -u)" = 0 ]; then
        chown nobody "$at"
        chmod 755 "$work"
        as="runuser -u nobody --"
    fi
    cd "$at"
    $as initdb -D "$at/data" -A trust > /dev/null
    $as pg_ctl -D "$at/data" -o "-k $at -h ''" -l "$at/log" -w start > /dev/null
    trap '$as pg_ctl -D "$at/data" -m immediate stop > /dev/null' EXIT
    export PGHOST="$at" PGDATABASE=postgres
    [ -z "$as" ] || export PGUSER=nobody
    $as psql -q -c 'create table records (id int primary key, value bigint); insert into records select it, 0 from generate_series(0, 3) it'
    cat > "$at/one.sql" <<'SQL'
\set a random(0, 3)
begin;
update records set value = value + 1 where id = :a;
commit;
SQL
    cat > "$at/two.sql" <<'SQL'
\set a random(0, 3)
\set b (:a + 1) % 4
\set low least(:a, :b)
\set high greatest(:a, :b)
begin;
update records set value = value + 1 where id = :low;
update records set value = value + 1 where id = :high;
commit;
SQL
    chmod 644 "$at"/*.sql
    for clients in 1 16; do
        rm -f "$at"/took.*
        rate=$($as pgbench -n -c "$clients" -j 4 -t 500 -f "$at/one.sql" -f "$at/two.sql" --log --log-prefix="$at/took" 2> /dev/null | sed -n 's/^tps = \([0-9]*\).*/\1/p')
        cat "$at"/took.* | cut -d ' ' -f 3 | sort -n > "$at/times"
        all=$(wc -l < "$at/times")
        middle=$(sed -n "$(((all + 1) / 2))p" "$at/times")
        last=$(sed -n "$((all * 99 / 100))p" "$at/times")
        awk -v c="$clients" -v r="$rate" -v m="$middle" -v l="$last" 'BEGIN { printf "| PostgreSQL, on this disk | %d | %s | %.2f | %.2f | | | |\n", c, r, m / 1000, l / 1000 }'
    done
)

cc -O2 -shared -fPIC -o "$work/slow.so" "$top/bench/serve_slow.c"
echo "Stores are on $(stat -f -c %T "$work")."
echo
python3 "$top/bench/serve_clients.py" "$program" "$work/slow.so" "$work"
postgres
echo
python3 "$top/bench/serve_clients.py" "$program" "$work/slow.so" "$work" memory
