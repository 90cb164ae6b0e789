-- Makes the schema olr_keep, by which tools/live keeps the strings of paths over editors' tables of streets:
--
--     psql -q -v ON_ERROR_STOP=1 -f tools/live.sql DATABASE
--     psql -q -c "select olr_keep.add_streets('public.streets')" DATABASE
--
-- The second command adds a table of streets and its triggers; docs/LIVE.md has the other steps. Both can be run again, the first
-- one also for a new version: it changes the tables of an older one. The database needs the extension postgis.

set client_min_messages = warning;
create schema if not exists olr_keep;

-- ---- from an older version

do $$
begin
    if to_regclass('olr_keep.line_number') is not null then
        alter table olr_keep.note add tx xid8 not null default pg_current_xact_id();
        alter table olr_keep.source add search_path text not null default 'public';
        alter table olr_keep.street add shape bigint;
        alter table olr_keep.line set (fillfactor = 80);
        alter table olr_keep.node add is_end boolean not null default false;
        update olr_keep.node set is_end = true where 1 = (select count(distinct (street, part, k)) from olr_keep.line
            where line.geom && node.geom and node in (from_node, to_node));
        alter table olr_keep.string add found_elsewhere boolean not null default false,
            add given geometry(LineString, 4326), add given_streets text[] not null default '{}', add last_map jsonb,
            add lost_at geometry(MultiPoint, 4326),
            add at_junctions boolean[];
        alter table olr_keep.problem add kind text not null default 'street', add source int;
        update olr_keep.problem set kind = case when node is not null then 'open end' else 'no string' end
        where coalesce(node::text, path) is not null;
        delete from olr_keep.round where state <> 'done';
        alter table olr_keep.round drop state, add elsewhere int not null default 0;
        create table if not exists olr_keep.counter (kind text primary key, last bigint not null);
        insert into olr_keep.counter select 'node', last_value from olr_keep.node_number;
        insert into olr_keep.counter select 'line', last_value from olr_keep.line_number;
        drop sequence olr_keep.node_number, olr_keep.line_number;
        drop function olr_keep.make_triggers(int, text, text);
        insert into olr_keep.note (source, who) select source, session_user from olr_keep.source;
        update olr_keep.string set given = geom, given_streets = streets;
    end if;
    if exists (select from pg_attribute where attrelid = to_regclass('olr_keep.string') and attname = 'said_course') then
        drop view if exists olr_keep.held;
        alter table olr_keep.string rename said_course to given;
        alter table olr_keep.string drop said_roads, add last_map jsonb, add given_streets text[] not null default '{}';
        update olr_keep.string set given = geom, given_streets = streets where given is null;
        -- Paths that may have been on another road without a word: more than 5 m off their drawn course, or with a first string that
        -- has other ends, as far as offsets don't explain it, or another length.
        create function pg_temp.read_string(text) returns table (ends geometry[], cuts float8[], metres float8, legs int) language sql as $f$
            with given as (
                select b, (octet_length(b) - 16) / 7 + 1 as legs, (octet_length(b) - 16) % 7 > 0 and get_byte(b, octet_length(b) - 1
                    - (octet_length(b) - 16) % 7) & 64 > 0 as has_start, (octet_length(b) - 16) % 7 as offsets from decode($1, 'base64') as it(b)
            ), leg as (
                select k, (get_byte(b, 9 + 7 * k) + 0.5) * 58.6 as metres, get_byte(b, 10 + 7 * k) << 8 | get_byte(b, 11 + 7 * k) as x,
                    get_byte(b, 12 + 7 * k) << 8 | get_byte(b, 13 + 7 * k) as y from given cross join generate_series(0, legs - 1) as k
            ), first as (
                select (x - (x >> 23 << 24)) * 360.0 / (1 << 24) as lon, (y - (y >> 23 << 24)) * 360.0 / (1 << 24) as lat from (
                    select (get_byte(b, 1) << 16) + (get_byte(b, 2) << 8) + get_byte(b, 3) as x,
                        (get_byte(b, 4) << 16) + (get_byte(b, 5) << 8) + get_byte(b, 6) as y from given) as it
            ), cut as (
                select case when has_start then (get_byte(b, octet_length(b) - offsets) + 0.5) / 256 * head.metres else 0 end as start,
                    case when offsets - has_start::int > 0 then (get_byte(b, octet_length(b) - 1) + 0.5) / 256 * tail.metres else 0 end as finish
                from given join leg as head on head.k = 0 join leg as tail on tail.k = legs - 1
            )
            select array[ST_MakePoint(lon, lat), ST_MakePoint(lon + east, lat + north)], array[start, finish], far - start - finish, legs
            from first cross join cut cross join (select count(*)::int as legs, sum(metres) as far, sum(x - (x >> 15 << 16)) / 1e5 as east,
                sum(y - (y >> 15 << 16)) / 1e5 as north from leg) as it
        $f$;
        insert into olr_keep.problem (kind, path, words, geom)
        select 'off its course', name, format('it is %s m off its drawn course', round(off)), ST_StartPoint(given) from (
            select name, given, ST_HausdorffDistance(ST_Scale(given, wide, 111195), ST_Scale(course, wide, 111195)) as off
            from olr_keep.string join olr_keep.path using (name)
                cross join lateral (select cos(radians(ST_Y(ST_StartPoint(given)))) * 111195 as wide) as it
            where not lost and not found_elsewhere and course is not null
        ) as one where off > 5;
        insert into olr_keep.problem (kind, path, words, geom)
        select 'other string', name, case when was.metres - now.metres between -slack and slack
                then format('its first string, %s, ends elsewhere', first.text)
                else format('its first string, %s, is %s m long, and that of now %s m', first.text, round(was.metres), round(now.metres)) end,
            ST_StartPoint(geom)
        from olr_keep.string join (
            select distinct on (name) name, text from olr_keep.history where text is not null order by name, round
        ) as first using (name) cross join lateral pg_temp.read_string(first.text) as was
            cross join lateral pg_temp.read_string(string.text) as now
            cross join lateral (select 60.0 + 20 * (was.legs + now.legs) + 0.01 * was.metres as slack) as it
            cross join lateral (select bool_or(far > 8 and abs(far - cut) > case when cut < 30 then 8 else 60 end) as is_other from (
                select ST_DistanceSphere(was.ends[k], now.ends[k]) as far, abs(was.cuts[k] - now.cuts[k]) as cut
                from generate_series(1, 2) as k) as one) as two
        where string.text is not null and not lost and not found_elsewhere and first.text <> string.text and (is_other or abs(was.metres - now.metres) > slack);
    end if;
end $$;

-- ---- what operators write

create table if not exists olr_keep.path (
    name text primary key check (name ~ '^[A-Za-z0-9_.-]{1,64}$'),
    streets text[] check (cardinality(streets) > 0),
    course geometry(LineString, 4326),
    cut_start float8 not null default 0 check (cut_start between 0 and 400000000),
    cut_end float8 not null default 0 check (cut_end between 0 and 400000000),
    check (num_nonnulls(streets, course) > 0)
);
create index if not exists path_streets on olr_keep.path using gin (streets);
comment on table olr_keep.path is 'The paths. Each has streets or a course; if it has both, the streets are tried first.';
comment on column olr_keep.path.streets is
    'Streets in the order of travel. >ID is a street along its geometry, <ID against it, ID in the direction that joins.';
comment on column olr_keep.path.course is 'The course from start to end, drawn or routed.';
comment on column olr_keep.path.cut_start is 'Metres that are cut off at the start of the streets or of the course.';
comment on column olr_keep.path.cut_end is 'Metres that are cut off at the end.';

create table if not exists olr_keep.margin (
    routes int not null default 0 check (routes between 0 and 1000),
    classes int not null default 0 check (classes between 0 and 7),
    is_only boolean primary key default true check (is_only)
);
insert into olr_keep.margin default values on conflict do nothing;
comment on table olr_keep.margin is
    'The margin of all strings, in one row: the thousandths by which a path''s own lines count longer, and classes.';

create table if not exists olr_keep.frozen (
    name text primary key, round bigint, who text not null default session_user, since timestamptz not null default now()
);
comment on table olr_keep.frozen is
    'Paths whose published string stays: as it is, or as it was after a round. freeze, restore and thaw write it.';

create table if not exists olr_keep.release (
    hold bigint primary key, who text not null default session_user, at timestamptz not null default now()
);
comment on table olr_keep.release is 'Who released which hold, and when.';

-- ---- what live writes

create table if not exists olr_keep.counter (kind text primary key, last bigint not null);
comment on table olr_keep.counter is 'The last number of a node, of a line, of a round and of a hold; beside: in rounds beside a bulk.';

create or replace function olr_keep.lon(place bigint) returns float8 language sql immutable parallel safe
    return ((place >> 31) - 1800000000) / 1e7;
create or replace function olr_keep.lat(place bigint) returns float8 language sql immutable parallel safe
    return ((place & 2147483647) - 900000000) / 1e7;
create table if not exists olr_keep.street (
    street text primary key, digest bigint not null, source int not null, class smallint, form smallint, direction text,
    shape bigint
);
comment on table olr_keep.street is 'The streets as live has read them; those without a class are left out of the map.';
alter table olr_keep.street add column if not exists name text;
comment on column olr_keep.street.name is 'Its name, by which people know it, or NULL.';
comment on column olr_keep.street.shape is 'A digest of the direction and the geometry; that of the whole row is digest.';

create table if not exists olr_keep.vertex (street text not null, part int not null, k int not null, place bigint not null);
comment on table olr_keep.vertex is
    'The vertices of the streets. A place is a coordinate, (lon + 180) * 2^31 + lat + 90, in units of 10^-7 degree.';

create table if not exists olr_keep.node (
    node bigint primary key, place bigint not null unique deferrable initially deferred, geom geometry(Point, 4326) not null,
    is_end boolean not null default false
);
comment on table olr_keep.node is 'The nodes of the map, with the numbers that the program has.';

create table if not exists olr_keep.line (
    line bigint primary key, street text not null, part int not null, k int not null, along boolean not null,
    from_node bigint not null, to_node bigint not null, nth int not null, length int not null, fields text not null,
    geom geometry(LineString, 4326) not null
) with (fillfactor = 80);
comment on table olr_keep.line is 'The lines of the map, with the numbers that the program has; lengths are decimetres.';
comment on column olr_keep.line.nth is
    'Which of the lines of this street between the same two nodes, in this direction on a loop.';
comment on column olr_keep.line.fields is
    'The fields of the line''s record after its ends: class, form, length and shape points.';

create table if not exists olr_keep.string (
    name text primary key, text text, reason text, round bigint not null,
    lines bigint[] not null default '{}', streets text[] not null default '{}',
    start_offset bigint not null default 0, end_offset bigint not null default 0,
    start_cut bigint not null default 0, end_cut bigint not null default 0, start_node bigint, end_node bigint,
    definition text not null,
    last_text text, last_round bigint, lost boolean not null default false, geom geometry(LineString, 4326),
    found_elsewhere boolean not null default false, given geometry(LineString, 4326), given_streets text[] not null default '{}', last_map jsonb,
    lost_at geometry(MultiPoint, 4326), at_junctions boolean[],
    check (num_nonnulls(text, reason) = 1)
);
create index if not exists string_lines on olr_keep.string using gin (lines);
create index if not exists string_geom on olr_keep.string using gist (geom);
comment on table olr_keep.string is
    'The published string of each path since a round, or the reason why it has none, with its last string beside it.';
comment on column olr_keep.string.lines is
    'The lines of the path, in order; start_offset and end_offset are the offsets of its record, in decimetres.';
comment on column olr_keep.string.start_cut is 'The decimetres of its first line that are before its streets or its course.';
comment on column olr_keep.string.lost is 'Whether no lines of the map were found for it: the lines are its last ones.';
comment on column olr_keep.string.geom is
    'The course of the lines between the offsets, without the metres that the path cuts off.';

create table if not exists olr_keep.round (
    round bigint primary key,
    at timestamptz not null, streets text[] not null, paths text[] not null, users text[] not null,
    changed int not null, refused int not null, dropped int not null, seconds float8 not null, elsewhere int not null default 0
);
comment on table olr_keep.round is
    'The rounds: their time, which streets and paths they changed, by which users, and how many strings they changed.';

alter table olr_keep.string add column if not exists margin text not null default '0,0';
comment on column olr_keep.string.margin is 'The margin, routes and classes, with which the published string was made.';
alter table olr_keep.round add column if not exists margin text not null default '0,0';
comment on column olr_keep.round.margin is 'The margin of the program in this round.';
alter table olr_keep.round add column if not exists causes bigint[] not null default '{}';
comment on column olr_keep.round.causes is 'The earlier rounds whose edits led to what this one publishes late.';
alter table olr_keep.string add column if not exists state text, add column if not exists off_m float8;
comment on column olr_keep.string.state is
    'as given, moved (up to the tolerance), elsewhere, held, frozen, refused or lost: that of the published string.';
comment on column olr_keep.string.off_m is 'Metres between the course that was given and the one that was found, or NULL.';

create table if not exists olr_keep.history (
    round bigint not null references olr_keep.round, name text not null, text text, reason text,
    primary key (round, name)
);
create index if not exists history_name on olr_keep.history (name, round);
alter table olr_keep.history add column if not exists state text, add column if not exists off_m float8;
comment on table olr_keep.history is
    'Each answer or state that was published, by round. The reason dropped means that the path was removed.';
comment on column olr_keep.history.state is 'The state since this round, as in string; NULL in rounds of 2.0.0 and of a removed path.';

create table if not exists olr_keep.identity (
    history text not null default gen_random_uuid(), made_in text not null default '',
    is_only boolean primary key default true check (is_only)
);
insert into olr_keep.identity default values on conflict do nothing;
comment on table olr_keep.identity is
    'A random word in one row: while it is the same, a round and a name are a position in the history. A restore makes another one.';
comment on column olr_keep.identity.made_in is 'The server, its timeline, the database and the table of the history with which it was made.';

create table if not exists olr_keep.hold (
    hold bigint primary key, since timestamptz not null default clock_timestamp(), round bigint not null,
    streets text[] not null, users text[] not null,
    changed int not null, refused int not null, dropped int not null, elsewhere int not null
);
comment on table olr_keep.hold is
    'Clusters of changes whose strings were not published at once: the round, the streets, the users, and how many strings.';
alter table olr_keep.hold add column if not exists nearby int;
comment on column olr_keep.hold.nearby is 'The paths in the cells of the streets, of which at most a quarter is published at once.';

create table if not exists olr_keep.waiting (
    name text primary key, hold bigint, text text, reason text, since timestamptz not null default clock_timestamp(),
    effect text, check (num_nonnulls(text, reason) = 1)
);
do $$
begin
    if not exists (select from pg_attribute where attrelid = 'olr_keep.waiting'::regclass and attname = 'kind') then
        alter table olr_keep.waiting add kind text not null default 'held' check (kind in ('held', 'frozen', 'delayed')),
            add due timestamptz, add cause bigint;
        update olr_keep.waiting set kind = 'frozen' where hold is null;
    end if;
end $$;
comment on table olr_keep.waiting is
    'The answers that are not published. They are those of the map as it is now.';
comment on column olr_keep.waiting.kind is 'held, in a hold; frozen, with the path; or delayed until due, with the round of the edit.';

create table if not exists olr_keep.problem (
    problem bigint generated always as identity primary key, street text, path text, node bigint, words text not null,
    since timestamptz not null default now(), geom geometry(Point, 4326), kind text not null default 'street', source int
);
create index if not exists problem_street on olr_keep.problem (street);
create index if not exists problem_path on olr_keep.problem (path);
create index if not exists problem_node on olr_keep.problem (node);
alter table olr_keep.problem add column if not exists metres float8, add column if not exists round bigint,
    add column if not exists users text[], add column if not exists shift geometry(LineString, 4326);
comment on table olr_keep.problem is 'What the map, a path or a table lacks now. A row is removed when it is mended.';
comment on column olr_keep.problem.metres is 'Of a path that is found elsewhere: the greatest distance from where it was given.';
comment on column olr_keep.problem.shift is 'A line over this distance, from where the path was.';
comment on column olr_keep.problem.round is 'The round that wrote the problem of a path, for the edits of these users.';

create table if not exists olr_keep.ambiguity (
    name text not null, words text not null, geom geometry(Point, 4326), primary key (name, words)
);
comment on table olr_keep.ambiguity is
    'Which published strings a receiver may read in another way: what may be taken at which of their points, from 0, and where.';

-- ---- what triggers write

create table if not exists olr_keep.note (
    source int not null, key text, who text not null, at timestamptz not null default now(),
    tx xid8 not null default pg_current_xact_id()
);
comment on table olr_keep.note is
    'The streets (or paths, source 0; the margin, -1) that changed since the last round; without a key: all of the source.';

create table if not exists olr_keep.source (
    source int generated by default as identity primary key, streets text not null unique, id text not null,
    id_type text not null, class text not null, form text not null, direction text not null, geom text not null,
    prefix text not null default '', search_path text not null default 'public'
);
alter table olr_keep.source add column if not exists name text;
comment on table olr_keep.source is 'The tables of streets, with the expressions of their columns. add_streets writes it.';

-- Makes or drops the indexes of the map, with the rights of the owner. A first load makes them when all rows are there, since that
-- takes a third as long. It leaves them if somebody reads the map, which nobody else can do while they are missing.
create or replace function olr_keep.set_indexes(are_wanted boolean) returns void language plpgsql security definer
set search_path = pg_catalog, pg_temp as $$
begin
    if are_wanted then
        create index if not exists vertex_street on olr_keep.vertex (street);
        create index if not exists vertex_place on olr_keep.vertex (place);
        create index if not exists node_geom on olr_keep.node using gist (geom);
        create index if not exists node_end on olr_keep.node using gist (geom) where is_end;
        create index if not exists line_street on olr_keep.line (street);
        create index if not exists line_geom on olr_keep.line using gist (geom);
    else
        lock table olr_keep.vertex, olr_keep.node, olr_keep.line in access exclusive mode nowait;
        drop index if exists olr_keep.vertex_street, olr_keep.vertex_place, olr_keep.node_geom, olr_keep.node_end,
            olr_keep.line_street, olr_keep.line_geom;
    end if;
end $$;
revoke execute on function olr_keep.set_indexes(boolean) from public;
do $$ begin perform olr_keep.set_indexes(true); end $$;
comment on column olr_keep.node.is_end is 'Whether only one stretch of a street ends there, and nothing else is.';
create index if not exists string_open on olr_keep.string (name) where lost or found_elsewhere;
create index if not exists string_open_streets on olr_keep.string using gin (streets) where lost or found_elsewhere;
create index if not exists string_lost_at on olr_keep.string using gist (lost_at) where lost_at is not null;
create index if not exists string_open_geom on olr_keep.string using gist (geom) where (lost or found_elsewhere) and lost_at is null;
create index if not exists string_open_given on olr_keep.string using gist (given)
    where (lost or found_elsewhere) and lost_at is null;
create index if not exists string_without_place on olr_keep.string (name)
    where (lost or found_elsewhere) and lost_at is null;
comment on column olr_keep.string.found_elsewhere is
    'Whether the lines are not those of the streets or the course that an operator gave, since these can''t be had.';
comment on column olr_keep.string.at_junctions is
    'Whether its start and its end were at junctions when it was first found: there they are sought first.';
comment on column olr_keep.string.given is
    'The course of the lines that were found at first, or accepted: where the path belongs, in the order of travel.';
comment on column olr_keep.string.given_streets is 'The streets of then.';
comment on column olr_keep.string.last_map is
    'While the path isn''t there: the lines near it on the map on which it was last as given, and its own ones.';
insert into olr_keep.counter select kind, 0 from unnest('{node,line,round,hold}'::text[]) as kind on conflict do nothing;
update olr_keep.counter set last = greatest(last, (select max(round) from olr_keep.history),
    (select max(round) from olr_keep.round), (select max(greatest(round, last_round)) from olr_keep.string)) where kind = 'round';

-- The states of paths, as they are published. Of a delayed one it stays.
create or replace function olr_keep.states(names text[]) returns table (name text, state text) language sql stable
set search_path = pg_catalog, pg_temp as $$
    select string.name, case when waiting.kind = 'held' then 'held' when waiting.kind = 'delayed' then string.state
        when frozen.name is not null then 'frozen' when lost then 'lost' when string.text is null then 'refused'
        when found_elsewhere then 'elsewhere' when off_m > 2 then 'moved' else 'as given' end
    from olr_keep.string left join olr_keep.waiting using (name) left join olr_keep.frozen using (name)
    where string.name = any(names)
$$;
revoke execute on function olr_keep.states(text[]) from public;
update olr_keep.string set state = it.state
from olr_keep.states((select array_agg(name) from olr_keep.string where state is null)) as it where string.name = it.name;

-- ---- triggers

-- No function of this schema runs for PUBLIC with its owner's rights: whoever may execute a trigger's function can put it on a table of
-- their own. What a table's types or its owner's expressions decide is evaluated with the rights of whoever writes the row.

-- Wakes tools/live. A transaction that has notified can't be prepared: where some may be, it finds the notes within a second.
create or replace function olr_keep.wake() returns void language sql set search_path = pg_catalog, pg_temp as $$
    select pg_notify('olr_keep_note', '') where current_setting('max_prepared_transactions') = '0'
$$;

-- Notes the row whose key the trigger before this one has set: `=` and the key, or `+` if it had another one before; if it is not
-- known, all rows. The argument is the source.
create or replace function olr_keep.note_keys() returns trigger language plpgsql security definer
set search_path = pg_catalog, pg_temp as $$
declare
    key text := current_setting('olr_keep.key', true);
begin
    insert into olr_keep.note (source, key, who)
    values (tg_argv[0]::int, case when key <> '' then substr(key, 2) end, session_user);
    if key like '+%' then
        insert into olr_keep.note (source, key, who)
        values (tg_argv[0]::int, substr(current_setting('olr_keep.was'), 2), session_user);
    end if;
    return null;
end $$;

create or replace function olr_keep.note_statement() returns trigger language plpgsql security definer
set search_path = pg_catalog, pg_temp as $$
begin
    if tg_op = 'TRUNCATE' then
        insert into olr_keep.note (source, who) values (tg_argv[0]::int, session_user);
    end if;
    perform olr_keep.wake();
    return null;
end $$;

drop function if exists olr_keep.note_margin() cascade;
create function olr_keep.note_margin() returns trigger language plpgsql security definer set search_path = pg_catalog, pg_temp as $$
begin
    insert into olr_keep.note (source, who) values (-1, session_user);
    perform olr_keep.wake();
    return null;
end $$;
create trigger olr_keep_margin after insert or update or delete or truncate on olr_keep.margin for each statement
    execute function olr_keep.note_margin();
alter table olr_keep.margin enable always trigger olr_keep_margin;
revoke execute on function olr_keep.note_keys(), olr_keep.note_statement(), olr_keep.note_margin() from public;

-- A table, its partitions, and the tables that inherit from it.
create or replace function olr_keep.parts(streets text) returns table (part regclass, is_partition boolean, filenode oid)
language sql stable set search_path = pg_catalog, pg_temp as $$
    with recursive found(part) as (
        select to_regclass(streets)::oid
        union select inhrelid from pg_inherits join found on inhparent = part
    )
    select oid::regclass, relispartition, pg_relation_filenode(oid) from found join pg_class on oid = part
    where relkind in ('r', 'p')
$$;

-- Makes the triggers that note which rows of a table change: of a source of streets, or of the paths (0). The first one evaluates
-- the expression of the id, with the rights of whoever writes the row. An expression that fails doesn't fail the statement of the
-- editor: the note is of all rows then.
create or replace function olr_keep.make_triggers(source int, streets text, id text, path text default 'pg_catalog')
returns void language plpgsql set search_path = pg_catalog, pg_temp as $body$
declare
    is_column bool := id ~ '^[a-z_][a-z0-9_]*$';
    form text := case when is_column then '%s.' || id || '::text'
        else '(select (' || replace(id, '%', '%%') || ')::text from (select %s.*) as one)' end;
    was text := format(form, 'old');
    now text := format(form, 'new');
    setting text := case when is_column then '' else format('set search_path = %s, pg_temp', path) end;
    one record;
begin
    execute format($f$
        create or replace function olr_keep.key_row_%1$s() returns trigger language plpgsql %4$s as $$
        declare
            now_key text;
            was_key text;
        begin
            begin
                if tg_op <> 'DELETE' then
                    now_key := '=' || coalesce(%3$s, '');
                end if;
                if tg_op <> 'INSERT' then
                    was_key := '=' || coalesce(%2$s, '');
                end if;
            exception when others then
                now_key := '';
                was_key := '';
            end;
            if now_key <> was_key then
                was_key := pg_catalog.set_config('olr_keep.was', was_key, true);
                now_key := '+' || substr(now_key, 2);
            end if;
            now_key := pg_catalog.set_config('olr_keep.key', coalesce(now_key, was_key), true);
            return null;
        end $$ $f$, source, was, now, setting);
    perform olr_keep.drop_triggers(streets);
    for one in select * from olr_keep.parts(streets) loop
        if not one.is_partition then
            execute format('create trigger olr_keep_row after insert or update or delete on %s for each row
                execute function olr_keep.key_row_%s()', one.part, source);
            execute format('create trigger olr_keep_row_note after insert or update or delete on %s for each row
                execute function olr_keep.note_keys(%s)', one.part, source);
        end if;
        execute format('create trigger olr_keep_statement after insert or update or delete on %s for each statement
            execute function olr_keep.note_statement(%s)', one.part, source);
        execute format('create trigger olr_keep_truncate after truncate on %s for each statement
            execute function olr_keep.note_statement(%s)', one.part, source);
        execute format('alter table %s enable always trigger olr_keep_row, enable always trigger olr_keep_row_note,
            enable always trigger olr_keep_statement, enable always trigger olr_keep_truncate', one.part);
    end loop;
end $body$;

create or replace function olr_keep.drop_triggers(streets text) returns void language plpgsql
set search_path = pg_catalog, pg_temp as $$
declare
    one record;
begin
    for one in select tgname, tgrelid::regclass as part from olr_keep.parts(streets) join pg_trigger on tgrelid = part::oid
        where tgname in ('olr_keep_row', 'olr_keep_row_note', 'olr_keep_statement', 'olr_keep_truncate') and tgparentid = 0
    loop
        execute format('drop trigger if exists %I on %s', one.tgname, one.part);
    end loop;
end $$;

-- Makes the triggers of a source again, with the rights of the owner of this function: tools/live calls it if they are missing.
-- It gives up soon if the table is locked, since editors who come after it would wait for it.
create or replace function olr_keep.mend_triggers(number int) returns void language plpgsql security definer
set search_path = pg_catalog, pg_temp set lock_timeout = '200ms' as $$
begin
    perform olr_keep.make_triggers(source, streets, id, source.search_path) from olr_keep.source where source = number;
end $$;
revoke execute on function olr_keep.mend_triggers(int) from public;

-- Why an expression that is evaluated under these schemas may call what somebody else has put there, or NULL.
create or replace function olr_keep.foreign_names(schemas name[]) returns text language sql stable
set search_path = pg_catalog, pg_temp as $$
    with place as (
        select oid, nspname, nspowner, coalesce(nspacl, acldefault('n', nspowner)) as acl from pg_namespace
        where nspname = any(schemas) and nspname <> 'pg_catalog'
    ), trusted as (
        select oid from pg_roles where rolsuper or rolname = current_user union all select nspowner from place
    ), own as (
        select pronamespace as place, proname as name, proowner as owner, oid::regprocedure::text as words from pg_proc
        union all select oprnamespace, oprname, oprowner, 'the operator ' || oid::regoperator from pg_operator
    )
    select format('%s, and %s may create functions there: revoke create on schema %s from %2$s', nspname,
        string_agg(case grantee when 0 then 'public' else grantee::regrole::text end, ', '), quote_ident(nspname))
    from place cross join aclexplode(acl)
    where privilege_type = 'CREATE' and grantee not in (select * from trusted) group by nspname
    union all
    select format('%s, and %s of %s has a name of PostgreSQL or PostGIS', nspname, words, owner::regrole)
    from own join place on place.oid = own.place
    where owner not in (select * from trusted) and name in (select name from own where owner in (select * from trusted))
    limit 1
$$;

drop function if exists olr_keep.add_streets(text, text, text, text, text, text, text);
drop function if exists olr_keep.add_streets(text, text, text, text, text, text, text, name[]);
create or replace function olr_keep.add_streets(
    streets text, id text default 'id', class text default 'class', form text default 'form',
    direction text default 'direction', geom text default 'geom', prefix text default '', schemas name[] default current_schemas(true),
    name text default null
) returns text language plpgsql set search_path = pg_catalog, pg_temp as $$
declare
    given regclass;
    foreign_name text := olr_keep.foreign_names(schemas);
    path text := (select string_agg(quote_ident(it), ', ') from unnest(schemas) as it where it !~ '^pg_temp');
    whole text;
    type text;
    number int;
begin
    if foreign_name is not null then
        raise exception 'expressions are evaluated under the schema %', foreign_name;
    end if;
    perform set_config('search_path', path || ', pg_temp', true);
    given := to_regclass(streets);
    if given is null then
        raise exception 'there is no table %', streets;
    end if;
    select format('%I.%I', nspname, relname) into whole from pg_class join pg_namespace as n on n.oid = relnamespace
    where pg_class.oid = given and relkind in ('r', 'p');
    if whole is null then
        raise exception '% is not a table: triggers of a view don''t fire for the changes of its tables; name these', streets;
    end if;
    execute format('select pg_typeof(%s), (%s)::text, (%s)::text, (%s)::text, ST_SRID(%s), (%s)::text
        from (select 1) as one left join %s on false', id, class, form, direction, geom, coalesce(name, 'null'), whole) into type;
    perform set_config('search_path', 'pg_catalog, pg_temp', true);
    insert into olr_keep.source as old (streets, id, id_type, class, form, direction, geom, prefix, search_path, name)
    values (whole, id, type, class, form, direction, geom, prefix, path, name)
    on conflict on constraint source_streets_key do update
        set (id, id_type, class, form, direction, geom, prefix, search_path, name) = (excluded.id, excluded.id_type, excluded.class,
            excluded.form, excluded.direction, excluded.geom, excluded.prefix, excluded.search_path, excluded.name)
    returning source into number;
    perform olr_keep.make_triggers(number, whole, id, path);
    insert into olr_keep.note (source, who) values (number, session_user);
    perform olr_keep.wake();
    return format('%s is source %s', whole, number);
end $$;
comment on function olr_keep.add_streets is 'Adds a table of streets, or changes its expressions: direction gives both, along or
against; prefix begins the ids; functions are sought in the schemas, those of the caller''s search_path; streets may have no name.';

create or replace function olr_keep.drop_streets(streets text) returns text language plpgsql
set search_path = pg_catalog, pg_temp as $$
declare
    whole text;
    number int;
begin
    delete from olr_keep.source as old
    where old.streets in (drop_streets.streets, 'public.' || drop_streets.streets)
    returning old.streets, old.source into whole, number;
    if whole is null then
        raise exception '% is not a table of streets of olr_keep', streets;
    end if;
    perform olr_keep.drop_triggers(whole);
    execute format('drop function if exists olr_keep.key_row_%s()', number);
    insert into olr_keep.note (source, who) values (number, session_user);
    perform olr_keep.wake();
    return format('%s is no source any more', whole);
end $$;
comment on function olr_keep.drop_streets is 'Removes a table of streets; its streets leave the map in the next round.';

-- ---- what operators call: with the rights of the owner, for the roles that may execute it

create or replace function olr_keep.release(number bigint) returns text language plpgsql security definer
set search_path = pg_catalog, pg_temp as $$
declare
    names int := (select count(*) from olr_keep.waiting where hold = number);
begin
    if names = 0 then
        raise exception 'nothing is held by %', number;
    end if;
    insert into olr_keep.release (hold) values (number) on conflict do nothing;
    perform olr_keep.wake();
    return format('hold %s is released: the strings of its %s paths are published in the next round, as they are then',
        number, names);
end $$;
comment on function olr_keep.release is 'Lets the strings be published that are held, as they are in the next round.';

create or replace function olr_keep.freeze(path text) returns text language plpgsql security definer
set search_path = pg_catalog, pg_temp as $$
begin
    perform olr_keep.set_frozen(array[path], (select round from olr_keep.string where name = path));
    return format('the string of %s stays as it is', path);
end $$;
comment on function olr_keep.freeze is 'Keeps the published string of a path as it is, until thaw.';

create or replace function olr_keep.restore(number bigint, paths text[]) returns text language plpgsql security definer
set search_path = pg_catalog, pg_temp as $$
begin
    if not exists (select from olr_keep.round where round <= number) then
        raise exception 'there is no round up to %', number;
    end if;
    perform olr_keep.set_frozen(paths, number);
    return format('%s paths have their strings of round %s again, from the next round until thaw', cardinality(paths), number);
end $$;
comment on function olr_keep.restore is 'Publishes the strings that paths had after a round, and keeps them so, until thaw.';

create or replace function olr_keep.set_frozen(paths text[], number bigint) returns void language plpgsql
set search_path = pg_catalog, pg_temp as $$
declare
    missing text := (select string_agg(name, ', ') from unnest(paths) as name
        where not exists (select from olr_keep.string where string.name = name.name));
begin
    if missing is not null then
        raise exception 'not published: %', missing;
    end if;
    insert into olr_keep.frozen (name, round) select distinct name, number from unnest(paths) as name
    on conflict (name) do update set (round, who, since) = (excluded.round, excluded.who, excluded.since);
    insert into olr_keep.note (source, key, who) select 0, name, session_user from unnest(paths) as name;
    perform olr_keep.wake();
end $$;

create or replace function olr_keep.thaw(path text) returns text language plpgsql security definer
set search_path = pg_catalog, pg_temp as $$
begin
    delete from olr_keep.frozen where name = path;
    if not found then
        raise exception '% is not frozen', path;
    end if;
    insert into olr_keep.note (source, key, who) values (0, path, session_user);
    perform olr_keep.wake();
    return format('the string of %s is published as it is in the next round', path);
end $$;
comment on function olr_keep.thaw is 'Ends freeze and restore.';

-- Gives those of these paths the streets and the courses where they are that are found elsewhere, or of which this is a problem,
-- and returns their names. What is accepted is what the tables show now, whatever a round finds later.
create or replace function olr_keep.accept_shown(names text[]) returns text[] language sql set search_path = pg_catalog, pg_temp as $$
    with accepted as (
        update olr_keep.path set streets = case when path.streets is null then null else string.streets end,
            course = case when path.course is null then null else string.geom end
        from olr_keep.string where string.name = path.name and path.name = any(names) and not lost
            and (found_elsewhere or exists (select from olr_keep.problem where problem.path = string.name and kind <> 'no string'))
        returning path.name, path.streets, path.course
    ), fixed as (
        update olr_keep.string set found_elsewhere = false, last_map = null, given_streets = string.streets, off_m = 0,
            at_junctions = array[start_cut = 0, end_cut = 0],
            given = case when not exists (select from olr_keep.problem where path = string.name and kind = 'farther on') then geom end,
            definition = md5(concat(streets_given::text, '|', course_given::text))
        from accepted as it(name, streets_given, course_given) where string.name = it.name
    ), mended as (
        delete from olr_keep.problem using accepted
        where path = name and kind in ('two roads', 'two ways', 'off its course', 'other string') returning path
    )
    select coalesce(array_agg(name), '{}') from accepted
$$;

create or replace function olr_keep.accept(path text) returns text language plpgsql security definer
set search_path = pg_catalog, pg_temp as $$
begin
    if cardinality(olr_keep.accept_shown(array[path])) = 0 then
        raise exception '% is not found elsewhere', path;
    end if;
    return format('%s is where it was found', path);
end $$;
comment on function olr_keep.accept(text) is 'Gives a path that is found elsewhere the streets and the course where it was found.';

create or replace function olr_keep.accept(names text[]) returns text language plpgsql security definer
set search_path = pg_catalog, pg_temp as $$
declare
    accepted text[] := olr_keep.accept_shown(names);
    others text := (select string_agg(name, ', ') from unnest(names) as name where name <> all(accepted));
begin
    return format('%s paths are where they were found', cardinality(accepted)) || coalesce('; not found elsewhere: ' || others, '');
end $$;
comment on function olr_keep.accept(text[]) is 'Gives several paths that are found elsewhere the streets and the courses where they were found.';

create or replace function olr_keep.accept_all(metres float8) returns text language plpgsql security definer
set search_path = pg_catalog, pg_temp as $$
begin
    return olr_keep.accept(array(select name from olr_keep.string where found_elsewhere and not lost and off_m <= metres order by name));
end $$;
comment on function olr_keep.accept_all is 'Accepts all paths that are found elsewhere, but no farther than so many metres from where they were given.';
revoke execute on function olr_keep.release(bigint), olr_keep.freeze(text), olr_keep.restore(bigint, text[]),
    olr_keep.set_frozen(text[], bigint), olr_keep.thaw(text), olr_keep.accept(text), olr_keep.accept(text[]),
    olr_keep.accept_all(float8), olr_keep.accept_shown(text[]) from public;

-- ---- what consumers, operators and other tools read

create or replace function olr_keep.texts_at(number bigint) returns table (name text, round bigint, text text, reason text)
language sql stable set search_path = pg_catalog, pg_temp as $$
    select * from (
        select distinct on (name) name, round, text, reason from olr_keep.history
        where round <= number order by name, round desc
    ) as last where reason is distinct from 'dropped'
$$;
comment on function olr_keep.texts_at is 'The strings that were published after a round, as far as the history has them.';

create or replace view olr_keep.held as
select hold.hold, hold.since, users, count(*) as paths, count(*) filter (where effect = 'changed') as changed,
    count(*) filter (where effect = 'refused') as refused, count(*) filter (where effect = 'dropped') as dropped,
    count(*) filter (where effect = 'elsewhere') as elsewhere, hold.streets, array_agg(name order by name) as names,
    ST_Multi(ST_Collect(coalesce(given, geom)))::geometry(MultiLineString, 4326) as geom
from olr_keep.hold join olr_keep.waiting using (hold) left join olr_keep.string using (name)
where not exists (select from olr_keep.release where release.hold = hold.hold)
group by hold.hold;
comment on view olr_keep.held is 'The holds that are open, and the paths whose strings wait in them, with where these were.';

create or replace function olr_keep.about(names text[], course geometry) returns text language sql stable
begin atomic
    select array_to_string(names[:6] || array[case when cardinality(names) > 6 then cardinality(names) - 6 || ' more' end,
        case when round(far) < 1000 then round(far) || ' m' else round(far::numeric / 1000, 1) || ' km' end,
        ('{north,north-east,east,south-east,south,south-west,west,north-west}'::text[])[round(turn / 45)::int % 8 + 1] || 'ward'], ', ')
    from (select ST_Length(course::geography) as far,
        degrees(ST_Azimuth(ST_StartPoint(course)::geography, ST_EndPoint(course)::geography)) as turn) as on_map
    where cardinality(names) > 0;
end;
comment on function olr_keep.about is 'Names of streets, and the length and the direction of a course; NULL without a name.';

create or replace view olr_keep.path_state as
select name as path, case when waiting.kind = 'delayed' then 'delayed' else string.state end as state,
    string.text as string, last_text as last_string, string.reason, string.round, round.at, now() - round.at as age,
    (select string_agg(words, '; ' order by problem) from olr_keep.problem where problem.path = name) as problems, geom,
    exists (select from olr_keep.ambiguity where ambiguity.name = string.name) as ambiguous, string.margin, off_m, due,
    olr_keep.about((select array_agg(each.name order by nth) from (
        select street.name, min(nth) as nth from unnest(string.streets) with ordinality as way(marked, nth)
        join olr_keep.street on street.street = substr(marked, 2) where street.name is not null group by street.name) as each), geom) as about
from olr_keep.string left join olr_keep.round using (round) left join olr_keep.waiting using (name);
comment on view olr_keep.path_state is 'Each path with its state, the age of its string, its problems in words, and its course.';

create or replace function olr_keep.records() returns setof text language sql stable
set search_path = pg_catalog, pg_temp as $$
    select format('margin,%s,%s', routes, classes) from olr_keep.margin where routes + classes > 0
    union all
    select format('node,%s,%s,%s', node, trim_scale(round(((place >> 31) - 1800000000) / 1e7, 7)),
        trim_scale(round(((place & 2147483647) - 900000000) / 1e7, 7))) from olr_keep.node
    union all select format('line,%s,%s,%s,%s', line, from_node, to_node, fields) from olr_keep.line
    union all
    select format('path,%s,%s,%s,%s', name, start_offset, end_offset, array_to_string(lines, ',')) from olr_keep.string
        where cardinality(lines) > 0
$$;
comment on function olr_keep.records is 'The records of the map and the paths as they are published, for the other tools.';

-- A geometry in degrees without Z and M, or NULL if its coordinates can't be transformed. The second function is not for parallel
-- queries, since it catches errors, and takes longer for that.
create or replace function olr_keep.transformed(geom geometry) returns geometry language plpgsql immutable strict as $$
begin
    return ST_Transform(ST_Force2D(geom), 4326);
exception when others then
    return null;
end $$;
create or replace function olr_keep.degrees(geom geometry) returns geometry language sql immutable
    return case when ST_SRID(geom) = 4326 then ST_Force2D(geom) else olr_keep.transformed(geom) end;

\o /dev/null
select olr_keep.make_triggers(0, 'olr_keep.path', 'name');
select olr_keep.make_triggers(source, streets, id, source.search_path) from olr_keep.source where to_regclass(streets) is not null;

-- Of a version before: functions that PUBLIC may execute, with all triggers that call them, whoever made them.
do $$
declare
    one record;
begin
    for one in select oid::regprocedure as name from pg_proc
        where pronamespace = 'olr_keep'::regnamespace and proname ~ '^(note_row_[0-9]+|notify_change)$'
    loop
        execute format('drop function %s cascade', one.name);
    end loop;
    for one in select streets, olr_keep.foreign_names(string_to_array(replace(search_path, '"', ''), ', ')::name[]) as words
        from olr_keep.source
    loop
        if one.words is not null then
            raise warning '%: expressions are evaluated under the schema %', one.streets, one.words;
        end if;
    end loop;
end $$;
