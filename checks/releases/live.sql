-- The schema of before paths were held by cluster, from which checks/live upgrades. It was this:
--
-- Makes the schema olr_keep, by which tools/live keeps the strings of paths over editors' tables of streets:
--
--     psql -q -v ON_ERROR_STOP=1 -f tools/live.sql DATABASE
--     psql -q -c "select olr_keep.add_streets('public.streets')" DATABASE
--
-- The second command adds a table of streets and its triggers; docs/LIVE.md has the other steps. Both can be run again. The
-- database needs the extension postgis.

set client_min_messages = warning;
create schema if not exists olr_keep;

-- ---- what operators write

create table if not exists olr_keep.path (
    name text primary key check (name ~ '^[A-Za-z0-9_.-]{1,64}$'),
    streets text[] check (cardinality(streets) > 0),
    course geometry(LineString, 4326),
    cut_start float8 not null default 0 check (cut_start between 0 and 400000000),
    cut_end float8 not null default 0 check (cut_end between 0 and 400000000),
    check (num_nonnulls(streets, course) > 0)
);
comment on table olr_keep.path is 'The paths. Each has streets or a course; if it has both, the streets are tried first.';
comment on column olr_keep.path.streets is
    'Streets in the order of travel. >ID is a street along its geometry, <ID against it, ID in the direction that joins.';
comment on column olr_keep.path.course is 'The course from start to end, drawn or routed.';
comment on column olr_keep.path.cut_start is 'Metres that are cut off at the start of the streets or of the course.';
comment on column olr_keep.path.cut_end is 'Metres that are cut off at the end.';

-- ---- what live writes

create sequence if not exists olr_keep.node_number maxvalue 4294967295;
create sequence if not exists olr_keep.line_number maxvalue 4294967295;

create or replace function olr_keep.lon(place bigint) returns float8 language sql immutable parallel safe
    return ((place >> 31) - 1800000000) / 1e7;
create or replace function olr_keep.lat(place bigint) returns float8 language sql immutable parallel safe
    return ((place & 2147483647) - 900000000) / 1e7;
create table if not exists olr_keep.street (
    street text primary key, digest bigint not null, source int not null, class smallint, form smallint, direction text
);
comment on table olr_keep.street is 'The streets as live has read them; those without a class are left out of the map.';

create table if not exists olr_keep.vertex (street text not null, part int not null, k int not null, place bigint not null);
create index if not exists vertex_street on olr_keep.vertex (street);
create index if not exists vertex_place on olr_keep.vertex (place);
comment on table olr_keep.vertex is
    'The vertices of the streets. A place is a coordinate, (lon + 180) * 2^31 + lat + 90, in units of 10^-7 degree.';

create table if not exists olr_keep.node (
    node bigint primary key, place bigint not null unique deferrable initially deferred, geom geometry(Point, 4326) not null
);
create index if not exists node_geom on olr_keep.node using gist (geom);
comment on table olr_keep.node is 'The nodes of the map, with the numbers that the program has.';

create table if not exists olr_keep.line (
    line bigint primary key, street text not null, part int not null, k int not null, along boolean not null,
    from_node bigint not null, to_node bigint not null, nth int not null, length int not null, fields text not null,
    geom geometry(LineString, 4326) not null
);
create index if not exists line_street on olr_keep.line (street);
create index if not exists line_geom on olr_keep.line using gist (geom);
comment on table olr_keep.line is 'The lines of the map, with the numbers that the program has; lengths are decimetres.';
comment on column olr_keep.line.nth is
    'Which of the lines of this street between the same two nodes, in this direction on a loop.';
comment on column olr_keep.line.fields is
    'The fields of the line''s record after its ends: class, form, length and shape points.';

create table if not exists olr_keep.string (
    name text primary key, text text, reason text, round bigint not null,
    lines bigint[] not null default '{}', streets text[] not null default '{}',
    start_offset bigint not null default 0, end_offset bigint not null default 0,
    start_cut bigint not null default 0, end_cut bigint not null default 0, start_node bigint, end_node bigint,
    definition text not null,
    last_text text, last_round bigint, lost boolean not null default false, geom geometry(LineString, 4326),
    check (num_nonnulls(text, reason) = 1)
);
create index if not exists string_lines on olr_keep.string using gin (lines);
create index if not exists string_geom on olr_keep.string using gist (geom);
comment on table olr_keep.string is
    'The published string of each path since a round, or the reason why it has none, with its last string beside it.';
comment on column olr_keep.string.lines is
    'The lines of the path, in order; start_offset and end_offset are the offsets of its record, in decimetres.';
comment on column olr_keep.string.start_cut is 'The decimetres of its first line that are before its streets or its course.';
comment on column olr_keep.string.lost is 'Whether no lines of the map were found for it: the lines are its last ones.';
comment on column olr_keep.string.geom is
    'The course of the lines between the offsets, without the metres that the path cuts off.';

create table if not exists olr_keep.round (
    round bigint primary key, state text not null check (state in ('done', 'held', 'released')),
    at timestamptz not null, streets text[] not null, paths text[] not null, users text[] not null,
    changed int not null, refused int not null, dropped int not null, seconds float8 not null
);
comment on table olr_keep.round is
    'The rounds: their time, which streets and paths they changed, by which users, and how many strings they changed.';

create table if not exists olr_keep.history (
    round bigint not null references olr_keep.round, name text not null, text text, reason text,
    primary key (round, name)
);
create index if not exists history_name on olr_keep.history (name, round);
comment on table olr_keep.history is
    'Each answer that was published, by round. The reason dropped means that the path was removed.';

create table if not exists olr_keep.problem (
    problem bigint generated always as identity primary key, street text, path text, node bigint, words text not null,
    since timestamptz not null default now(), geom geometry(Point, 4326)
);
create index if not exists problem_street on olr_keep.problem (street);
create index if not exists problem_path on olr_keep.problem (path);
create index if not exists problem_node on olr_keep.problem (node);
comment on table olr_keep.problem is 'What the map or a path lacks now. A row is removed when it is mended.';

-- ---- what triggers write

create table if not exists olr_keep.note (
    source int not null, key text, who text not null, at timestamptz not null default now()
);
comment on table olr_keep.note is
    'The streets (or paths, source 0) that changed since the last round; without a key: all of the source.';

create table if not exists olr_keep.source (
    source int generated by default as identity primary key, streets text not null unique, id text not null,
    id_type text not null, class text not null, form text not null, direction text not null, geom text not null,
    prefix text not null default ''
);
comment on table olr_keep.source is 'The tables of streets, with the expressions of their columns. add_streets writes it.';

create or replace function olr_keep.notify_change() returns trigger language plpgsql security definer
set search_path = pg_catalog, pg_temp as $$
begin
    if tg_op = 'TRUNCATE' then
        insert into olr_keep.note (source, who) values (tg_argv[0]::int, session_user);
    end if;
    perform pg_notify('olr_keep_note', '');
    return null;
end $$;

-- Makes the function and the triggers that note which rows of a table change: of a source of streets, or of the paths (0).
create or replace function olr_keep.make_triggers(source int, streets text, id text) returns void language plpgsql as $body$
declare
    form text := case when id ~ '^[a-z_][a-z0-9_]*$' then '%s.' || id || '::text'
        else '(select (' || replace(id, '%', '%%') || ')::text from (select %s.*) as one)' end;
    was text := format(form, 'old');
    now text := format(form, 'new');
begin
    execute format($f$
        create or replace function olr_keep.note_row_%1$s() returns trigger language plpgsql security definer
        set search_path = pg_catalog, pg_temp as $$
        declare
            key text;
        begin
            if tg_op <> 'DELETE' then
                key := coalesce(%3$s, '');
                insert into olr_keep.note (source, key, who) values (%1$s, key, session_user);
            end if;
            if tg_op = 'DELETE' or tg_op = 'UPDATE' and %2$s is distinct from key then
                insert into olr_keep.note (source, key, who) values (%1$s, coalesce(%2$s, ''), session_user);
            end if;
            return null;
        end $$ $f$, source, was, now);
    execute format('drop trigger if exists olr_keep_row on %s', streets);
    execute format('drop trigger if exists olr_keep_statement on %s', streets);
    execute format('drop trigger if exists olr_keep_truncate on %s', streets);
    execute format('create trigger olr_keep_row after insert or update or delete on %s for each row
        execute function olr_keep.note_row_%s()', streets, source);
    execute format('create trigger olr_keep_statement after insert or update or delete on %s for each statement
        execute function olr_keep.notify_change(%s)', streets, source);
    execute format('create trigger olr_keep_truncate after truncate on %s for each statement
        execute function olr_keep.notify_change(%s)', streets, source);
    execute format('alter table %s enable always trigger olr_keep_row, enable always trigger olr_keep_statement,
        enable always trigger olr_keep_truncate', streets);
end $body$;

create or replace function olr_keep.add_streets(
    streets text, id text default 'id', class text default 'class', form text default 'form',
    direction text default 'direction', geom text default 'geom', prefix text default ''
) returns text language plpgsql as $$
declare
    given regclass := to_regclass(streets);
    whole text;
    type text;
    number int;
begin
    if given is null then
        raise exception 'there is no table %', streets;
    end if;
    select format('%I.%I', nspname, relname) into whole from pg_class join pg_namespace as n on n.oid = relnamespace
    where pg_class.oid = given and relkind in ('r', 'p');
    if whole is null then
        raise exception '% is not a table: triggers of a view don''t fire for the changes of its tables; name these', streets;
    end if;
    execute format('select pg_typeof(%s), (%s)::text, (%s)::text, (%s)::text, ST_SRID(%s)
        from (select 1) as one left join %s on false', id, class, form, direction, geom, whole) into type;
    insert into olr_keep.source as old (streets, id, id_type, class, form, direction, geom, prefix)
    values (whole, id, type, class, form, direction, geom, prefix)
    on conflict on constraint source_streets_key do update set (id, id_type, class, form, direction, geom, prefix)
        = (excluded.id, excluded.id_type, excluded.class, excluded.form, excluded.direction, excluded.geom, excluded.prefix)
    returning source into number;
    perform olr_keep.make_triggers(number, whole, id);
    insert into olr_keep.note (source, who) values (number, session_user);
    notify olr_keep_note;
    return format('%s is source %s', whole, number);
end $$;
comment on function olr_keep.add_streets is
    'Adds a table of streets, or changes its expressions: direction gives both, along or against; prefix begins the ids.';

create or replace function olr_keep.drop_streets(streets text) returns text language plpgsql as $$
declare
    whole text;
    number int;
begin
    delete from olr_keep.source as old
    where old.streets in (drop_streets.streets, 'public.' || drop_streets.streets)
    returning old.streets, old.source into whole, number;
    if whole is null then
        raise exception '% is not a table of streets of olr_keep', streets;
    end if;
    if to_regclass(whole) is not null then
        execute format('drop trigger if exists olr_keep_row on %s', whole);
        execute format('drop trigger if exists olr_keep_statement on %s', whole);
        execute format('drop trigger if exists olr_keep_truncate on %s', whole);
    end if;
    insert into olr_keep.note (source, who) values (number, session_user);
    notify olr_keep_note;
    return format('%s is no source any more', whole);
end $$;
comment on function olr_keep.drop_streets is 'Removes a table of streets; its streets leave the map in the next round.';

create or replace function olr_keep.release(number bigint) returns text language plpgsql as $$
begin
    update olr_keep.round set state = 'released' where round = number and state = 'held';
    if not found then
        raise exception 'round % is not held', number;
    end if;
    notify olr_keep_note;
    return format('round %s is released', number);
end $$;
comment on function olr_keep.release is 'Lets a held round be published, if it still changes no more than it said.';

create or replace function olr_keep.records() returns setof text language sql stable as $$
    select format('node,%s,%s,%s', node, trim_scale(round(((place >> 31) - 1800000000) / 1e7, 7)),
        trim_scale(round(((place & 2147483647) - 900000000) / 1e7, 7))) from olr_keep.node
    union all select format('line,%s,%s,%s,%s', line, from_node, to_node, fields) from olr_keep.line
    union all
    select format('path,%s,%s,%s,%s', name, start_offset, end_offset, array_to_string(lines, ',')) from olr_keep.string
        where cardinality(lines) > 0
$$;
comment on function olr_keep.records is 'The records of the map and the paths as they are published, for the other tools.';

-- A geometry in degrees without Z and M, or NULL if its coordinates can't be transformed. Not for parallel queries, since it
-- catches errors.
create or replace function olr_keep.degrees(geom geometry) returns geometry language plpgsql immutable strict as $$
begin
    if ST_SRID(geom) = 4326 then
        return ST_Force2D(geom);
    end if;
    return ST_Transform(ST_Force2D(geom), 4326);
exception when others then
    return null;
end $$;

\o /dev/null
select olr_keep.make_triggers(0, 'olr_keep.path', 'name');
