-- Splits streets at their junctions and numbers nodes and parts, for a table of streets that has neither:
--
--     psql -q -f tools/postgis-split.sql DATABASE
--     psql -q -v ON_ERROR_STOP=1 -c 'create schema if not exists olr_export; begin; drop table if exists olr_export.roads;
--         create table olr_export.roads as select * from split_streets(); commit' DATABASE
--     PGOPTIONS='-c search_path=olr_export,public' psql -AtXq -f tools/postgis-records.sql -o map.csv DATABASE
--
-- The first command creates the function and the tables in which it stores its numbers. The others are run each night: they make
-- the table `roads`, in a schema of its own so that no other table is dropped, and read it. The function reads a table, or a
-- view of this name:
--
--     streets(id, class, form, direction, geom)
--         id      any key
--         class, form, direction, geom    as in `roads`; geom may have Z and M, which are left out
--
-- A street is split at each vertex that it shares with another street, or has twice, and where a part would be longer than
-- 15 km or have more than 1,000 shape points. Streets that cross without a common vertex, as on a bridge, do not meet.
-- Vertices are equal if seven decimals of a degree are. If rows are invalid, they are listed, up to 20 for each reason and
-- column, and nothing is changed.
--
-- Numbers are stable. A node keeps its number if it is where it was, or if all streets that were split there agree on one new
-- place, which those of no other node claim: so a junction may be moved. A part keeps its number as its street and its two
-- nodes are the same, also if the street is reversed: the part is then returned in its earlier direction. A part of a street
-- with a new id keeps that of the part with the same vertices, if that one's street is gone.

\set ON_ERROR_STOP on

create table if not exists road_nodes (
    node bigint generated always as identity primary key, x bigint not null, y bigint not null, unique (x, y)
);
comment on table road_nodes is 'The numbers of nodes, by their coordinates in 10^-7 degree.';

create table if not exists road_parts (
    id bigint generated always as identity primary key,
    street text not null, start_node bigint not null, end_node bigint not null, nth bigint not null,
    unique (street, start_node, end_node, nth)
);
comment on table road_parts is 'The numbers of parts of streets, by their nodes; nth counts those between the same two.';

create table if not exists road_vertices (
    street text not null, k int not null, x bigint not null, y bigint not null, node bigint, primary key (street, k)
);
comment on table road_vertices is 'The vertices of the streets as they were split last, with the nodes at which they were split.';

-- A geometry with further vertices where two would be too far apart for a part. 14.9 km are at least 0.133 degrees.
create or replace function street_vertices(geom geometry) returns geometry language sql immutable as $$
    select case when ST_Length(geom) > 0.133 and ST_Length(geom::geography) > 14900 then ST_Segmentize(geom::geography, 14900)::geometry else geom end
$$;

create or replace function wrong_streets() returns text language sql stable as $$
    select string_agg(format('street %s: %s', array_to_string(ids[:20], ', ')
        || case when cardinality(ids) > 20 then format(' and %s others', cardinality(ids) - 20) else '' end, reason), E'\n'
        order by ids, reason)
    from (select array_agg(distinct coalesce(id, 'without id')) as ids, reason from (
        select id::text as id, reason
        from (select *, count(*) over (partition by id) as same from streets) as street
        cross join lateral (values
            (case when id is null then 'id is NULL' when same > 1 then 'another street has the same id' end),
            (case when class is null then 'class is NULL'
                when class not between 0 and 7 then format('class is %s, and has to be 0 to 7', class) end),
            (case when form is null then 'form is NULL'
                when form not between 0 and 7 then format('form is %s, and has to be 0 to 7', form) end),
            (case when direction is null then 'direction is NULL'
                when direction not in ('both', 'along', 'against')
                    then format('direction is %L, and has to be both, along or against', direction) end),
            (case when geom is null then 'geom is NULL'
                when ST_GeometryType(geom) <> 'ST_LineString'
                    then format('geom is of type %s, and has to be a LineString; ST_Dump gives the parts', ST_GeometryType(geom))
                when ST_SRID(geom) <> 4326 then format('geom has SRID %s; ST_Transform(geom, 4326) gives degrees', ST_SRID(geom))
                when ST_IsEmpty(geom) then 'geom is empty'
                when ST_XMin(geom) < -180 or ST_XMax(geom) > 179.9999 or ST_YMin(geom) < -89.9999 or ST_YMax(geom) > 89.9999
                    then 'geom is beyond the longitudes -180 to 179.9999 or the latitudes -89.9999 to 89.9999' end)
        ) as found(reason)
        where reason is not null
    ) as wrong group by reason) as by_reason
$$;

create or replace function split_streets()
returns table (id bigint, start_node bigint, end_node bigint, class int, form int, direction text, geom geometry(LineString, 4326))
language plpgsql
set client_min_messages = warning
set work_mem = '256MB'
as $$
#variable_conflict use_column
declare
    wrong text := wrong_streets();
    here record;
    far float8;
    count int;
begin
    if wrong is not null then
        raise exception '%', wrong;
    end if;

    -- The vertices of each street, none twice in a row.
    drop table if exists pg_temp.split_vertex, pg_temp.split_cut, pg_temp.split_part, pg_temp.split_moved, pg_temp.split_state;
    create temporary table split_vertex on commit drop as
    select street, (row_number() over way)::int as k, x, y, ST_SetSRID(ST_MakePoint(x / 1e7, y / 1e7), 4326) as place
    from (
        select *, lag(x) over way as last_x, lag(y) over way as last_y
        from (
            select id::text as street, (dump).path[1] as k,
                round(ST_X((dump).geom)::numeric * 10000000)::bigint as x, round(ST_Y((dump).geom)::numeric * 10000000)::bigint as y
            from (select id, ST_DumpPoints(street_vertices(ST_Force2D(geom))) as dump from streets) as dumped
        ) as vertex
        window way as (partition by street order by k)
    ) as followed
    where (x, y) is distinct from (last_x, last_y)
    window way as (partition by street order by k);
    create index on split_vertex (street, k);
    analyze split_vertex;

    -- The vertices at which streets are split.
    create temporary table split_cut on commit drop as
    select street, k, x, y
    from (
        select *, count(*) over (partition by x, y) as meeting, count(*) over (partition by street) as last_k from split_vertex
    ) as counted
    where (meeting > 1 or k in (1, last_k)) and last_k > 1;

    -- Further ones within parts that would be too long.
    for here in
        select vertex.*, cut.k is not null as is_cut,
            coalesce(ST_Distance(vertex.place::geography, (lag(vertex.place) over way)::geography), 0) as step,
            lag(vertex.k) over way as last_k, lag(vertex.x) over way as last_x, lag(vertex.y) over way as last_y
        from split_vertex as vertex left join split_cut as cut using (street, k)
        where vertex.street in (
            select street from split_vertex group by street
            having count(*) > 900 or ST_Length(ST_MakeLine(place order by k)) > 0.133
        )
        window way as (partition by vertex.street order by vertex.k)
        order by vertex.street, vertex.k
    loop
        if here.k = 1 then
            far := 0;
            count := 0;
        elsif far + here.step > 14950 or count >= 990 then
            insert into split_cut values (here.street, here.last_k, here.last_x, here.last_y);
            far := here.step;
            count := 1;
        else
            far := far + here.step;
            count := count + 1;
        end if;
        if here.is_cut then
            far := 0;
            count := 0;
        end if;
    end loop;
    create index on split_cut (street, k);
    analyze split_cut;

    -- The nodes that have moved: all streets that were split there agree on one place, which no other node claims.
    create temporary table split_moved on commit drop as
    with changed as (
        select distinct street from (select street, k, x, y from split_vertex except select street, k, x, y from road_vertices) as new
        union select distinct street from (select street, k, x, y from road_vertices except select street, k, x, y from split_vertex) as old
    ),
    size as (
        select street, max(k) as last, max(old_last) as old_last
        from (
            select street, k, null::int as old_last from split_vertex union all select street, null, k from road_vertices
        ) as counted
        join changed using (street)
        group by street having count(k) > 0 and count(old_last) > 0
    ),
    turned as (
        select size.*, case when last = old_last then
            (select sum(abs(old.x - new.x) + abs(old.y - new.y)) > sum(abs(old.x - other.x) + abs(old.y - other.y))
            from road_vertices as old
            join split_vertex as new on new.street = old.street and new.k = old.k
            join split_vertex as other on other.street = old.street and other.k = last + 1 - old.k
            where old.street = size.street)
        else
            (select abs(old.x - new.x) + abs(old.y - new.y) > abs(old.x - other.x) + abs(old.y - other.y)
            from road_vertices as old, split_vertex as new, split_vertex as other
            where (old.street, old.k) = (size.street, 1) and (new.street, new.k) = (size.street, 1)
                and (other.street, other.k) = (size.street, last))
        end as is_turned
        from size
    ),
    vote as (
        select distinct old.node, coalesce(same.x, new.x) as x, coalesce(same.y, new.y) as y
        from road_vertices as old
        join turned using (street)
        left join lateral (
            select x, y from split_vertex as vertex
            where last <> old_last and (vertex.street, vertex.x, vertex.y) = (old.street, old.x, old.y) limit 1
        ) as same on true
        left join split_vertex as new on new.street = old.street and new.k = case
            when last = old_last or old.k = 1 then case when is_turned then last + 1 - old.k else old.k end
            when old.k = old_last then case when is_turned then 1 else last end
        end
        where old.node is not null and num_nulls(same.x, new.x) < 2
        union
        select distinct node, x, y from road_vertices as old
        where node is not null and not exists (select from changed where changed.street = old.street)
    ),
    agreed as (
        select node, min(x) as x, min(y) as y from vote group by node having count(*) = 1
    )
    select node, x, y from agreed
    where exists (select from split_cut as cut where (cut.x, cut.y) = (agreed.x, agreed.y))
        and not exists (select from vote where (vote.x, vote.y) = (agreed.x, agreed.y) and vote.node <> agreed.node)
        and not exists (select from road_nodes as old where (old.node, old.x, old.y) = (agreed.node, agreed.x, agreed.y))
        and exists (select from road_nodes as old where old.node = agreed.node);
    delete from road_nodes as old using split_moved as moved where old.node = moved.node or (old.x, old.y) = (moved.x, moved.y);
    insert into road_nodes (node, x, y) overriding system value select node, x, y from split_moved;

    insert into road_nodes (x, y)
    select x, y from (select x, y from split_cut except select x, y from road_nodes) as fresh order by x, y;

    -- The parts, each with its vertices as a text.
    create temporary table split_part on commit drop as
    select street, k, next_k, a.node as start_node, b.node as end_node,
        row_number() over (partition by street, a.node, b.node order by k) as nth, false as is_turned,
        (select string_agg(vertex.x || ' ' || vertex.y, ',' order by vertex.k) from split_vertex as vertex
        where vertex.street = cut.street and vertex.k between cut.k and cut.next_k) as course
    from (select *, lead(k) over way as next_k, lead(x) over way as next_x, lead(y) over way as next_y from split_cut
        window way as (partition by street order by k)) as cut
    join road_nodes as a on a.x = cut.x and a.y = cut.y
    join road_nodes as b on b.x = next_x and b.y = next_y;
    analyze split_part;

    -- Parts of streets that are gone, for new parts with the same vertices.
    update road_parts as known set street = found.street, nth = found.nth
    from (
        select distinct on (part.street, part.start_node, part.end_node, part.nth) part.street, part.nth, old.id
        from split_part as part
        join road_parts as old
            on (old.start_node, old.end_node) in ((part.start_node, part.end_node), (part.end_node, part.start_node))
        where not exists (select from streets where streets.id::text = old.street)
            and not exists (select from road_parts as same
                where (same.street, same.start_node, same.end_node, same.nth) = (part.street, part.start_node, part.end_node, part.nth))
            and part.course in (
                select string_agg(vertex.x || ' ' || vertex.y, ',' order by vertex.k)
                from (
                    select k, lead(k) over (order by k) as next_k, node, lead(node) over (order by k) as next_node
                    from road_vertices where street = old.street and node is not null
                ) as stretch
                join road_vertices as vertex on vertex.street = old.street and vertex.k between stretch.k and stretch.next_k
                where (stretch.node, stretch.next_node) = (part.start_node, part.end_node)
                group by stretch.k)
        order by part.street, part.start_node, part.end_node, part.nth, old.id
    ) as found
    where known.id = found.id
        and not exists (select from road_parts as same
            where (same.street, same.start_node, same.end_node, same.nth) = (found.street, known.start_node, known.end_node, found.nth));

    -- Parts that are known in the other direction.
    update split_part as part set is_turned = true, start_node = part.end_node, end_node = part.start_node
    where start_node <> end_node
        and exists (select from road_parts as old
            where (old.street, old.start_node, old.end_node, old.nth) = (part.street, part.end_node, part.start_node, part.nth))
        and not exists (select from road_parts as old
            where (old.street, old.start_node, old.end_node, old.nth) = (part.street, part.start_node, part.end_node, part.nth))
        and not exists (select from split_part as other
            where (other.street, other.start_node, other.end_node) = (part.street, part.end_node, part.start_node));

    insert into road_parts (street, start_node, end_node, nth)
    select street, start_node, end_node, nth from split_part
    where not exists (
        select from road_parts as old
        where (old.street, old.start_node, old.end_node, old.nth)
            = (split_part.street, split_part.start_node, split_part.end_node, split_part.nth)
    )
    order by street, k;

    create temporary table split_state on commit drop as
    select street, k, vertex.x, vertex.y, node
    from split_vertex as vertex left join split_cut as cut using (street, k)
    left join road_nodes as it on (it.x, it.y) = (cut.x, cut.y);
    delete from road_vertices as old where not exists (
        select from split_state as new
        where (new.street, new.k, new.x, new.y, coalesce(new.node, 0)) = (old.street, old.k, old.x, old.y, coalesce(old.node, 0)));
    insert into road_vertices (street, k, x, y, node)
    select street, k, x, y, node from split_state as new
    where not exists (select from road_vertices as old where (old.street, old.k) = (new.street, new.k));

    return query
    select known.id, part.start_node, part.end_node, streets.class::int, streets.form::int,
        case when not is_turned then streets.direction::text when streets.direction = 'along' then 'against'
            when streets.direction = 'against' then 'along' else 'both' end,
        (select ST_MakeLine(place order by case when is_turned then -vertex.k else vertex.k end) from split_vertex as vertex
        where vertex.street = part.street and vertex.k between part.k and part.next_k)::geometry(LineString, 4326)
    from split_part as part
    join road_parts as known using (street, start_node, end_node, nth)
    join streets on streets.id::text = part.street
    order by known.id;
end $$;
