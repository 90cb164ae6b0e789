-- Makes the function olr_keep.route, which adds a path from a first point over others to a last one. It needs the extension
-- pgRouting, and the schema of tools/live.sql. To call it:
--
--     psql -q -v ON_ERROR_STOP=1 -f tools/route.sql DATABASE
--     select olr_keep.route('A27.17', array[ST_Point(6.1, 49.6), ST_Point(6.12, 49.61)])
--
-- It finds what `tools/path-records --points` finds on the same map: each point is placed on the lines within the tolerance (20 m);
-- of all places those count whose route is least, with what the points are off counted double. If points may be meant on another
-- road, by a route that is up to a tenth longer, that is an error, unless `nearest` is true. The course is stored, and live follows
-- it. The extensions have to be in the schema public.

create extension if not exists pgrouting;

create or replace function olr_keep.make_spots(points geometry[], tolerance float8) returns void language plpgsql
set search_path = pg_catalog, public, pg_temp as $$
begin
    drop table if exists pg_temp.olr_spot;
    create temp table olr_spot on commit drop as
    with near as (
        select given.nth::int as point, it.line, it.from_node, it.to_node, it.length / 10.0 as metres, x, y, wide,
            ST_Scale(ST_Translate(it.geom, -x, -y), wide, 111195.0797343726) as flat, it.geom
        from unnest(points) with ordinality as given(geom, nth)
        cross join lateral (select ST_X(given.geom) as x, ST_Y(given.geom) as y, 111195.0797343726 * cosd(ST_Y(given.geom)) as wide) as at
        join olr_keep.line as it on it.geom && ST_Expand(ST_SetSRID(given.geom, 4326), tolerance / wide, tolerance / 111195.0797343726)
    ), spot as (
        select point, line, from_node, to_node, metres, geom, ST_Distance(flat, zero) as off, ST_LineLocatePoint(flat, zero) as share,
            ST_SetSRID(ST_Translate(ST_Scale(ST_ClosestPoint(flat, zero), 1 / wide, 1 / 111195.0797343726), x, y), 4326) as place
        from near cross join lateral (select ST_SetSRID(ST_Point(0, 0), ST_SRID(flat)) as zero) as origin
    )
    select row_number() over (order by point, line)::int as pid, spot.*, share * metres as at, true as is_open,
        case when share * metres <= 0.05 then 'n' || from_node when share * metres >= metres - 0.05 then 'n' || to_node
            else 'l' || olr_keep.road(line) end as road
    from spot where off <= tolerance;
end $$;

create or replace function olr_keep.road(number bigint) returns bigint language sql stable
set search_path = pg_catalog, public, pg_temp as $$
    select least(number, min(back.line)) from olr_keep.line as it
    left join olr_keep.line as back on back.geom && it.geom and back.from_node = it.to_node and back.to_node = it.from_node
        and ST_OrderingEquals(back.geom, ST_Reverse(it.geom))
    where it.line = number
$$;
comment on function olr_keep.road is 'The road of a line: its number, or that of the other direction, if it is less.';

create or replace function olr_keep.steps(box geometry, k int) returns text language sql
set search_path = pg_catalog, public, pg_temp as $$
    -- What leads from the places of point k - 1, or the start of a line, to the places of point k. No route turns round, from a line
    -- onto the other direction of its road.
    select format('
        with near as materialized (
            select line, from_node, to_node, length / 10.0 as metres, geom from olr_keep.line where geom && %L::public.geometry
        ), spot as (select * from olr_spot where is_open)
        select row_number() over () as id, step.* from (
            select one.line as source, other.line as target, one.metres as cost from near as one
            join near as other on other.from_node = one.to_node
                and not (other.to_node = one.from_node and public.ST_OrderingEquals(public.ST_Reverse(other.geom), one.geom))
            union all
            select -one.pid, other.line, one.metres - one.at from spot as one join near as other on other.from_node = one.to_node
                and not (other.to_node = one.from_node and public.ST_OrderingEquals(public.ST_Reverse(other.geom), one.geom))
            where one.point = %s
            union all select line, -pid, at from spot where point = %s
            union all
            select -one.pid, -other.pid, greatest(0, other.at - one.at) from spot as one join spot as other using (line)
            where one.point = %2$s and other.point = %3$s and other.at >= one.at - 0.05
        ) as step', ST_SetSRID(box, 4326), k - 1, k)
$$;

create or replace function olr_keep.least_route(count int, most float8, out cost float8, out lines bigint[], out begins float8,
    out ends float8, out pids int[]) language plpgsql set search_path = pg_catalog, public, pg_temp as $$
declare
    box geometry := (select ST_Expand(ST_Extent(place)::geometry, most / 2 / 111195 / greatest(0.01, cosd(ST_YMax(ST_Extent(place)))),
        most / 2 / 111195) from olr_spot);
    one record;
    other record;
begin
    drop table if exists pg_temp.olr_reached;
    create temp table olr_reached on commit drop as
    select pid, 2 * off as cost, null::int as before from olr_spot where is_open and point = 1;
    for k in 2 .. count loop
        insert into olr_reached
        select distinct on (it.pid) it.pid, reached.cost + way.agg_cost + 2 * it.off, reached.pid
        from pgr_dijkstraCost(olr_keep.steps(box, k), array(select -pid from olr_spot where is_open and point = k - 1)::bigint[],
            array(select -pid from olr_spot where is_open and point = k)::bigint[]) as way
        join olr_reached as reached on reached.pid = -way.start_vid join olr_spot as it on it.pid = -way.end_vid
        order by it.pid, reached.cost + way.agg_cost + 2 * it.off;
    end loop;
    select it.cost, array[it.pid] into cost, pids from olr_reached as it join olr_spot using (pid) where point = count order by 1 limit 1;
    if cost is null or cost > most then
        cost := null;
        return;
    end if;
    while cardinality(pids) < count loop
        pids := (select before from olr_reached where pid = pids[1]) || pids;
    end loop;
    select * into one from olr_spot where pid = pids[1];
    select * into other from olr_spot where pid = pids[count];
    lines := array[one.line];
    for k in 2 .. count loop
        lines := lines || array(select node from pgr_dijkstra(olr_keep.steps(box, k), -pids[k - 1]::bigint, -pids[k]::bigint)
            where node > 0 order by seq);
    end loop;
    begins := one.at;
    ends := other.at;
    if cardinality(lines) > 1 and begins >= one.metres - 0.05 then
        lines := lines[2:];
        begins := 0;
    end if;
    if cardinality(lines) > 1 and ends <= 0.05 then
        lines := lines[:cardinality(lines) - 1];
        ends := (select length / 10.0 from olr_keep.line where line = lines[cardinality(lines)]);
    end if;
end $$;
comment on function olr_keep.least_route is 'The route over a place of each point of the table olr_spot that costs least.';

create or replace function olr_keep.another_route(count int, tolerance float8, first record) returns bigint[] language plpgsql
set search_path = pg_catalog, public, pg_temp as $$
declare
    taken text[] := array(select 'l' || olr_keep.road(it) from unnest(first.lines) as it)
        || array(select 'n' || node from olr_keep.line cross join unnest(array[from_node, to_node]) as node where line = any(first.lines));
    twin bigint := (select other.line from olr_keep.line as it join olr_keep.line as other on other.geom && it.geom
        and (other.from_node, other.to_node) = (it.from_node, it.to_node) and other.line <> it.line and abs(other.length - it.length) <= 10
        and split_part(other.fields, ',', 1) = split_part(it.fields, ',', 1) and split_part(other.fields, ',', 2) = split_part(it.fields, ',', 2)
        and not ST_OrderingEquals(ST_Reverse(other.geom), it.geom) where it.line = any(first.lines) limit 1);
    one record;
    second record;
    whole float8;
    apart float8;
begin
    if twin is not null then
        return array[twin];
    end if;
    for one in select distinct point, road from olr_spot where road <> all(taken) order by point, road loop
        update olr_spot set is_open = point <> one.point or road = one.road;
        select * into second from olr_keep.least_route(count, 1.1 * first.cost);
        if second.cost is not null then
            select sum(far), sum(far) filter (where 'l' || olr_keep.road(line) <> all(taken)) into whole, apart from (
                select line, case when line = second.lines[cardinality(second.lines)] then second.ends else length / 10.0 end
                    - case when line = second.lines[1] then second.begins else 0 end as far
                from olr_keep.line where line = any(second.lines)) as parts;
            if apart > least(2 * tolerance, whole - 0.05) then
                return array(select it from unnest(second.lines) as it where it <> all(first.lines));
            end if;
        end if;
    end loop;
    return null;
end $$;

create or replace function olr_keep.route(name text, points geometry[], tolerance float8 default 20, nearest boolean default false)
returns text language plpgsql set search_path = pg_catalog, public, pg_temp as $$
declare
    count int := cardinality(points);
    straight float8 := (select sum(ST_DistanceSphere(points[k], points[k + 1])) from generate_series(1, count - 1) as k);
    missing int;
    first record;
    other bigint[];
    length float8;
    drawn geometry;
begin
    if count < 2 or not tolerance between 1 and 100 then
        raise exception 'two points or more are needed, and a tolerance from 1 to 100 m';
    end if;
    perform olr_keep.make_spots(points, tolerance);
    select k into missing from generate_series(1, count) as k where not exists (select from olr_spot where point = k) limit 1;
    if missing is not null then
        raise exception 'no line is within % m of point %', tolerance, missing;
    end if;
    foreach length in array array[3 * straight + 500, 12 * straight + 2000, 100000 + 2 * count * tolerance] loop
        select * into first from olr_keep.least_route(count, length);
        exit when first.cost is not null;
    end loop;
    length := first.cost - 2 * (select sum(off) from olr_spot where pid = any(first.pids));
    if first.cost is null or length > 100000 then
        raise exception 'no route of at most 100 km leads over its points';
    elsif length < 1 then
        raise exception 'its points are less than 1 m apart on their road';
    elsif cardinality(first.lines) > (select count(distinct it) from unnest(first.lines) as it) then
        raise exception 'it leads over a line twice in the same direction';
    end if;
    other := case when nearest then null else olr_keep.another_route(count, tolerance, first) end;
    if other is not null then
        raise exception 'it may lead over line % or over line %, which is nearly as far: nearest takes the first',
            array_to_string(first.lines, ', '), array_to_string(other, ', ');
    end if;
    select ST_RemoveRepeatedPoints(ST_MakeLine(part order by step)) into drawn from (
        select step, ST_LineSubstring(it.geom, case when step = 1 and first.begins > 0 then ST_LineLocatePoint(it.geom, one.place) else 0 end,
            case when step = cardinality(first.lines) and first.ends < it.length / 10.0 then ST_LineLocatePoint(it.geom, last.place) else 1 end) as part
        from unnest(first.lines) with ordinality as taken(line, step) join olr_keep.line as it using (line)
        join olr_spot as one on one.pid = first.pids[1] join olr_spot as last on last.pid = first.pids[count]) as parts;
    insert into olr_keep.path (name, course) values (route.name, drawn);
    return format('%s m over line %s; its points are %s m off', round(length), array_to_string(first.lines, ', '),
        (select string_agg(round(off)::text, ', ' order by point) from olr_spot where pid = any(first.pids)));
end $$;
comment on function olr_keep.route is 'Adds a path from a first point over others to a last one.';
