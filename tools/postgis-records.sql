-- Prints the records of the roads of a region, from a table of roads in PostGIS:
--
--     psql -AtXq -f tools/postgis-records.sql -o map.csv.new DATABASE && mv map.csv.new map.csv
--
-- It reads two tables, or views of these names:
--
--     roads(id, start_node, end_node, class, form, direction, geom)
--         id          1 to 2147483646; a road's lines are 2 id along its geometry and 2 id + 1 against it
--         start_node  1 to 4294967295, the node at the first point of the geometry; end_node that at the last
--         class       functional road class, 0 to 7
--         form        form of way, 0 to 7
--         direction   'both', 'along' or 'against': the directions in which the road may be driven
--         geom        geometry(LineString, 4326)
--     region(geom)    the region's polygons, with the margin by which regions overlap; without this table all roads count
--
-- A road that meets the region is included whole, with both its nodes, even if it crosses the border. Invalid values stop
-- the query with a message that lists the roads, up to 20 for each reason, and so does a region that no road meets. Then no record is printed
-- and the status is not 0, so that map.csv stays as it is. A table without nodes, whose roads
-- continue across junctions, is converted by tools/postgis-split.sql.

\set ON_ERROR_STOP on

begin isolation level repeatable read;
set local work_mem = '256MB';
set local jit = off;

do $$
declare
    wrong text;
begin
    select string_agg(format('road %s: %s', array_to_string(ids[:20], ', ')
        || case when cardinality(ids) > 20 then format(' and %s others', cardinality(ids) - 20) else '' end, reason), E'\n' order by first)
    into wrong
    from (select reason, array_agg(coalesce(id::text, 'without id') order by id) as ids, min(id) as first from (
        select id, case
            when num_nulls(id, start_node, end_node, class, form, direction, geom) > 0 then 'a column is NULL'
            when direction not in ('both', 'along', 'against')
                then format('direction is %L, and has to be both, along or against', direction)
            when ST_GeometryType(geom) <> 'ST_LineString'
                then format('geom is of type %s, and has to be a LineString; ST_Dump gives the parts', ST_GeometryType(geom))
            when ST_SRID(geom) <> 4326 then format('geom has SRID %s; ST_Transform(geom, 4326) gives degrees', ST_SRID(geom))
            when ST_NPoints(geom) < 2 then 'geom is empty'
            when id not between 1 and 2147483646 then 'id has to be 1 to 2147483646'
            when least(start_node, end_node) < 1 or greatest(start_node, end_node) > 4294967295
                then 'start_node and end_node have to be 1 to 4294967295'
            when class not between 0 and 7 then format('class is %s, and has to be 0 to 7', class)
            when form not between 0 and 7 then format('form is %s, and has to be 0 to 7', form)
            when ST_XMin(geom) < -180 or ST_XMax(geom) > 179.9999 or ST_YMin(geom) < -89.9999 or ST_YMax(geom) > 89.9999
                then 'geom is beyond the longitudes -180 to 179.9999 or the latitudes -89.9999 to 89.9999'
        end as reason
        from roads
    ) as judged where reason is not null group by reason) as by_reason;
    if wrong is not null then
        raise exception '%', wrong;
    end if;
end $$;

select to_regclass('region') is null as has_no_region \gset
\if :has_no_region
create temporary table region on commit drop as select ST_SetSRID(ST_Extent(geom)::geometry, 4326) as geom from roads;
\endif

create temporary table road on commit drop as
select roads.* from roads
where exists (select from region where ST_Intersects(region.geom, roads.geom));
analyze road;

do $$
declare
    wrong text;
begin
    if not exists (select from road) then
        raise exception 'no road meets the region';
    end if;
    select format('id %s is that of %s roads', id, count(*)) into wrong from road group by id having count(*) > 1 limit 1;
    if wrong is null then
        select format('node %s is at several places: that at the start of road %s is not where the others are', node, id) into wrong
        from (
            select node, id, place, first_value(place) over (partition by node order by id) as other
            from (
                select start_node as node, id, ST_StartPoint(geom) as place from road
                union all
                select end_node, id, ST_EndPoint(geom) from road
            ) as ends
        ) as compared
        where ST_Distance(place, other) > 0.00001 and ST_DistanceSphere(place, other) > 1
        order by node, id
        limit 1;
    end if;
    if wrong is not null then
        raise exception '%', wrong;
    end if;
end $$;

-- The length of a road in decimetres, and the shape points of its two lines: the vertices between the ends whose distances
-- ascend. Lengths are those of the spheroid, distributed between the vertices by the spheroid's two radii there.
create function pg_temp.measured(road geometry, out len bigint, out along text, out against text) language plpgsql as $$
declare
    places text[] := string_to_array(translate(ST_AsText(ST_Force2D(road), 7), ', LINESTRING()', ';,'), ';');
    count int := array_length(places, 1);
    far float8[];
    here float8 := 0;
    x float8; y float8; last_x float8; last_y float8; east float8; north float8; sine float8; bend float8; scale float8;
    at bigint; before bigint := 0;
begin
    for k in 1 .. count loop
        x := split_part(places[k], ',', 1)::float8;
        y := split_part(places[k], ',', 2)::float8;
        if k > 1 then
            east := x - last_x;
            north := y - last_y;
            sine := sin(radians(y + last_y) / 2);
            bend := 1 - 0.00669437999014 * sine * sine;
            here := here + sqrt((1 - sine * sine) * east * east / bend + 0.98665605 * north * north / (bend * bend * bend));
        end if;
        far[k] := here;
        last_x := x;
        last_y := y;
    end loop;
    scale := case when here > 0 then 10 * ST_Length(road::geography) / here else 0 end;
    len := greatest(1, round(scale * here));
    for k in 2 .. count - 1 loop
        at := round(scale * far[k]);
        if at > before and at < len then
            along := concat(along, ',', at, ',', places[k]);
            against := concat(',', len - at, ',', places[k], against);
            before := at;
        end if;
    end loop;
end $$;

with shape as materialized (
    select road.*, measured.* from road, pg_temp.measured(geom) as measured
),
node as (
    select distinct on (node) node, place
    from (
        select start_node as node, id, ST_StartPoint(geom) as place from road
        union all
        select end_node, id, ST_EndPoint(geom) from road
    ) as ends
    order by node, id
),
record as (
    select 1 as part, node::bigint as number,
        format('node,%s,%s', node, translate(ST_AsText(ST_Force2D(place), 7), ' POINT()', ',')) as text
    from node
    union all
    select 2, 2 * id, format('line,%s,%s,%s,%s,%s,%s%s', 2 * id, start_node, end_node, class, form, len, along)
    from shape where direction in ('both', 'along')
    union all
    select 2, 2 * id + 1, format('line,%s,%s,%s,%s,%s,%s%s', 2 * id + 1, end_node, start_node, class, form, len, against)
    from shape where direction in ('both', 'against')
)
select text from record order by part, number;

commit;
