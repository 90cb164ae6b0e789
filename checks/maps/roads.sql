-- A village at the equator: a table of roads as tools/postgis-records.sql reads it, and a region whose border cuts road 5.
create table roads (
    id bigint primary key, start_node bigint not null, end_node bigint not null,
    class smallint not null, form smallint not null, direction text not null, geom geometry(LineString, 4326) not null
);
insert into roads values
    (1, 101, 102, 3, 3, 'both', 'SRID=4326;LINESTRING(0 0, 0.001 0)'),
    (2, 102, 103, 3, 3, 'both', 'SRID=4326;LINESTRING(0.001 0, 0.002 0)'),
    -- one-way, with a bend, and a vertex that comes twice
    (3, 102, 103, 6, 3, 'along', 'SRID=4326;LINESTRING(0.001 0, 0.0015 0.001, 0.0015 0.001, 0.002 0)'),
    -- driven against its geometry
    (4, 103, 104, 4, 3, 'against', 'SRID=4326;LINESTRING(0.002 0, 0.002 -0.001)'),
    -- across the border
    (5, 103, 105, 2, 3, 'both', 'SRID=4326;LINESTRING(0.002 0, 0.004 0, 0.008 0)'),
    -- beyond it
    (6, 105, 106, 2, 3, 'both', 'SRID=4326;LINESTRING(0.008 0, 0.009 0)');
create table region (geom geometry(Polygon, 4326));
insert into region values ('SRID=4326;POLYGON((-0.002 -0.002, 0.005 -0.002, 0.005 0.002, -0.002 0.002, -0.002 -0.002))');
