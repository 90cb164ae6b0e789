-- The village at the equator as a table without nodes, as tools/postgis-split.sql reads it: the main street is one row.
create table streets (id text, class smallint, form smallint, direction text, geom geometry);
insert into streets values
    ('main', 3, 3, 'both', 'SRID=4326;LINESTRING(0 0, 0.001 0, 0.001 0, 0.0015 0, 0.002 0, 0.003 0)'),
    -- one-way, from a vertex of it to another
    ('bend', 6, 3, 'along', 'SRID=4326;LINESTRING(0.001 0, 0.0015 0.001, 0.002 0)'),
    -- ends on it
    ('down', 4, 3, 'against', 'SRID=4326;LINESTRING(0.002 0.00000001, 0.002 -0.001)'),
    -- crosses it by a bridge, without a common vertex
    ('bridge', 2, 3, 'both', 'SRID=4326;LINESTRING(0.0025 -0.001, 0.0025 0.001)'),
    -- a loop
    ('loop', 7, 3, 'both', 'SRID=4326;LINESTRING(0 0, 0 0.001, -0.001 0.001, 0 0)');
create table region (geom geometry);
insert into region values ('SRID=4326;POLYGON((-0.02 -0.02, 0.02 -0.02, 0.02 0.02, -0.02 0.02, -0.02 -0.02))');
