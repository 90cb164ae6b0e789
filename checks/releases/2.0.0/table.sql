create table published (name text primary key, answer text not null, changed text not null, "user" text not null,
    position bigint not null);
create table history (position bigint primary key, name text not null, answer text not null, changed text not null,
    "user" text not null);
create index history_name on history (name, position);
insert into history values (1, 'a', 'text,A', '2026-01-01T00:00:00.000Z', 'jane'), (2, 'a', 'text,B', '2026-01-02T00:00:00.000Z', 'joe');
insert into published values ('a', 'text,B', '2026-01-02T00:00:00.000Z', 'joe', 2)
