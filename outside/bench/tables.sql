-- A graph and a schema as tables, filled by sql.c before anything is timed. A label set is one 64-bit integer. Property rows and
-- listed rows say whose they are: of = 0 for nodes, 1 for edges. A maximum that means "any" is null.

create table node (id integer primary key, labels integer not null);
create table edge (id integer primary key, labels integer not null, source integer not null, target integer not null);
create table property (
    of integer, object integer, name integer, kind integer not null, value,
    primary key (of, object, name)
) without rowid;

create table schema_node (id integer primary key, labels integer not null, open integer not null);
create table schema_edge (
    id integer primary key, labels integer not null, source integer not null, target integer not null, open integer not null,
    source_minimum integer not null, source_maximum integer, target_minimum integer not null, target_maximum integer
);
create table schema_property (
    of integer, object integer, name integer, type integer not null, optional integer not null,
    primary key (of, object, name)
) without rowid;

create index node_labels on node (labels);
create index edge_labels on edge (labels);
create index edge_source on edge (source);
create index edge_target on edge (target);
create index schema_node_labels on schema_node (labels);
create index schema_edge_labels on schema_edge (labels);

-- What fits what. Empty here: the queries fill them, and that is timed.
create temp table node_fit (node integer, schema_node integer, primary key (schema_node, node)) without rowid;
create index temp.node_fit_node on node_fit (node);
create temp table edge_fit (schema_edge integer, edge integer, primary key (edge, schema_edge)) without rowid;
