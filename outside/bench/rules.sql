-- The four rules as queries over the tables of tables.sql. They are run in this order, and the first that gives a row ends the run:
-- the row is the answer, code, place, schema place, count, property. If none gives a row, the graph conforms.

delete from node_fit;
delete from edge_fit;

-- which schema nodes each node fits: equal labels, and none of (b), (c), (d) broken
insert into node_fit
select n.id, s.id
from node n join schema_node s on s.labels = n.labels
where not exists (
        select 1 from schema_property l
        where l.of = 0 and l.object = s.id and l.optional = 0
          and not exists (select 1 from property p where p.of = 0 and p.object = n.id and p.name = l.name))
  and (s.open = 1 or not exists (
        select 1 from property p
        where p.of = 0 and p.object = n.id
          and not exists (select 1 from schema_property l where l.of = 0 and l.object = s.id and l.name = p.name)))
  and not exists (
        select 1 from property p join schema_property l on l.of = 0 and l.object = s.id and l.name = p.name
        where p.of = 0 and p.object = n.id and l.type <> p.kind);

-- rule 1: near is the lowest schema node of equal labels, and then come the lowest names at fault there by (b), by (c) and by (d)
with
    bad as (
        select n.id, n.labels from node n
        where not exists (select 1 from node_fit f where f.node = n.id)
        order by n.id limit 1),
    near as (
        select s.id, s.open from schema_node s join bad on s.labels = bad.labels
        order by s.id limit 1),
    told as (
        select
            bad.id as node,
            near.id as near,
            (select min(l.name) from schema_property l
             where l.of = 0 and l.object = near.id and l.optional = 0
               and not exists (select 1 from property p where p.of = 0 and p.object = bad.id and p.name = l.name)) as missing,
            (select min(p.name) from property p
             where p.of = 0 and p.object = bad.id and near.open = 0
               and not exists (select 1 from schema_property l where l.of = 0 and l.object = near.id and l.name = p.name)) as unlisted,
            (select min(p.name) from property p join schema_property l on l.of = 0 and l.object = near.id and l.name = p.name
             where p.of = 0 and p.object = bad.id and l.type <> p.kind) as mistyped
        from bad left join near)
select
    case when near is null then 21 else 22 end,
    node,
    coalesce(near, 0),
    case when missing is not null then 1 when unlisted is not null then 2 when mistyped is not null then 3 else 0 end,
    coalesce(missing, unlisted, mistyped, 0)
from told;

-- which schema edges each edge fits
insert into edge_fit
select s.id, e.id
from edge e join schema_edge s on s.labels = e.labels
where not exists (
        select 1 from schema_property l
        where l.of = 1 and l.object = s.id and l.optional = 0
          and not exists (select 1 from property p where p.of = 1 and p.object = e.id and p.name = l.name))
  and (s.open = 1 or not exists (
        select 1 from property p
        where p.of = 1 and p.object = e.id
          and not exists (select 1 from schema_property l where l.of = 1 and l.object = s.id and l.name = p.name)))
  and not exists (
        select 1 from property p join schema_property l on l.of = 1 and l.object = s.id and l.name = p.name
        where p.of = 1 and p.object = e.id and l.type <> p.kind);

-- rule 2: near is the lowest schema edge of equal labels where the edge fits none, and then as in rule 1
with
    bad as (
        select e.id, e.labels, e.source from edge e
        where not exists (
            select 1 from edge_fit f
            join schema_edge s on s.id = f.schema_edge
            join node_fit a on a.schema_node = s.source and a.node = e.source
            join node_fit b on b.schema_node = s.target and b.node = e.target
            where f.edge = e.id)
        order by e.id limit 1),
    fit as (
        select s.id, s.source from edge_fit f join bad on f.edge = bad.id join schema_edge s on s.id = f.schema_edge
        order by s.id limit 1),
    near as (
        select s.id, s.open from schema_edge s join bad on s.labels = bad.labels
        where not exists (select 1 from fit)
        order by s.id limit 1),
    told as (
        select
            bad.id as edge,
            fit.id as fit,
            near.id as near,
            exists (select 1 from node_fit a where a.schema_node = fit.source and a.node = bad.source) as source_fits,
            (select min(l.name) from schema_property l
             where l.of = 1 and l.object = near.id and l.optional = 0
               and not exists (select 1 from property p where p.of = 1 and p.object = bad.id and p.name = l.name)) as missing,
            (select min(p.name) from property p
             where p.of = 1 and p.object = bad.id and near.open = 0
               and not exists (select 1 from schema_property l where l.of = 1 and l.object = near.id and l.name = p.name)) as unlisted,
            (select min(p.name) from property p join schema_property l on l.of = 1 and l.object = near.id and l.name = p.name
             where p.of = 1 and p.object = bad.id and l.type <> p.kind) as mistyped
        from bad left join fit left join near)
select
    case when fit is not null then 25 when near is not null then 24 else 23 end,
    edge,
    coalesce(fit, near, 0),
    case
        when fit is not null then 1 + source_fits
        when missing is not null then 1 when unlisted is not null then 2 when mistyped is not null then 3 else 0
    end,
    coalesce(missing, unlisted, mistyped, 0)
from told;

-- rule 3: the target interval bounds what leaves the source
with counted as materialized (
    select f.schema_edge, e.source as node, count(*) as number
    from edge_fit f
    join edge e on e.id = f.edge
    join schema_edge s on s.id = f.schema_edge
    join node_fit b on b.schema_node = s.target and b.node = e.target
    group by f.schema_edge, e.source)
select
    case when coalesce(c.number, 0) < s.target_minimum then 31 else 32 end,
    a.node, s.id, coalesce(c.number, 0), 0
from schema_edge s
join node_fit a on a.schema_node = s.source
left join counted c on c.schema_edge = s.id and c.node = a.node
where coalesce(c.number, 0) < s.target_minimum or coalesce(c.number, 0) > s.target_maximum
order by s.id, a.node limit 1;

-- rule 4: the source interval bounds what reaches the target
with counted as materialized (
    select f.schema_edge, e.target as node, count(*) as number
    from edge_fit f
    join edge e on e.id = f.edge
    join schema_edge s on s.id = f.schema_edge
    join node_fit a on a.schema_node = s.source and a.node = e.source
    group by f.schema_edge, e.target)
select
    case when coalesce(c.number, 0) < s.source_minimum then 33 else 34 end,
    b.node, s.id, coalesce(c.number, 0), 0
from schema_edge s
join node_fit b on b.schema_node = s.target
left join counted c on c.schema_edge = s.id and c.node = b.node
where coalesce(c.number, 0) < s.source_minimum or coalesce(c.number, 0) > s.source_maximum
order by s.id, b.node limit 1;
