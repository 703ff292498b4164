-- A window as wide as the series, that moves with each tick: the sum of its rows.
with events(p, value, members) as (
    select start, value, 1 from x
    union all select "end", 0, 0 from x
    union all select start + 3999999, 0, 0 from x
    union all select "end" + 3999999, -value, -1 from x
),
totals as (
    select p, lead(p, 1, 8000000) over (order by p) as q, sum(sum(value)) over (order by p) as total,
        sum(sum(members)) over (order by p) as members
    from events where p < 8000000 group by p
)
select p, q, total from totals where members > 0 order by p;
