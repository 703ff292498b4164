-- Twenty operators on two series.
with points(p) as (
    select 0 union select start from x union select "end" from x union select start from y union select "end" from y
),
stretches as (
    select p, lead(p, 1, 8000000) over (order by p) as q from points where p >= 0 and p < 8000000
),
cells as (
    select p, q,
        (select case when "end" > p then value end from x where start <= p order by start desc limit 1) as x,
        (select case when "end" > p then value end from y where start <= p order by start desc limit 1) as y
    from stretches
),
joined as (
    select p, q, case when x is null then y * 2 - 1
        else (3 * x - 2 * ifnull(y, 5) + 1) / 7 + x % 11 - 8 * (x - ifnull(y, x)) % 13 end as v
    from cells where ifnull(x <> y, 1)
)
select p, q, v from joined where v is not null order by p;
