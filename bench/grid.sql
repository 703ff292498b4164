-- The average of ten ticks on a grid of ten, where it is above a limit, for rows of one tick.
with averages as (
    select start / 10 * 10 as p, sum(value) / count(value) as average from x group by start / 10
),
compared as (
    select p, average - (select case when "end" >= p + 10 then value end from "limit" where start < p + 10 order by start desc limit 1) as v
    from averages
)
select p, p + 10, v from compared where v > 0 order by p;
