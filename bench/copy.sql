-- Reading and printing alone.
select start, "end", value from x order by start;
