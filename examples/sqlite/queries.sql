-- Reads the table that make_table.py makes, with room for 64 pages in sqlite itself, so that most reads come to the system:
--
--     strace -f -e trace=desc,process -s 0 -o log sqlite3 things.db < queries.sql
pragma cache_size = 64;
-- a thousand rows by number, the low ones more often
with recursive draw(i, x) as (select 0, 7 union all select i + 1, (x * 1103515245 + 12345) % 2147483648 from draw where i < 1000)
select count(t.text) from draw join things t on t.number = (x / 65536) % (1 + (x / 256) % 20000);
-- a range, twice
select max(text) from things where number between 9000 and 9400;
select min(text) from things where number between 9000 and 9400;
-- the whole table, once: a scan
select count(*) from things where text like '%abcdef%';
-- rows by number again
with recursive draw(i, x) as (select 0, 99 union all select i + 1, (x * 1103515245 + 12345) % 2147483648 from draw where i < 1500)
select count(t.text) from draw join things t on t.number = (x / 65536) % (1 + (x / 256) % 20000);
-- rows by word, through the index
with recursive draw(i, x) as (select 0, 3 union all select i + 1, (x * 1103515245 + 12345) % 2147483648 from draw where i < 500)
select count(t.text) from draw join things t on t.word >= printf('%04x', (x / 65536) % 65536) and t.word < printf('%04xg', (x / 65536) % 65536);
-- rows by number again, the same as at the beginning
with recursive draw(i, x) as (select 0, 7 union all select i + 1, (x * 1103515245 + 12345) % 2147483648 from draw where i < 1000)
select count(t.text) from draw join things t on t.number = (x / 65536) % (1 + (x / 256) % 20000);
