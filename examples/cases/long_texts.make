# The longest statement, one of a byte more, and a text of a byte more than a TEXT may have.
printf 'a> %065536d\n' 0
printf 'a> %065537d\n' 0
echo 'a> CREATE TABLE p (id INT, name TEXT) KEY id'
printf 'a> PUT p\nid,name\n1,%065535d\n\\.\n' 0
printf 'a> PUT p\nid,name\n2,%065536d\n\\.\n' 0
echo 'a> SELECT id FROM p'
