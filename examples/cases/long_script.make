# A script of more than 65,536 bytes, the most that one read gives.
echo 'a> CREATE TABLE t (k INT) KEY k'
echo 'a> PUT t'
echo k
seq 1 20000
echo '\.'
echo 'a> SUM k FROM t OVER SYSTEM ALL'
