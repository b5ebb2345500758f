# A block of 1,000,001 records, of which there may be 1,000,000.
echo 'a> CREATE TABLE t (k INT) KEY k'
echo 'a> PUT t'
echo k
seq 1000001
echo '\.'
