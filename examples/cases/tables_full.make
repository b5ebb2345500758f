# 65 tables, of which there may be 64.
for number in $(seq 65); do echo "a> CREATE TABLE t$number (k INT) KEY k"; done
