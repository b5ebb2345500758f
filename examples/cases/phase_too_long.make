# A phase, and then one with more bytes than a phase may have: 65 of the longest lines.
echo 'a> S'
echo GO
for _ in {1..65}; do printf '#%01048575d\n' 0; done
