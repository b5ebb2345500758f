# A phase of two sessions, and one with more sessions than there may be.
echo 'first> S'
echo 'second> S'
echo GO
for number in {1..63}; do echo "s$number> S"; done
