# A phase, and then a line that is longer than a line may be.
echo 'a> S'
echo GO
printf '#%01048576d\n' 0
