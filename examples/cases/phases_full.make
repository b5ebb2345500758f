# One more GO than a script may have.
yes GO | head -n 65537
