# Stored tables that lost all but their first words are refused, whatever is asked, and nothing is changed.
tables damaged.words
10 enter 0
20 check /in
raw 2800
