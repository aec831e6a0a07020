# Over a listing and the lines of a run behind it: by when each job was done at the latest, in ticks from the start of its round; a line each.

$1 == "mode" && $3 == "period" { period[$2] = $4 }

$1 == "inv" { name[++invs] = $2 }

$1 == "d" && NF == 3 {
	its_mode = $3
	sub(/\.[^.]*$/, "", its_mode)
	at = ($2 - 1) % period[its_mode] + 1
	if (at > latest[$3]) latest[$3] = at
}

END { for (i = 1; i <= invs; i++) if (name[i] in latest) print name[i], latest[name[i]] }
