# How long the crates of the program take to be proved: what each took last time here, else what stands in tools/crate-seconds.txt,
# seconds of a first proof of an hour, shared out as one run on a busy machine went.
taken=$crate/out/prove.seconds

# The crates below both programs and the programs themselves, each behind those that it uses.
crates() {
	awk '
	{
		sub(/#.*/, "")
		split($0, part, ":")
		split(part[1], head, " ")
		uses[head[1]] = part[2]
	}
	function visit(name,    n, i, below) {
		if (seen[name]++ || !(name in uses)) return
		n = split(uses[name], below, " ")
		for (i = 1; i <= n; i++) visit(below[i])
		print name
	}
	END {
		visit("htl")
		visit("times")
	}' "$here/crates.txt"
}

# Each of these crates with its seconds; one of which nothing is known has the mean of the others.
seconds_of_crates() {
	{
		cat "$tools/crate-seconds.txt" "$taken" 2>/dev/null
		crates
	} | awk '
	NF == 2 { took[$1] = $2 }
	NF == 1 { name[++n] = $1 }
	END {
		for (i = 1; i <= n; i++) if (name[i] in took) { sum += took[name[i]]; known++ }
		for (i = 1; i <= n; i++) print name[i], (name[i] in took ? took[name[i]] : known ? int(sum / known) : 60)
	}'
}

# The minutes of all of them together.
all_minutes() { seconds_of_crates | awk '{ sum += $2 } END { print int((sum + 59) / 60) }'; }

# How long a first proof takes, in words.
first_time() { echo "in about $(all_minutes) minutes"; }
