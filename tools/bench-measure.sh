# What tools/bench measures of one run, and the line that it prints of it.

# Writes the input of a kind, $1, with awk variables as further words, to the file that `input` names.
make() {
	kind=$1
	shift
	for it in "$@"; do
		set -- "$@" -v "$it"
		shift
	done
	awk "$@" -v kind="$kind" -f "$tools/bench-sources.awk" -f "$tools/bench-plants.awk" \
		-f "$tools/bench-inputs.awk" >"$input"
}

# The processor seconds between two files that `times` wrote, of the commands that ended meanwhile.
between() {
	cat "$1" "$2" | awk 'NR % 2 == 0 {
		split($1, user, "m")
		split($2, kernel, "m")
		before = now
		now = (user[1] + kernel[1]) * 60 + user[2] + kernel[2]
	}
	END { print now - before }'
}

# Runs the program once with the words given; `input` is its standard input. Sets `took` and `answer`.
run_once() {
	times >"$room/before"
	"$program" "$@" <"$input" >"$room/out" 2>"$room/err"
	status=$?
	times >"$room/after"
	took=$(between "$room/before" "$room/after")
	answer=$(sed -n 's/^htl: //p' "$room/err" | tail -n 1)
	[ "$status" -lt 12 ] || answer="ended with status $status"
}

# The least seconds of five runs, in `least`; of one run where that took more than a second.
seconds() {
	run_once "$@"
	least=$took
	for again in 2 3 4 5; do
		is_less "$least" 1 || break
		run_once "$@"
		is_less "$least" "$took" || least=$took
	done
}

is_less() { awk -v a="$1" -v b="$2" 'BEGIN { exit !(a < b) }'; }

# The instructions of a run, or `-`.
instructions() {
	if [ -z "$counter" ] || ! is_less "$least" "$long"; then
		echo -
		return
	fi
	$counter "$program" "$@" <"$input" 2>&1 >/dev/null |
		awk '/I *refs:/ { gsub(/,/, ""); n = $NF } END { print n ? n : "-" }'
}

# A row: $1 its label, $2 what is counted, $3 how many, $4 the file whose size is told, $5 instructions that don't
# count, or `-`; then the words. `input` is the standard input.
row() {
	label=$1 unit=$2 units=$3 sized=$4 base=$5
	shift 5
	seconds "$@"
	set -- "$(instructions "$@")"
	bytes=$(wc -c <"$sized")
	lines=$(wc -l <"$sized")
	[ "$units" != bytes ] || units=$bytes
	awk -v label="$label" -v bytes="$((bytes))" -v lines="$((lines))" -v seconds="$least" -v count="$1" \
		-v units="$units" -v unit="$unit" -v base="$base" -v answer="$answer" 'BEGIN {
		each = count == "-" || base == "-" ? "-" : sprintf("%.1f", (count - base) / units)
		printf "%-34s %9d %8d %8.2f %15s %12s a %-10s%s\n", label, bytes, lines, seconds, count, each, unit, answer
	}'
}
