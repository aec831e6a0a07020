# Explains a fault of a job log.

# What is known of the jobs: the listing of the object, the script ($1) and the modes of its run; nothing where no proved program stands.
of_jobs() {
	[ "$now" = proved ] && [ -n "$1" ] || return 0
	"$program" show "$shown" >"$room/listing" 2>/dev/null
	"$program" run "$shown" <"$1" 2>/dev/null | grep '^m ' >"$room/modes"
}

# The line of a log with a caret below what is wrong, and the jobs that it is about. $1 the script, $2 the line, $3 the kind.
at_log_line() {
	: >"$room/listing"
	: >"$room/modes"
	of_jobs "$1"
	{ cat <"$job_log" >"$room/log"; } 2>/dev/null
	# By redirection: an awk may take the name /dev/fd/3 for the descriptor, of which the program has read all.
	LC_ALL=C awk -v number="$2" -v kind="$3" -f "$tools/log.awk" reading=listing "$room/listing" reading=script - reading=run "$room/modes" reading=log "$room/log" <"${1:-/dev/null}" >"$room/jobs" 2>/dev/null
	read -r start column <"$room/jobs" || start=0 column=0
	if [ "$3" = short ]; then
		echo "$job_log:$2: $meaning"
	else
		echo "$job_log:$2:$((column + 1)): $meaning"
		excerpt "$job_log" $((start + column)) "$start"
	fi
	sed '1d; s/^/    /' "$room/jobs"
}
